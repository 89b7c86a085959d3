use crate::opening::inputs_fit;
use crate::rules::{test_allowance, Expression, Rule};
use crate::session::{test_numbers, Input};
use crate::words::{on_words, Value, Word, IS_FALSE, IS_PROCEDURE, IS_WORD};
use crate::Outcome;

/// A procedure record with the bindings where it was met.
#[derive(Clone, Copy)]
struct Closure {
    record: u16,
    body: u16,
    environment: usize,
}

type Plain = Value<Closure>;

/// One place of the store; the last input's next is never followed.
struct Binding {
    value: Plain,
    next: usize,
}

struct Runner<'a> {
    rule: &'a Rule,
    store: Vec<Binding>,
    places: usize,
}

/// Runs one rule on its own, with the store's length in bytes.
pub fn run(
    inputs: &[Input; 16],
    numbers: &[Word; 16],
    rule: &[u8],
    allowance: u16,
    store_len: usize,
) -> Outcome {
    let rule = match test(inputs, numbers, rule, allowance) {
        Ok(rule) => rule,
        Err(refusal) => return Outcome::Refused(refusal),
    };
    let mut runner = Runner {
        rule: &rule,
        store: Vec::new(),
        places: (store_len / 8).min(8_192),
    };
    match runner.start(inputs, numbers, allowance) {
        Ok(Value::Truth(truth)) => Outcome::Truth(truth),
        Ok(Value::Word(word)) => Outcome::Word(word),
        Ok(Value::Procedure(closure)) => Outcome::Procedure(closure.record),
        Err(stop) => stop,
    }
}

fn test(
    inputs: &[Input; 16],
    numbers: &[Word; 16],
    rule: &[u8],
    allowance: u16,
) -> Result<Rule, u8> {
    if !inputs_fit(inputs) {
        return Err(2);
    }
    test_numbers(inputs, numbers)?;
    let rule = Rule::parse(rule)?;
    test_allowance(allowance)?;
    Ok(rule)
}

fn input_value(input: &Input, number: Word) -> Plain {
    match input.kind {
        0 => Value::Truth(input.value == 1),
        1 => Value::Word(input.value),
        2 => Value::Truth(number == 1),
        _ => Value::Word(number),
    }
}

impl Runner<'_> {
    fn start(
        &mut self,
        inputs: &[Input; 16],
        numbers: &[Word; 16],
        allowance: u16,
    ) -> Result<Plain, Outcome> {
        let mut environment = 0;
        for (input, &number) in inputs.iter().zip(numbers).rev() {
            environment = self.bind(input_value(input, number), environment)?;
        }
        self.express(0, environment, allowance)
    }

    /// Takes the next place; places are never given back within a run.
    fn bind(&mut self, value: Plain, next: usize) -> Result<usize, Outcome> {
        if self.store.len() >= self.places {
            return Err(Outcome::Refused(16));
        }
        self.store.push(Binding { value, next });
        Ok(self.store.len() - 1)
    }

    fn look_up(&self, environment: usize, place: u16) -> Plain {
        let mut number = environment;
        for _ in 0..place {
            number = self.store[number].next;
        }
        self.store[number].value
    }

    fn express(&mut self, record: u16, environment: usize, left: u16) -> Result<Plain, Outcome> {
        let rest = left.checked_sub(1).ok_or(Outcome::Refused(12))?;
        match self.rule.expression(record) {
            Expression::Truth(truth) => Ok(Value::Truth(truth)),
            Expression::Word(word) => Ok(Value::Word(word)),
            Expression::Variable(place) => Ok(self.look_up(environment, place)),
            Expression::Procedure { body } => Ok(Value::Procedure(Closure {
                record,
                body,
                environment,
            })),
            Expression::Call {
                procedure,
                argument,
            } => {
                let argument = self.look_up(environment, argument);
                self.apply(self.look_up(environment, procedure), argument, rest)
            }
            Expression::Operator { op, p, q } => {
                let p = self.look_up(environment, p);
                let q = self.look_up(environment, q);
                operate(op, p, q)
            }
            Expression::Let { first, second } => {
                let value = self.express(first, environment, rest)?;
                let environment = self.bind(value, environment)?;
                self.express(second, environment, rest)
            }
            Expression::If { test, then, other } => {
                let holds = self.look_up(environment, test).holds();
                self.express(if holds { then } else { other }, environment, rest)
            }
            Expression::Abort => Err(Outcome::Abort),
            Expression::Error => Err(Outcome::Error),
        }
    }

    fn apply(&mut self, procedure: Plain, argument: Plain, rest: u16) -> Result<Plain, Outcome> {
        let Value::Procedure(closure) = procedure else {
            return Err(Outcome::Error);
        };
        let environment = self.bind(argument, closure.environment)?;
        self.express(closure.body, environment, rest)
    }
}

fn operate(op: u8, p: Plain, q: Plain) -> Result<Plain, Outcome> {
    match op {
        IS_FALSE => Ok(Value::Truth(!p.holds())),
        IS_WORD => Ok(Value::Truth(p.word().is_some())),
        IS_PROCEDURE => Ok(Value::Truth(matches!(p, Value::Procedure(_)))),
        _ => on_words(op, p.word(), q.word()).ok_or(Outcome::Error),
    }
}
