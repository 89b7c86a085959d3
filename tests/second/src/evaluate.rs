use crate::opening::write_terms;
use crate::rules::{test_allowance, Expression, Rule};
use crate::session::{fit, Session};
use crate::state::{merge, Branch, Finish, State};
use crate::terms::{constant, Factory, Term, FALSE, TRUE};
use crate::words::{shape, IS_FALSE, IS_PROCEDURE, IS_WORD};

/// Leaves one call's walk may meet.
const LEAVES: usize = 64;

#[derive(Clone, Copy, PartialEq, Eq, Debug)]
pub enum Answer {
    Out {
        s: u16,
        t: u16,
        value: u16,
        depth: u16,
    },
    Halt {
        s: u16,
        t: u16,
        depth: u16,
    },
    Refused(u8),
}

/// Advances the session and table, or leaves both as they were.
pub fn evaluate(session: &mut Session, table: &mut [u8], rule: &[u8], allowance: u16) -> Answer {
    attempt(session, table, rule, allowance).unwrap_or_else(Answer::Refused)
}

fn attempt(
    session: &mut Session,
    table: &mut [u8],
    rule: &[u8],
    allowance: u16,
) -> Result<Answer, u8> {
    let fitted = fit(session, table)?;
    let rule = Rule::parse(rule)?;
    test_allowance(allowance)?;
    if session.accepted >= 1_000 {
        return Err(9);
    }
    if session.halted {
        session.accepted += 1;
        let Session { s, t, .. } = *session;
        return Ok(Answer::Halt { s, t, depth: 1 });
    }
    let mut evaluation = Evaluation {
        rule: &rule,
        factory: fitted.factory,
        accepted: session.accepted,
        allowance,
        depth: 0,
    };
    let state = State {
        s: session.s,
        t: session.t,
    };
    let finish = evaluation.express(0, fitted.environment, state, allowance)?;
    // Terms reach the table only now, so a refusal has nothing to undo.
    let terms = evaluation.factory.terms();
    write_terms(table, terms, usize::from(session.count));
    session.count = evaluation.factory.count();
    session.s = finish.state.s;
    session.t = finish.state.t;
    session.halted = finish.value.is_none();
    session.accepted += 1;
    Ok(evaluation.answer(finish))
}

struct Evaluation<'a> {
    rule: &'a Rule,
    factory: Factory,
    accepted: u16,
    allowance: u16,
    /// The largest depth in use so far, the root counting as 1.
    depth: u16,
}

/// A procedure leaf of a call's walk.
struct Target {
    guard: u16,
    body: u16,
    bindings: u16,
}

/// What is left of a walk; the guard of a right side waits until it is entered.
enum Step {
    Enter { term: u16, guard: u16 },
    Right { term: u16, path: u16, test: u16 },
}

impl Evaluation<'_> {
    fn answer(&self, finish: Finish) -> Answer {
        let State { s, t } = finish.state;
        let depth = self.depth;
        match finish.value {
            Some(value) => Answer::Out { s, t, value, depth },
            None => Answer::Halt { s, t, depth },
        }
    }

    fn express(
        &mut self,
        record: u16,
        environment: u16,
        state: State,
        left: u16,
    ) -> Result<Finish, u8> {
        let rest = left.checked_sub(1).ok_or(12)?;
        self.depth = self.depth.max(self.allowance - rest);
        if state.halts() {
            return Ok(Finish::halt(state));
        }
        match self.rule.expression(record) {
            Expression::Truth(truth) => Ok(Finish::with(state, constant(truth))),
            Expression::Word(word) => {
                let value = self.factory.make(Term::Word(word))?;
                Ok(Finish::with(state, value))
            }
            Expression::Variable(p) => {
                Ok(Finish::with(state, self.factory.look_up(environment, p)))
            }
            Expression::Procedure { .. } => {
                let value = self.factory.make(Term::Procedure {
                    record,
                    bindings: environment,
                    rule: self.accepted,
                })?;
                Ok(Finish::with(state, value))
            }
            Expression::Call {
                procedure,
                argument,
            } => {
                let procedure = self.factory.look_up(environment, procedure);
                let argument = self.factory.look_up(environment, argument);
                self.call(procedure, argument, state, rest)
            }
            Expression::Operator { op, p, q } => {
                let p = self.factory.look_up(environment, p);
                let q = self.factory.look_up(environment, q);
                self.operate(op, p, q, state)
            }
            Expression::Let { first, second } => {
                let finish = self.express(first, environment, state, rest)?;
                let Some(value) = finish.value else {
                    return Ok(finish);
                };
                let environment = self.factory.bind(value, environment)?;
                self.express(second, environment, finish.state, rest)
            }
            Expression::If { test, then, other } => {
                let test = self.factory.look_up(environment, test);
                match self.factory.truth(test)? {
                    TRUE => self.express(then, environment, state, rest),
                    FALSE => self.express(other, environment, state, rest),
                    guard => self.both(guard, then, other, environment, state, rest),
                }
            }
            Expression::Abort => {
                let state = state.assume(&mut self.factory, FALSE)?;
                Ok(Finish::halt(state))
            }
            Expression::Error => {
                let state = state.assert(&mut self.factory, FALSE)?;
                Ok(Finish::halt(state))
            }
        }
    }

    fn operate(&mut self, op: u8, p: u16, q: u16, state: State) -> Result<Finish, u8> {
        let factory = &mut self.factory;
        let value = match op {
            IS_FALSE => {
                let truth = factory.truth(p)?;
                factory.not(truth)?
            }
            IS_WORD => factory.is_word(p)?,
            IS_PROCEDURE => factory.is_procedure(p)?,
            _ => return self.operate_on_words(op, p, q, state),
        };
        Ok(Finish::with(state, value))
    }

    fn operate_on_words(&mut self, op: u8, p: u16, q: u16, state: State) -> Result<Finish, u8> {
        let factory = &mut self.factory;
        // The unused place of a one-operand operator is no operand.
        let q = if shape(op).operands == 2 { q } else { 0 };
        let words = factory.are_words(op, p, q)?;
        let state = state.assert(factory, words)?;
        if state.halts() {
            return Ok(Finish::halt(state));
        }
        let value = factory.operator(op, p, q)?;
        Ok(Finish::with(state, value))
    }

    /// An if whose test is not known: both branches, each under its guard.
    fn both(
        &mut self,
        guard: u16,
        then: u16,
        other: u16,
        environment: u16,
        before: State,
        rest: u16,
    ) -> Result<Finish, u8> {
        let not = self.factory.not(guard)?;
        let holds = before.assume(&mut self.factory, guard)?;
        let fails = before.assume(&mut self.factory, not)?;
        let branches = [
            Branch {
                guard,
                finish: self.express(then, environment, holds, rest)?,
            },
            Branch {
                guard: not,
                finish: self.express(other, environment, fails, rest)?,
            },
        ];
        merge(&mut self.factory, before, &branches)
    }

    fn call(
        &mut self,
        procedure: u16,
        argument: u16,
        state: State,
        rest: u16,
    ) -> Result<Finish, u8> {
        let targets = self.walk(procedure)?;
        let mut some = FALSE;
        for target in &targets {
            some = self.factory.or(some, target.guard)?;
        }
        let asserted = state.assert(&mut self.factory, some)?;
        if asserted.halts() {
            return Ok(Finish::halt(asserted));
        }
        let mut branches = Vec::with_capacity(targets.len());
        for target in &targets {
            let assumed = asserted.assume(&mut self.factory, target.guard)?;
            branches.push(Branch {
                guard: target.guard,
                finish: self.apply(target, argument, assumed, rest)?,
            });
        }
        merge(&mut self.factory, asserted, &branches)
    }

    fn apply(
        &mut self,
        target: &Target,
        argument: u16,
        state: State,
        rest: u16,
    ) -> Result<Finish, u8> {
        let environment = self.factory.bind(argument, target.bindings)?;
        self.express(target.body, environment, state, rest)
    }

    /// The targets among the leaves of a value, from the left. Nothing but the
    /// table bounds how deep choices nest, so the walk keeps its own stack.
    fn walk(&mut self, value: u16) -> Result<Vec<Target>, u8> {
        let mut targets = Vec::new();
        let mut leaves = 0;
        let mut steps = vec![Step::Enter {
            term: value,
            guard: TRUE,
        }];
        while let Some(step) = steps.pop() {
            let (term, guard) = self.enter(step)?;
            if guard == FALSE {
                continue;
            }
            if let Term::Choice {
                guard: test,
                then,
                other,
            } = self.factory.term(term)
            {
                steps.push(Step::Right {
                    term: other,
                    path: guard,
                    test,
                });
                steps.push(Step::Enter {
                    term: then,
                    guard: self.factory.and(guard, test)?,
                });
                continue;
            }
            leaves += 1;
            if leaves > LEAVES {
                return Err(10);
            }
            targets.extend(self.target(term, guard));
        }
        Ok(targets)
    }

    fn enter(&mut self, step: Step) -> Result<(u16, u16), u8> {
        match step {
            Step::Enter { term, guard } => Ok((term, guard)),
            Step::Right { term, path, test } => {
                let not = self.factory.not(test)?;
                Ok((term, self.factory.and(path, not)?))
            }
        }
    }

    /// Procedures met are always of this rule: no value outlives its rule.
    fn target(&self, leaf: u16, guard: u16) -> Option<Target> {
        let Term::Procedure {
            record, bindings, ..
        } = self.factory.term(leaf)
        else {
            return None;
        };
        let Expression::Procedure { body } = self.rule.expression(record) else {
            return None;
        };
        Some(Target {
            guard,
            body,
            bindings,
        })
    }
}
