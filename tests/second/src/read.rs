use crate::evaluate::Answer;
use crate::session::{fit, is_truth, test_numbers, Session};
use crate::terms::{Factory, Sort, Term};
use crate::words::{on_words, shape, Value, Word, AND, IS_PROCEDURE, IS_WORD, NOT, OR, TRUTH};
use crate::Outcome;

/// The result of an evaluation; a halt's value is not looked at.
#[derive(Clone, Copy, PartialEq, Eq, Debug)]
pub struct ResultOf {
    pub s: u16,
    pub t: u16,
    pub value: u16,
    pub halted: bool,
}

/// The result of an accepted evaluation.
pub fn result_of(answer: Answer) -> Option<ResultOf> {
    let (s, t, value, halted) = match answer {
        Answer::Out { s, t, value, .. } => (s, t, value, false),
        Answer::Halt { s, t, .. } => (s, t, 0, true),
        Answer::Refused(_) => return None,
    };
    Some(ResultOf {
        s,
        t,
        value,
        halted,
    })
}

/// A procedure reads as its record number.
pub type Reading = Value<u16>;

pub fn read(
    session: &Session,
    table: &[u8],
    numbers: &[Word; 16],
    result: &ResultOf,
    work_len: usize,
) -> Outcome {
    attempt(session, table, numbers, result, work_len).unwrap_or_else(Outcome::Refused)
}

fn attempt(
    session: &Session,
    table: &[u8],
    numbers: &[Word; 16],
    result: &ResultOf,
    work_len: usize,
) -> Result<Outcome, u8> {
    let factory = fit(session, table)?.factory;
    test_numbers(&session.inputs, numbers)?;
    if !result_fits(&factory, result) {
        return Err(14);
    }
    if work_len < factory.terms().len() {
        return Err(15);
    }
    Ok(read_result(factory.terms(), numbers, result))
}

/// What a result reads as, under numbers that 13 lets pass; 14 has let the result pass.
pub fn read_result(terms: &[Term], numbers: &[Word; 16], result: &ResultOf) -> Outcome {
    read_result_in(&mut Vec::new(), terms, numbers, result)
}

/// The same with a list that is lent for the terms' readings: many readings in turn can share one.
pub fn read_result_in(
    readings: &mut Vec<Reading>,
    terms: &[Term],
    numbers: &[Word; 16],
    result: &ResultOf,
) -> Outcome {
    read_terms(readings, terms, numbers);
    let at = |number: u16| readings[usize::from(number)];
    match (at(result.s).holds(), at(result.t).holds()) {
        (false, true) => Outcome::Abort,
        (true, true) if !result.halted => outcome(at(result.value)),
        _ => Outcome::Error,
    }
}

/// What every term reads as, under numbers that 13 lets pass; a binding, which is no value, reads as false.
pub fn term_readings(
    session: &Session,
    table: &[u8],
    numbers: &[Word; 16],
) -> Result<Vec<Outcome>, u8> {
    let fitted = fit(session, table)?;
    let mut readings = Vec::new();
    read_terms(&mut readings, fitted.factory.terms(), numbers);
    Ok(readings.into_iter().map(outcome).collect())
}

/// Test 14.
pub fn result_fits(factory: &Factory, result: &ResultOf) -> bool {
    let is_value = |number| number < factory.count() && factory.sort(number) != Sort::Binding;
    is_truth(factory, result.s)
        && is_truth(factory, result.t)
        && (result.halted || is_value(result.value))
}

fn outcome(reading: Reading) -> Outcome {
    match reading {
        Value::Truth(truth) => Outcome::Truth(truth),
        Value::Word(word) => Outcome::Word(word),
        Value::Procedure(record) => Outcome::Procedure(record),
    }
}

/// Every term names only lower ones, so one pass from below reads them all.
fn read_terms(readings: &mut Vec<Reading>, terms: &[Term], numbers: &[Word; 16]) {
    readings.clear();
    readings.reserve_exact(terms.len());
    for &term in terms {
        let reading = read_term(term, readings, numbers);
        readings.push(reading);
    }
}

fn read_term(term: Term, readings: &[Reading], numbers: &[Word; 16]) -> Reading {
    let at = |number: u16| readings[usize::from(number)];
    match term {
        Term::Truth(truth) => Value::Truth(truth),
        Term::Word(word) => Value::Word(word),
        Term::FreeTruth(input) => Value::Truth(numbers[usize::from(input)] == 1),
        Term::FreeWord(input) => Value::Word(numbers[usize::from(input)]),
        Term::Operator { op, a, b } => read_operator(op, at(a), at(b)),
        Term::Choice { guard, then, other } => {
            if at(guard).holds() {
                at(then)
            } else {
                at(other)
            }
        }
        Term::Procedure { record, .. } => Value::Procedure(record),
        // No term takes a binding for a value.
        Term::Binding { .. } => Value::Truth(false),
    }
}

/// An operand of the wrong kind makes word 0 or false.
fn read_operator(op: u8, a: Reading, b: Reading) -> Reading {
    match op {
        IS_WORD => Value::Truth(a.word().is_some()),
        IS_PROCEDURE => Value::Truth(matches!(a, Value::Procedure(_))),
        NOT => Value::Truth(!a.holds()),
        AND => Value::Truth(a.holds() && b.holds()),
        OR => Value::Truth(a.holds() || b.holds()),
        TRUTH => Value::Truth(a.holds()),
        _ => on_words(op, a.word(), b.word()).unwrap_or(if shape(op).truth {
            Value::Truth(false)
        } else {
            Value::Word(0)
        }),
    }
}
