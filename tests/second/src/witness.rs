//! The first reading that brings a goal about. The search is a plain one: it reads the result under every reading in turn, so
//! that what it finds is the first by the order of the turns alone.

use crate::clauses::Goal;
use crate::read::{read_result_in, result_fits, ResultOf};
use crate::session::{fit, Input, Session};
use crate::spans::{test_spans, Spans};
use crate::terms::Term;
use crate::words::Word;
use crate::Outcome;

/// "With at most 24 free bits in all"
const MOST_BITS: u32 = 24;

/// The least and the most that each input's number is.
type Ends = [(Word, Word); 16];

/// The numbers of the first reading under which the result reaches the goal, or nothing where none does; with spans, of those
/// inside them.
pub fn witness(
    session: &Session,
    table: &[u8],
    result: &ResultOf,
    goal: Goal,
    spans: Option<&Spans>,
    work_len: usize,
) -> Result<Option<[Word; 16]>, u8> {
    let factory = fit(session, table)?.factory;
    if !result_fits(&factory, result) {
        return Err(14);
    }
    if let Some(spans) = spans {
        test_spans(&session.inputs, spans)?;
    }
    if free_bits(&session.inputs) > MOST_BITS {
        return Err(19);
    }
    if work_len < factory.terms().len() {
        return Err(15);
    }
    let ends = ends(&session.inputs, spans);
    Ok(search(factory.terms(), result, goal, &ends))
}

/// "(a truth is one, a word sixteen)", whatever the spans are.
fn free_bits(inputs: &[Input; 16]) -> u32 {
    let bits = |input: &Input| match input.kind {
        2 => 1,
        3 => Word::BITS,
        _ => 0,
    };
    inputs.iter().map(bits).sum()
}

/// A constant stands in a reading as 0; a free truth and a constant ignore their spans.
fn ends(inputs: &[Input; 16], spans: Option<&Spans>) -> Ends {
    std::array::from_fn(|at| match (inputs[at].kind, spans) {
        (2, _) => (0, 1),
        (3, Some(spans)) => (spans.lows[at], spans.highs[at]),
        (3, None) => (0, Word::MAX),
        _ => (0, 0),
    })
}

/// From the first reading on, until one reaches the goal.
fn search(terms: &[Term], result: &ResultOf, goal: Goal, ends: &Ends) -> Option<[Word; 16]> {
    let mut readings = Vec::new();
    let mut numbers = ends.map(|(least, _)| least);
    loop {
        let outcome = read_result_in(&mut readings, terms, &numbers, result);
        if reaches(outcome, goal) {
            return Some(numbers);
        }
        numbers = after(&numbers, ends)?;
    }
}

fn reaches(outcome: Outcome, goal: Goal) -> bool {
    match goal {
        Goal::Errs => outcome == Outcome::Error,
        Goal::Aborts => outcome == Outcome::Abort,
        Goal::Gives(word) => outcome == Outcome::Word(word),
    }
}

/// The next reading, "comparing inputs from 0 up as plain numbers": the last number that can goes up by one, and those behind
/// it begin anew. There is none after the one in which all are at their most.
fn after(numbers: &[Word; 16], ends: &Ends) -> Option<[Word; 16]> {
    let up = (0..16).rev().find(|&at| numbers[at] < ends[at].1)?;
    let mut next = ends.map(|(least, _)| least);
    next[..up].copy_from_slice(&numbers[..up]);
    next[up] = numbers[up] + 1;
    Some(next)
}
