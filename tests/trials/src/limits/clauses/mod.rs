//! Document 02's request Six: what refuses a call for a text, and the clauses of each term and of the goal, which
//! `docs/CLAUSES.md` fixes.

mod gates;
mod goals;
mod operators;
mod order;
mod refusals;
mod shifts;
mod terms;
mod wrapped;

use super::{every_kind::TRUE_TERM, GOOD};
use crate::compare::compare_clauses;
use crate::desk;
use crate::made::Made;
use crate::tally::Tally;
use gates::Clause;
use second::cnf::{input_literals, wire, Cnf, WIRES};
use second::dice::record;
use second::{records, term_readings, Goal, Outcome, Record, ResultOf, Word};

pub fn all(tally: &mut Tally) {
    refusals::all(tally);
    terms::all(tally);
    operators::all(tally);
    shifts::all(tally);
    goals::all(tally);
    order::all(tally);
    wrapped::all(tally);
}

/// The desk's text, in a buffer that just holds it; nothing where it is refused.
fn text(tally: &mut Tally, made: &Made, result: &ResultOf, goal: Goal) -> Vec<u8> {
    let Made { session, table } = made;
    let length = told_length(made, result, goal);
    let written = compare_clauses(tally, session, table, result, goal, length);
    tally.same("a buffer that holds the text", written.refusal, 0);
    match written.refusal {
        0 => written.buffer,
        _ => Vec::new(),
    }
}

/// The length that the desk tells of a text that it does not write; 0 where it tells none.
fn told_length(made: &Made, result: &ResultOf, goal: Goal) -> usize {
    let mut length = [0];
    let refusal = desk::clauses(
        &desk::session_bytes(&made.session),
        &made.table,
        &desk::result_bytes(result),
        &desk::goal_bytes(goal),
        &mut [],
        &mut length,
    );
    match refusal {
        18 => length[0] as usize,
        _ => 0,
    }
}

/// "each its literals, then 0, one space between, no leading zeros; every line ends in a line feed"
fn taken_apart(tally: &mut Tally, made: &Made, result: &ResultOf, goal: Goal) -> Option<Cnf> {
    let cnf = Cnf::parse(&text(tally, made, result, goal));
    tally.same("a text of clauses", cnf.is_some(), true);
    cnf
}

/// The clauses of the terms: a goal of one clause is left out.
fn clauses(tally: &mut Tally, made: &Made) -> Option<Cnf> {
    let cnf = taken_apart(tally, made, &GOOD, Goal::Errs)?;
    let last = cnf.clauses.last().map(Vec::as_slice);
    let goal = -wire(usize::from(TRUE_TERM), 2);
    tally.same("the goal's clause", last, Some(&[goal][..]));
    Some(cnf.first(cnf.clauses.len() - 1))
}

/// How many of the variables are helpers.
fn helpers(made: &Made, clauses: Option<&Cnf>) -> usize {
    let wires = WIRES * usize::from(made.session.count);
    let variables = clauses.map_or(0, |cnf| cnf.variables);
    variables.saturating_sub(wires)
}

/// The clauses of one term more, over terms that have no helpers: those of the terms before it stay as they are.
fn of_one_more(tally: &mut Tally, made: &Made, term: Record) -> Vec<Clause> {
    let without = clauses(tally, made).map_or(Vec::new(), |cnf| cnf.clauses);
    let with = clauses(tally, &made.more(term)).map_or(Vec::new(), |cnf| cnf.clauses);
    let more = with.strip_prefix(&without[..]);
    tally.same("the clauses of the terms before", more.is_some(), true);
    more.unwrap_or_default().to_vec()
}

/// "The text can be satisfied exactly when such a reading exists": with the input variables of a reading given, kind and value
/// of each term follow, as far as they are read.
fn follows(tally: &mut Tally, made: &Made, clauses: Option<&Cnf>, numbers: &[Word; 16]) {
    let Made { session, table } = made;
    let terms: Vec<Record> = records(table).take(usize::from(session.count)).collect();
    let known = clauses.and_then(|cnf| cnf.follow(&input_literals(&terms, numbers)));
    let Some(known) = known.filter(|known| known.len() > WIRES * terms.len()) else {
        return tally.same("a table has readings", false, true);
    };
    let readings = term_readings(session, table, numbers).expect("readings");
    for (number, (&term, reading)) in terms.iter().zip(readings).enumerate() {
        let at = |i: usize| known[wire(number, i) as usize];
        let (kind, bits, read) = wanted(term, reading);
        let word: Option<Vec<bool>> = (2..2 + bits).map(at).collect();
        let read: Vec<bool> = (0..bits).map(|bit| read >> bit & 1 == 1).collect();
        tally.same("a kind", (at(0), at(1)), (Some(kind.0), Some(kind.1)));
        tally.same("a value", word, Some(read));
    }
}

/// Kind, and how many bits are read with what they are.
fn wanted(term: Record, reading: Outcome) -> ((bool, bool), usize, u64) {
    match reading {
        _ if term.kind == 8 => ((true, true), 0, 0),
        Outcome::Truth(truth) => ((false, false), 1, u64::from(truth)),
        Outcome::Word(word) => ((true, false), Word::BITS as usize, u64::from(word)),
        Outcome::Procedure(record) => ((false, true), Word::BITS as usize, u64::from(record)),
        other => panic!("a term reads as {other:?}"),
    }
}

/// A word constant.
fn word_term(word: Word) -> Record {
    Record {
        kind: 2,
        op: 0,
        ..second::dice::datum(word)
    }
}

/// An operator term on the right number of operands.
fn operated(op: u8, a: u16, b: u16) -> Record {
    let one = matches!(op, 9 | 10 | 14 | 15 | 32 | 35);
    record(5, op, a, if one { 0 } else { b }, 0)
}
