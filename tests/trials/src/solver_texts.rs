//! The texts of `tests/solver` with the answers that a solver gave: the desk writes them byte for byte, and of a text that the
//! solver satisfied the desk reads the goal under what the input variables are. `solver_texts --check` of the second evaluator
//! holds the verdicts against all readings.

use crate::compare::compare_clauses;
use crate::desk;
use crate::evaluations::Pair;
use crate::tally::Tally;
use second::solver::{Entry, SolverAnswer};
use second::{records, result_of, Goal, Record, ResultOf};
use std::path::Path;

pub fn all(tally: &mut Tally) {
    let folder = Path::new(env!("CARGO_MANIFEST_DIR")).join("../solver");
    for entry in Entry::all(&folder).expect("an index of texts") {
        let text = entry.text(&folder).expect("a text");
        let answer = entry.answer(&folder).expect("an answer");
        try_text(tally, &entry, text.as_bytes(), &answer);
    }
}

fn try_text(tally: &mut Tally, entry: &Entry, text: &[u8], answer: &SolverAnswer) {
    let mut pair = Pair::open(&entry.inputs, entry.table).expect("a good opening");
    let result = result_of(pair.evaluate(tally, &entry.rule, entry.allowance));
    let result = result.expect("an accepted rule");
    let Pair {
        session, theirs, ..
    } = &pair;
    let written = compare_clauses(tally, session, theirs, &result, entry.goal, text.len());
    tally.same("a stored text", written.refusal, 0);
    tally.same_list("a stored text", &written.buffer, text);
    tally.same("a solver's verdict", answer.satisfied, entry.reached);
    if answer.satisfied {
        try_model(tally, &pair, &result, entry.goal, answer);
    }
}

/// What satisfies the text is a reading of the goal.
fn try_model(tally: &mut Tally, pair: &Pair, result: &ResultOf, goal: Goal, answer: &SolverAnswer) {
    let Pair {
        session, theirs, ..
    } = pair;
    let count = usize::from(session.count);
    let terms: Vec<Record> = records(theirs).take(count).collect();
    let numbers = answer.numbers(&terms).expect("the input variables");
    let mut reading = desk::UNREAD;
    let refusal = desk::read(
        &desk::session_bytes(session),
        theirs,
        &desk::numbers_bytes(&numbers),
        &desk::result_bytes(result),
        &mut vec![0; count],
        &mut reading,
    );
    tally.same(
        "what a solver found",
        (refusal, reading),
        (0, desk::goal_bytes(goal)),
    );
}
