//! The library for Rust: a text as the second evaluator writes it, and the numbers that variables stand for.

use crate::made::{word_input, FREE_TRUTH, FREE_WORD};
use crate::tally::Tally;
use crate::tree::{abort, bind, error, operator, place, procedure, test, truth, word, Tree};
use ::desk::{Answer, Desk, Goal, Input, Refusal};
use second::cnf::input_literals;
use second::{clauses, evaluate, open, records, result_of, Record, Session, Word};
use std::collections::HashSet;

pub fn all(tally: &mut Tally) {
    let mut desk = Desk::open(&inputs(), TABLE).expect("a good opening");
    let (mut session, mut table) = opened();
    for tree in rules() {
        let answer = desk.evaluate(&tree.rule(), 9).expect("an accepted rule");
        let expected = evaluate(&mut session, &mut table, &tree.rule(), 9);
        let result = result_of(expected).expect("an accepted rule");
        for (goal, named) in goals() {
            let theirs = clauses(&session, &table, &result, named, usize::MAX);
            let ours = desk.clauses(answer, goal);
            tally.same("the wrapper's refusal", ours.is_ok(), theirs.is_ok());
            let (ours, theirs) = (ours.unwrap_or_default(), theirs.unwrap_or_default());
            tally.same_list("the wrapper's text", ours.as_bytes(), &theirs);
        }
    }
    numbers(tally, &desk, &session, &table);
    other_desks(tally, &desk);
}

const TABLE: usize = 8_192;

/// A free truth, a free word and a free truth at the end, between constants.
fn inputs() -> [Input; 16] {
    let mut inputs = [Input::ConstantWord(100); 16];
    (inputs[0], inputs[1], inputs[15]) = (Input::FreeTruth, Input::FreeWord, Input::FreeTruth);
    inputs
}

fn opened() -> (Session, Vec<u8>) {
    let mut inputs = [word_input(100); 16];
    (inputs[0], inputs[1], inputs[15]) = (FREE_TRUTH, FREE_WORD, FREE_TRUTH);
    let mut table = vec![0; TABLE];
    let session = open(&inputs, &mut table).expect("a good opening");
    (session, table)
}

/// A halt is left for the last.
fn rules() -> [Tree; 6] {
    // place 0 is then "head < 100"
    let below = |then, other| bind(operator(11, 1, 2), test(0, then, other));
    [
        truth(true),
        operator(3, 1, 2),
        procedure(place(0)),
        below(word(13), abort()),
        test(0, below(word(7), error()), procedure(word(5))),
        error(),
    ]
}

fn goals() -> [(Goal, second::Goal); 4] {
    [
        (Goal::Errs, second::Goal::Errs),
        (Goal::Aborts, second::Goal::Aborts),
        (Goal::Gives(0), second::Goal::Gives(0)),
        (Goal::Gives(Word::MAX), second::Goal::Gives(Word::MAX)),
    ]
}

/// "the input variables of any satisfying assignment are such a reading": of a constant input the number is 0
fn numbers(tally: &mut Tally, desk: &Desk, session: &Session, table: &[u8]) {
    let terms: Vec<Record> = records(table).take(usize::from(session.count)).collect();
    for first in [0, 1] {
        for head in [0, 1, 0x8421, Word::MAX] {
            for last in [0, 1] {
                let mut expected = [0; 16];
                (expected[0], expected[1], expected[15]) = (first, head, last);
                let held: HashSet<i64> = input_literals(&terms, &expected).into_iter().collect();
                let told = desk.numbers_of(|variable| held.contains(&(variable as i64)));
                tally.same("the wrapper's numbers", told, expected);
            }
        }
    }
}

/// An answer of a desk with more terms names what this one does not have.
fn other_desks(tally: &mut Tally, desk: &Desk) {
    let (assumed, asserted, depth) = (1, 1, 1);
    for value in [1, desk.count(), 65_535] {
        let answer = Answer::Out {
            assumed,
            asserted,
            value,
            depth,
        };
        let refusal = desk.clauses(answer, Goal::Errs).err();
        let expected = (value >= desk.count()).then_some(Refusal(14));
        tally.same("an answer of another desk", refusal, expected);
    }
}
