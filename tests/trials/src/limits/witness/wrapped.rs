//! The library for Rust: a witness as the second evaluator finds it, and what refuses it.

use crate::made::{word_input, FREE_TRUTH, FREE_WORD};
use crate::tally::Tally;
use crate::tree::{abort, bind, error, operator, place, procedure, test, truth, word, Tree};
use ::desk::{Answer, Desk, Goal, Input, Refusal};
use second::{evaluate, open, result_of, witness, Session, Spans, Word};

pub fn all(tally: &mut Tally) {
    both(tally, &[0, 1, 15], None, &truth_rules());
    both(tally, &[0], Some(1), &head_rules());
    refusals(tally);
}

const TABLE: usize = 8_192;

/// Free truths at these places, a free word at one or none, and the word 100.
fn inputs(truths: &[usize], word: Option<usize>) -> [Input; 16] {
    let mut inputs = [Input::ConstantWord(100); 16];
    truths.iter().for_each(|&at| inputs[at] = Input::FreeTruth);
    word.iter().for_each(|&at| inputs[at] = Input::FreeWord);
    inputs
}

/// The same for the second evaluator.
fn opened(truths: &[usize], word: Option<usize>) -> (Session, Vec<u8>) {
    let mut inputs = [word_input(100); 16];
    truths.iter().for_each(|&at| inputs[at] = FREE_TRUTH);
    word.iter().for_each(|&at| inputs[at] = FREE_WORD);
    let mut table = vec![0; TABLE];
    let session = open(&inputs, &mut table).expect("a good opening");
    (session, table)
}

/// A halt is left for the last.
fn truth_rules() -> Vec<Tree> {
    vec![
        truth(true),
        procedure(place(0)),
        test(15, place(2), place(0)),
        test(0, word(13), abort()),
        test(1, test(15, word(7), error()), procedure(word(5))),
        error(),
    ]
}

fn head_rules() -> Vec<Tree> {
    // place 0 is then "head < 100"
    let below = |then, other| bind(operator(11, 1, 2), test(0, then, other));
    vec![
        place(1),
        operator(3, 1, 1),
        below(word(7), abort()),
        test(0, below(word(7), error()), procedure(word(5))),
        error(),
    ]
}

/// Each rule with each goal, with spans, and without where no word is free.
fn both(tally: &mut Tally, truths: &[usize], free_word: Option<usize>, rules: &[Tree]) {
    let mut desk = Desk::open(&inputs(truths, free_word), TABLE).expect("a good opening");
    let (mut session, mut table) = opened(truths, free_word);
    for tree in rules {
        let answer = desk.evaluate(&tree.rule(), 9).expect("an accepted rule");
        let expected = evaluate(&mut session, &mut table, &tree.rule(), 9);
        let result = result_of(expected).expect("an accepted rule");
        let finds = |named, given: Option<&Spans>| {
            let found = witness(&session, &table, &result, named, given, TABLE / 8);
            found.map_err(Refusal)
        };
        for (goal, named) in goals() {
            for (low, high) in [(98, 101), (7, 7), (0, 12), (8, 7)] {
                let given = Spans {
                    lows: [low; 16],
                    highs: [high; 16],
                };
                let ours = desk.witness_within(answer, goal, &given.lows, &given.highs);
                tally.same("the wrapper's spans", ours, finds(named, Some(&given)));
            }
            if free_word.is_none() {
                let ours = desk.witness(answer, goal);
                tally.same("the wrapper's witness", ours, finds(named, None));
            }
        }
    }
}

fn goals() -> [(Goal, second::Goal); 5] {
    let gives = |word| (Goal::Gives(word), second::Goal::Gives(word));
    [
        (Goal::Errs, second::Goal::Errs),
        (Goal::Aborts, second::Goal::Aborts),
        gives(7),
        gives(100),
        gives(Word::MAX),
    ]
}

/// 19 of more than 24 bits, and 14 of an answer of a desk with more terms.
fn refusals(tally: &mut Tally) {
    for (truths, refused) in [(8, false), (9, true)] {
        let truths: Vec<usize> = (1..=truths).collect();
        let mut desk = Desk::open(&inputs(&truths, Some(0)), TABLE).expect("a good opening");
        let answer = desk.evaluate(&error().rule(), 9).expect("an accepted rule");
        let expected = match refused {
            true => Err(Refusal(19)),
            false => Ok(Some([0; 16])),
        };
        let found = desk.witness(answer, Goal::Errs);
        tally.same("the wrapper's 19", found, expected);
        let (assumed, asserted, depth) = (1, 0, 1);
        for value in [1, desk.count(), 65_535] {
            let answer = Answer::Out {
                assumed,
                asserted,
                value,
                depth,
            };
            let other = value >= desk.count();
            let expected = if other { Err(Refusal(14)) } else { expected };
            let found = desk.witness(answer, Goal::Errs);
            tally.same("an answer of another desk", found, expected);
        }
    }
}
