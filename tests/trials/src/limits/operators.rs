//! The operators at their limits: worked out by the factory, read off terms, and in a plain run.

use super::evaluate;
use crate::compare::{compare_read, compare_run};
use crate::made::{word_input, Made, FALSE, FREE_TRUTH, FREE_WORD};
use crate::tally::Tally;
use crate::tree::{bind, operator, place, procedure, test, word};
use second::dice::record;
use second::{Input, ResultOf, Word, WIDTH};

pub fn all(tally: &mut Tally) {
    on_words(tally);
    on_others(tally);
}

/// About the ends of the words and of the width.
pub const WORDS: [Word; 12] = [
    0,
    1,
    2,
    WIDTH - 1,
    WIDTH,
    WIDTH + 1,
    255,
    256,
    Word::MAX / 2,
    Word::MAX / 2 + 1,
    Word::MAX - 1,
    Word::MAX,
];

/// "Words are 16 bits and sums wrap. [..] (low 16 bits) [..] (16 for 0)"; shifts have trials of their own
fn on_words(tally: &mut Tally) {
    for op in 1..=15 {
        let one = matches!(op, 9 | 10 | 13 | 14 | 15);
        let rule = operator(op, 0, if one { 0 } else { 1 }).rule();
        for x in WORDS {
            for y in WORDS {
                constant(tally, &rule, x, y);
                if op <= 12 {
                    free(tally, op, one, x, y);
                }
            }
        }
    }
}

/// The factory works it out, and a run does.
fn constant(tally: &mut Tally, rule: &[u8], x: Word, y: Word) {
    let mut inputs = [FALSE; 16];
    (inputs[0], inputs[1]) = (word_input(x), word_input(y));
    evaluate(tally, &Made::open(&inputs, 40), rule, 1);
    compare_run(tally, &inputs, &[0; 16], rule, 1, 128);
}

/// A term on two free words is read.
fn free(tally: &mut Tally, op: u8, one: bool, x: Word, y: Word) {
    let mut inputs = [FALSE; 16];
    (inputs[0], inputs[1]) = (FREE_WORD, FREE_WORD);
    let made = Made::open(&inputs, 40);
    let value = made.session.count;
    let made = made.more(record(5, op, 2, if one { 0 } else { 3 }, 0));
    let mut numbers = [0; 16];
    (numbers[0], numbers[1]) = (x, y);
    let result = ResultOf {
        s: 1,
        t: 1,
        value,
        halted: false,
    };
    compare_read(tally, &made.session, &made.table, &numbers, &result, 40);
}

/// "1 to 12 need words, else the rule errs." "13 not: true only for false. 14 is a word. 15 is a procedure."
fn on_others(tally: &mut Tally) {
    let truth = |value| Input { kind: 0, value };
    let inputs = [word_input(0), word_input(5), truth(0), truth(1), FREE_TRUTH];
    let inputs: [Input; 16] = std::array::from_fn(|i| inputs[i % 5]);
    for op in 1..=15 {
        let one = matches!(op, 9 | 10 | 13 | 14 | 15);
        for p in 0..6 {
            for q in if one { 0..1 } else { 0..6 } {
                // place 0 is a procedure, place 1 a choice
                let rule = bind(
                    test(4, word(3), place(4)),
                    bind(procedure(place(0)), operator(op, p, q)),
                );
                evaluate(tally, &Made::open(&inputs, 100), &rule.rule(), 9);
                for number in [0, 1] {
                    compare_run(tally, &inputs, &[number; 16], &rule.rule(), 9, 200);
                }
            }
        }
    }
}
