//! "shift left by a word constant w", "shift right by a word constant w": "a term of code 7 or 8 whose b is a word constant";
//! any other shift is by every bit of its amount.

use super::gates::{and2, fixed, Clause};
use super::{clauses, follows, helpers, of_one_more, operated, word_term};
use crate::limits::operators::WORDS;
use crate::made::{word_input, Made, FALSE, FREE_TRUTH, FREE_WORD};
use crate::tally::Tally;
use second::cnf::{wire, Cnf};
use second::dice::record;
use second::{Word, WIDTH};

pub fn all(tally: &mut Tally) {
    by_constants(tally);
    by_an_inputs_constant(tally);
    of_a_constant(tally);
    by_what_is_no_constant(tally);
    amounts(tally);
}

const LEFT: u8 = 7;
const RIGHT: u8 = 8;

/// About 0, the width, and numbers whose low bits are small.
const AMOUNTS: [Word; 13] = [
    0,
    1,
    2,
    WIDTH / 2,
    WIDTH - 2,
    WIDTH - 1,
    WIDTH,
    WIDTH + 1,
    2 * WIDTH,
    255,
    256,
    Word::MAX - 1,
    Word::MAX,
];

/// Two free words, a free truth, and false.
fn opened() -> Made {
    let mut inputs = [FALSE; 16];
    inputs[..3].copy_from_slice(&[FREE_WORD, FREE_WORD, FREE_TRUTH]);
    Made::open(&inputs, 48)
}

const HEAD: u16 = 2;
const OTHER: u16 = 3;
const SWITCH: u16 = 4;

/// "is a word; own i+2 = and2(is a word, x i-w, or none where i < w)", "x i+w, or none where i + w > 15": of a word and of what
/// is none
fn by_constants(tally: &mut Tally) {
    for amount in AMOUNTS {
        let made = opened().more(word_term(amount));
        let by = made.session.count - 1;
        for op in [LEFT, RIGHT] {
            for a in [HEAD, OTHER, SWITCH, by] {
                let told = of_one_more(tally, &made, operated(op, a, by));
                let own = usize::from(made.session.count);
                let expected = moved(op, own, usize::from(a), amount);
                tally.same_list("a shift by a constant", &told, &expected);
            }
        }
    }
}

/// The clauses of a shift by a word constant. `true` is wire 2 of term 1, and `none` its opposite.
fn moved(op: u8, own: usize, a: usize, amount: Word) -> Vec<Clause> {
    let is_word = wire(own + 1, 0);
    let none = -wire(1, 2);
    let mut expected = fixed([(wire(own, 0), true), (wire(own, 1), false)]);
    expected.extend(and2(is_word, wire(a, 0), -wire(a, 1)));
    let width = i64::from(WIDTH);
    for bit in 0..width {
        let amount = i64::from(amount);
        let from = if op == LEFT {
            bit - amount
        } else {
            bit + amount
        };
        let within = (0..width).contains(&from);
        let x = if within {
            wire(a, 2 + from as usize)
        } else {
            none
        };
        expected.extend(and2(wire(own, 2 + bit as usize), is_word, x));
    }
    expected
}

/// An input's constant is one too.
fn by_an_inputs_constant(tally: &mut Tally) {
    for amount in AMOUNTS {
        let mut inputs = [FALSE; 16];
        (inputs[0], inputs[15]) = (FREE_WORD, word_input(amount));
        let made = Made::open(&inputs, 48);
        for op in [LEFT, RIGHT] {
            let told = of_one_more(tally, &made, operated(op, 2, 3));
            let own = usize::from(made.session.count);
            let expected = moved(op, own, 2, amount);
            tally.same_list("a shift by an input's constant", &told, &expected);
        }
    }
}

/// A constant by a free word: its b is no constant.
fn of_a_constant(tally: &mut Tally) {
    for x in [0, 1, 0x8001, Word::MAX] {
        let made = opened().more(word_term(x));
        let constant = made.session.count - 1;
        for op in [LEFT, RIGHT] {
            let made = made.more(operated(op, constant, HEAD));
            let cnf = clauses(tally, &made);
            by_every_bit(tally, &made, cnf.as_ref());
            for amount in AMOUNTS {
                let mut numbers = [0; 16];
                numbers[0] = amount;
                follows(tally, &made, cnf.as_ref(), &numbers);
            }
        }
    }
}

/// It has the helpers of a shift by any word.
fn by_every_bit(tally: &mut Tally, made: &Made, cnf: Option<&Cnf>) {
    let stages = usize::from(WIDTH).ilog2() as usize;
    let width = usize::from(WIDTH);
    let expected = 2 + (width - stages) + stages * width;
    tally.same("a shift's helpers", helpers(made, cnf), expected);
}

/// By a choice between word constants, a sum of them, a truth and a procedure: none of these is a word constant, whatever it
/// is known to read as.
fn by_what_is_no_constant(tally: &mut Tally) {
    let made = opened().but(|session| session.accepted = 1);
    let made = made.more(word_term(3)).more(word_term(WIDTH));
    let (three, width) = (made.session.count - 2, made.session.count - 1);
    let binding = three - 1;
    for amount in [
        record(6, 0, SWITCH, three, width),
        record(6, 0, 1, three, three),
        record(7, 0, 3, binding, 0),
    ] {
        let made = made.more(amount);
        let by = made.session.count - 1;
        for op in [LEFT, RIGHT] {
            for a in [HEAD, three, by] {
                let made = made.more(operated(op, a, by));
                let cnf = clauses(tally, &made);
                by_every_bit(tally, &made, cnf.as_ref());
                for truth in [0, 1] {
                    let mut numbers = [0x8421; 16];
                    numbers[2] = truth;
                    follows(tally, &made, cnf.as_ref(), &numbers);
                }
            }
        }
    }
    // other operators are the same by a word constant as by any word
    for op in (1..=12).filter(|op| !matches!(op, 7 | 8)) {
        let with_constant = made.more(operated(op, HEAD, three));
        let with_word = made.more(operated(op, HEAD, OTHER));
        let [first, second] = [with_constant, with_word].map(|made| {
            let cnf = clauses(tally, &made);
            cnf.map(|cnf| (cnf.variables, cnf.clauses.len()))
        });
        tally.same("an operator with a constant", first, second);
    }
}

/// "give zero once the amount reaches the width": both words free
fn amounts(tally: &mut Tally) {
    for op in [LEFT, RIGHT] {
        let made = opened().more(operated(op, HEAD, OTHER));
        let cnf = clauses(tally, &made);
        by_every_bit(tally, &made, cnf.as_ref());
        for x in WORDS.into_iter().chain([0x5a5a, 0xa5a5]) {
            for amount in AMOUNTS {
                let mut numbers = [0; 16];
                (numbers[0], numbers[1]) = (x, amount);
                follows(tally, &made, cnf.as_ref(), &numbers);
            }
        }
    }
}
