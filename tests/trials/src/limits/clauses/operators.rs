//! The operators: each one's clauses and helpers, on any operands, and that they give what is read.

use super::gates::{and2, and3, and_or, and_xor, copy, fixed, or2, passing, Clause};
use super::{clauses, follows, helpers, of_one_more, operated, text, word_term};
use crate::limits::every_kind::{
    every_kind, operands_of, CHOICE, CHOSEN, FREE_TRUTH_TERM, FREE_WORD_TERM, NINE, PROCEDURE,
    TERMS, TRUE_TERM,
};
use crate::limits::operators::WORDS;
use crate::limits::GOOD;
use crate::made::{free_inputs, Made};
use crate::tally::Tally;
use second::cnf::wire;
use second::dice::record;
use second::{Goal, Record, Word};

pub fn all(tally: &mut Tally) {
    figures(tally);
    of_one_gate(tally);
    bit_by_bit(tally);
    every_operand(tally);
    given_words(tally);
    wrong_kinds(tally);
}

/// Truths at even places and words at odd ones from term 2 on, and terms of other kinds after them, none with helpers.
fn operands() -> Made {
    let made = Made::open(&free_inputs(), 48).but(|session| session.accepted = 1);
    let terms = [
        record(7, 0, 9, 33, 0),
        record(6, 0, 2, 3, 5),
        record(6, 0, 4, 35, 34),
        record(6, 0, 2, 4, 36),
        word_term(300),
    ];
    terms.into_iter().fold(made, |made, term| made.more(term))
}

const FIRST: u16 = 3;
const SECOND: u16 = 17;
const TRUTHS: (u16, u16) = (2, 16);
const CHOICES: [u16; 3] = [35, 36, 37];
/// The term of an operator on these.
const OWN: usize = 39;

/// Clauses, helpers and literals of each operator, as the tables of `docs/CLAUSES.md` have them.
const FIGURES: [(u8, [usize; 3]); 18] = [
    (1, [217, 34, 659]),
    (2, [217, 34, 659]),
    (3, [1_803, 468, 5_116]),
    (4, [73, 2, 179]),
    (5, [73, 2, 195]),
    (6, [89, 2, 275]),
    (7, [349, 78, 983]),
    (8, [349, 78, 983]),
    (9, [290, 64, 802]),
    (10, [338, 80, 914]),
    (11, [108, 18, 314]),
    (12, [91, 18, 279]),
    (14, [5, 0, 9]),
    (15, [5, 0, 9]),
    (32, [4, 0, 6]),
    (33, [5, 0, 9]),
    (34, [5, 0, 9]),
    (35, [7, 0, 18]),
];

fn operator(op: u8) -> Record {
    match op {
        1..=12 => operated(op, FIRST, SECOND),
        14 | 15 | 35 => operated(op, CHOICES[2], 0),
        _ => operated(op, TRUTHS.0, TRUTHS.1),
    }
}

/// "Your tables in docs/ fix each term's clauses and helpers."
fn figures(tally: &mut Tally) {
    for (op, expected) in FIGURES {
        let made = operands().more(operator(op));
        let cnf = clauses(tally, &made);
        let own = of_one_more(tally, &operands(), operator(op));
        let literals = own.iter().map(Vec::len).sum();
        let told = [own.len(), helpers(&made, cnf.as_ref()), literals];
        tally.same("an operator's figures", told, expected);
    }
}

fn kind_of_own(word: bool) -> Vec<Clause> {
    fixed([(wire(OWN, 0), word), (wire(OWN, 1), false)])
}

/// "is a word: own2 = and2(a0, -a1)", "is a procedure: own2 = and2(-a0, a1)", "not: own2 = copy(-a2)", "and: own2 =
/// and2(a2, b2)", "or: own2 = or2(a2, b2)", "truth: own2 = passing(a0, a1, a2)"
fn of_one_gate(tally: &mut Tally) {
    let own2 = wire(OWN, 2);
    for a in CHOICES {
        let wire_of = |i| wire(usize::from(a), i);
        let (first, second, lowest) = (wire_of(0), wire_of(1), wire_of(2));
        for (op, gate) in [
            (14, and2(own2, first, -second)),
            (15, and2(own2, -first, second)),
            (35, passing(own2, first, second, lowest)),
        ] {
            let told = of_one_more(tally, &operands(), operated(op, a, 0));
            let expected = [kind_of_own(false), gate].concat();
            tally.same_list("an operator on a choice", &told, &expected);
        }
    }
    for a in [0, 1, 2, 16] {
        for b in [0, 1, 2, 16] {
            let (x, y) = (wire(usize::from(a), 2), wire(usize::from(b), 2));
            for (op, gate) in [
                (32, copy(own2, -x)),
                (33, and2(own2, x, y)),
                (34, or2(own2, x, y)),
            ] {
                let told = of_one_more(tally, &operands(), operated(op, a, b));
                let expected = [kind_of_own(false), gate].concat();
                tally.same_list("an operator on truths", &told, &expected);
            }
        }
    }
}

/// The first helpers of an operator on two words: h0 = and3(a0, -a1, b0) and h1 = and2(h0, -b1)
fn both(a: usize, b: usize, first_helper: i64) -> Vec<Clause> {
    let gate = and3(first_helper, wire(a, 0), -wire(a, 1), wire(b, 0));
    [gate, and2(first_helper + 1, first_helper, -wire(b, 1))].concat()
}

/// "for each bit i: own i+2 = and3(both, x i, y i)", and_or and and_xor likewise; "equal: e0 = and_xor(both, x0, -y0), e i =
/// and_xor(e i-1, x i, -y i); own2 = copy(e15)"
fn bit_by_bit(tally: &mut Tally) {
    let first_helper = wire(OWN + 1, 0);
    let is_both = first_helper + 1;
    for (a, b) in [(FIRST, SECOND), (SECOND, FIRST), (FIRST, FIRST), (2, 36)] {
        let (x, y) = (usize::from(a), usize::from(b));
        let begin = |word| [kind_of_own(word), both(x, y, first_helper)].concat();
        let bits = || (2..2 + Word::BITS as usize).map(|i| (i, wire(x, i), wire(y, i)));
        for (op, gate) in [(4, and3 as Gate), (5, and_or), (6, and_xor)] {
            let gates = bits().flat_map(|(i, x, y)| gate(wire(OWN, i), is_both, x, y));
            let expected = [begin(true), gates.collect()].concat();
            let told = of_one_more(tally, &operands(), operated(op, a, b));
            tally.same_list("an operator bit by bit", &told, &expected);
        }
        // e i is the helper after e i-1, and e0 that after both
        let gates = bits().flat_map(|(i, x, y)| {
            let before = first_helper + i as i64 - 1;
            and_xor(before + 1, before, x, -y)
        });
        let last = copy(wire(OWN, 2), first_helper + 1 + i64::from(Word::BITS));
        let expected = [begin(false), gates.collect(), last].concat();
        let told = of_one_more(tally, &operands(), operated(12, a, b));
        tally.same_list("equal", &told, &expected);
    }
}

type Gate = fn(i64, i64, i64, i64) -> Vec<Clause>;

/// Every operator on each two terms that test 3 lets it have, in one table; of products, which are long, some.
fn every_operand(tally: &mut Tally) {
    for op in 1..=35 {
        let Some((count, sorts)) = operands_of(op) else {
            continue;
        };
        let operands = || TERMS.into_iter().filter(|(_, sort)| sorts.contains(sort));
        let mut made = every_kind().over(8 * 512);
        for (n, (a, _)) in operands().enumerate() {
            let step = if op == 3 { 5 } else { 1 };
            for (b, _) in operands().skip(n % step).step_by(step) {
                let term = operated(op, a, if count == 2 { b } else { 0 });
                if !made.holds(term) {
                    made = made.more(term);
                }
            }
        }
        text(tally, &made, &GOOD, Goal::Errs);
    }
}

/// Words at the limits, as inputs: the value of each operator on words follows.
fn given_words(tally: &mut Tally) {
    for op in 1..=12 {
        let made = operands().more(operated(op, FIRST, SECOND));
        let cnf = clauses(tally, &made);
        for x in WORDS {
            for y in WORDS {
                let mut numbers = [0; 16];
                (numbers[1], numbers[15]) = (x, y);
                follows(tally, &made, cnf.as_ref(), &numbers);
            }
        }
    }
}

/// "An operator term with an operand of the wrong kind reads as word 0 or false": a truth, a procedure, or a choice that is
/// at times a word, on either side
fn wrong_kinds(tally: &mut Tally) {
    let kinds = [
        FREE_WORD_TERM,
        FREE_TRUTH_TERM,
        TRUE_TERM,
        NINE,
        PROCEDURE,
        CHOICE,
        CHOSEN,
    ];
    for op in 1..=12 {
        let mut made = every_kind().over(8 * 128);
        for a in kinds {
            for b in kinds {
                let term = operated(op, a, b);
                if !made.holds(term) {
                    made = made.more(term);
                }
            }
        }
        let cnf = clauses(tally, &made);
        for (truth, word) in [(0, 9), (1, 9), (1, Word::MAX)] {
            let mut numbers = [0; 16];
            (numbers[0], numbers[1]) = (truth, word);
            follows(tally, &made, cnf.as_ref(), &numbers);
        }
    }
}
