//! What document 02's request One folds: a product and a bitwise and with 0, a choice with equal sides, a not of a not;
//! and what stands close to these and is not folded.

use super::every_kind::{every_kind, LAST, LESS, NINE, NOT, SUM};
use super::fitting::expect;
use super::{damaged_at_times, evaluate};
use crate::compare::compare_fits;
use crate::evaluations::Pair;
use crate::made::{free_inputs, word_input, Made, FREE_TRUTH, FREE_WORD};
use crate::session_trials::readings;
use crate::tally::Tally;
use crate::tree::{abort, bind, call, error, operator, place, procedure, test, truth, word, Tree};
use second::dice::{record, Dice};
use second::{records, result_of, Record, Word};

pub fn all(tally: &mut Tally) {
    zeros(tally);
    zero_inputs(tally);
    equal_sides(tally);
    equal_results(tally);
    nots(tally);
    tests_of_nots(tally);
    layouts(tally);
    formulas(tally);
    random_rules(tally);
}

/// Over every table from the smallest to the first that has room. Even places are free truths and odd ones free words.
fn tried(tally: &mut Tally, tree: &Tree) {
    for records in 34.. {
        let made = Made::open(&free_inputs(), records);
        if evaluate(tally, &made, &tree.rule(), 100) != 11 {
            break;
        }
    }
}

fn not(place: u16) -> Tree {
    operator(13, place, 0)
}

/// "word 0 for multiply or bitwise and when either operand is the word constant 0. [..] Type assertions are still made."
fn zeros(tally: &mut Tally) {
    for op in 1..=12 {
        for value in [0, 1, 256, Word::MAX / 2 + 1, Word::MAX] {
            // place 0 is the word, 1 a choice of words, 2 a word or a truth, 3 a procedure, 4 a free truth, 5 a free word
            for other in 0..6 {
                for (p, q) in [(0, other), (other, 0)] {
                    let q = if matches!(op, 9 | 10) { 0 } else { q };
                    let operated = bind(word(value), operator(op, p, q));
                    let chosen = bind(test(4, word(5), word(6)), operated);
                    let mixed = bind(test(1, word(5), truth(true)), chosen);
                    tried(tally, &bind(procedure(place(0)), mixed));
                }
            }
        }
    }
}

/// The same of a word constant that is an input, whose term stands in the opening.
fn zero_inputs(tally: &mut Tally) {
    for value in [0, 1] {
        let mut inputs = [FREE_WORD; 16];
        (inputs[0], inputs[2]) = (word_input(value), FREE_TRUTH);
        for op in 1..=8 {
            for (p, q) in [(0, 1), (1, 0), (0, 2), (2, 0), (0, 0), (1, 1)] {
                for records in 34..40 {
                    let made = Made::open(&inputs, records);
                    evaluate(tally, &made, &operator(op, p, q).rule(), 1);
                }
            }
        }
    }
}

/// "the shared side for a choice with equal sides": sides are equal where their numbers are, whatever the guard is.
fn equal_sides(tally: &mut Tally) {
    let sides = [
        word(5),
        word(6),
        truth(false),
        truth(true),
        place(0),
        place(1),
        place(2),
        not(0),
        operator(1, 1, 3),
        procedure(place(0)),
        abort(),
        error(),
    ];
    for then in &sides {
        for other in &sides {
            let both = test(0, then.clone(), other.clone());
            tried(tally, &both);
            tried(tally, &bind(both.clone(), operator(14, 0, 0)));
            tried(tally, &bind(both.clone(), test(3, place(0), then.clone())));
            tried(tally, &bind(both, call(0, 1)));
        }
    }
}

/// The same where the results of a call are merged.
fn equal_results(tally: &mut Tally) {
    let bodies = [word(5), word(6), place(0), abort()];
    for first in &bodies {
        for second in &bodies {
            for third in &bodies {
                let [first, second, third] =
                    [first, second, third].map(|body| procedure(body.clone()));
                let chosen = test(0, first, test(2, second, third));
                tried(tally, &bind(chosen, call(0, 2)));
            }
        }
    }
}

/// "the operand for not of a not": nots of nots of a truth, of a choice, of a comparison, of constants
fn nots(tally: &mut Tally) {
    for start in [
        place(0),
        test(0, word(5), truth(false)),
        test(0, place(2), place(4)),
        operator(11, 1, 3),
        truth(true),
        word(5),
    ] {
        for depth in 1..=4 {
            let last = (1..depth).fold(not(0), |tree, _| bind(not(0), tree));
            tried(tally, &bind(start.clone(), last));
        }
    }
}

/// A not that an implication or the guard of a right side needs goes the same way.
fn tests_of_nots(tally: &mut Tally) {
    let branches = [word(5), abort(), error(), test(3, word(6), error())];
    for then in &branches {
        for other in &branches {
            let tested = test(0, then.clone(), other.clone());
            tried(tally, &bind(not(0), tested.clone()));
            let before = |place| test(place, word(5), error());
            let after = bind(not(1), tested.clone());
            tried(tally, &bind(before(2), after));
            let within = test(1, then.clone(), other.clone());
            tried(tally, &bind(not(0), bind(before(3), within)));
        }
    }
    // place 0 is a not of place 1, which is a free truth
    let add = || procedure(operator(1, 0, 3));
    for chosen in [
        test(0, add(), word(7)),
        test(0, word(7), add()),
        test(0, add(), test(1, word(7), add())),
        test(1, test(0, word(7), add()), test(3, add(), word(8))),
        test(3, test(0, add(), word(7)), test(0, add(), word(8))),
    ] {
        tried(tally, &bind(not(0), bind(chosen.clone(), call(0, 3))));
        tried(tally, &bind(bind(not(0), not(0)), bind(chosen, call(0, 3))));
    }
}

/// Test 3 is about layout: terms that the factory folds may stand in a table.
fn layouts(tally: &mut Tally) {
    let zero = LAST + 1;
    for folded in [
        record(5, 32, NOT, 0, 0),
        record(6, 0, LESS, NINE, NINE),
        record(6, 0, NOT, NOT, NOT),
        record(5, 3, SUM, zero, 0),
        record(5, 3, zero, SUM, 0),
        record(5, 4, SUM, zero, 0),
        record(5, 4, zero, zero, 0),
    ] {
        let made = every_kind().more(record(2, 0, 0, 0, 0)).more(folded);
        expect(tally, "a term that the factory folds", &made, true);
    }
}

/// In a session whose formulas are nots of nots, or nots: a not of one is its operand, and no more is taken off.
fn formulas(tally: &mut Tally) {
    let made = Made::open(&[FREE_TRUTH; 16], 2_048);
    let first = made.session.count;
    let terms = [2, first, first + 1].map(|operand| record(5, 32, operand, 0, 0));
    let made = terms.into_iter().fold(made, |made, term| made.more(term));
    for s in [1, 2, first, first + 1, first + 2] {
        for t in [1, 3, first, first + 1, first + 2] {
            let made = made.but(|session| (session.s, session.t) = (s, t));
            for tree in [
                abort(),
                error(),
                operator(1, 0, 1),
                test(0, word(5), error()),
                test(1, abort(), word(5)),
                bind(not(0), test(0, error(), abort())),
            ] {
                evaluate(tally, &made, &tree.rule(), 9);
            }
        }
    }
}

/// Rules that multiply by 0, take the same side twice and negate often, some of them damaged, in tables of which some are
/// too small; their results are read, and no term that the factory folds stands in their tables.
fn random_rules(tally: &mut Tally) {
    let mut dice = Dice(0xf01d);
    for _ in 0..3_000 {
        let inputs = dice.inputs();
        let room = dice.pick(&[34, 40, 48, 64, 128, 512]);
        let mut pair = Pair::open(&inputs, 8 * room).expect("a good opening");
        for _ in 0..3 {
            let tree = folding(&mut dice, 0, 12);
            let bytes = damaged_at_times(&mut dice, &tree);
            let answer = pair.evaluate(tally, &bytes, 24);
            compare_fits(tally, &pair.session, &pair.theirs);
            let made: Vec<Record> = records(&pair.theirs).collect();
            let folded = made.iter().any(|&term| folds(&made, term));
            tally.same("a term that is folded", folded, false);
            if let Some(result) = result_of(answer) {
                readings(tally, &mut dice, &pair.session, &pair.theirs, &result);
            }
        }
    }
}

/// Whether the factory would fold a term over these.
fn folds(terms: &[Record], term: Record) -> bool {
    let names = |number: u16| terms[usize::from(number)];
    let zero = |number| names(number) == record(2, 0, 0, 0, 0);
    let not = |term: Record| (term.kind, term.op) == (5, 32);
    match (term.kind, term.op) {
        (5, 3 | 4) => zero(term.a) || zero(term.b),
        (5, 32) => not(names(term.a)),
        (6, _) => term.b == term.c,
        _ => false,
    }
}

fn folding(dice: &mut Dice, bindings: u16, size: u64) -> Tree {
    let near = |dice: &mut Dice| dice.below(u64::from(bindings) + 6) as u16;
    let (p, q) = (near(dice), near(dice));
    match dice.below(if size > 1 { 10 } else { 5 }) {
        0 => word(dice.pick(&[0, 0, 1, 5])),
        1 => place(p),
        2 => operator(dice.pick(&[3, 4, 1, 7, 11]), p, q),
        3 => not(p),
        4 => dice.pick(&[call as fn(u16, u16) -> Tree, |p, _| place(p)])(p, q),
        5 => procedure(folding(dice, bindings + 1, size / 2)),
        6 | 7 => {
            let then = folding(dice, bindings, size / 2);
            let other = match dice.below(3) {
                0 => then.clone(),
                _ => folding(dice, bindings, size / 2),
            };
            test(p, then, other)
        }
        _ => {
            let first = folding(dice, bindings, size / 2);
            bind(first, folding(dice, bindings + 1, size - 1))
        }
    }
}
