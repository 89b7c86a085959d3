//! Test 3, the clauses about session and table: each is broken alone.

use super::every_kind::{
    every_kind, filled, opened, Sort, FIRST_BINDING, FREE_TRUTH_TERM, FREE_WORD_TERM, LAST,
    LAST_OPENED, NINE, TERMS, TRUE_TERM,
};
use super::{evaluate, fits};
use crate::made::Made;
use crate::tally::Tally;
use crate::tree::truth;
use second::dice::record;
use second::Input;

pub fn all(tally: &mut Tally) {
    lengths(tally);
    inputs(tally);
    counts(tally);
    beginnings(tally);
    free_inputs(tally);
    tails(tally);
    formulas(tally);
    accepted_counts(tally);
    full_tables(tally);
}

/// The test alone, and as the first test of an evaluation.
pub fn expect(tally: &mut Tally, what: &str, made: &Made, good: bool) {
    let refusal = fits(tally, made);
    tally.same(what, refusal, if good { 0 } else { 3 });
    let refusal = evaluate(tally, made, &truth(true).rule(), 1);
    tally.same(what, refusal == 3, !good);
}

/// "the table's length [..] is one that opening refuses"
fn lengths(tally: &mut Tally) {
    for bytes in [272, 280, 65_528, 65_536] {
        expect(tally, "a good length", &every_kind().over(bytes), true);
    }
    for bytes in [0, 248, 264, 271, 273, 65_529, 65_535, 65_537, 65_544] {
        expect(tally, "a bad length", &every_kind().over(bytes), false);
    }
}

/// "or an input is one that opening refuses": here those that would open the same table.
fn inputs(tally: &mut Tally) {
    for (at, input) in [
        (0, Input { kind: 2, value: 1 }),
        (1, Input { kind: 3, value: 1 }),
        (4, Input { kind: 0, value: 2 }),
        (14, Input { kind: 0, value: 2 }),
        (15, Input { kind: 2, value: 1 }),
    ] {
        let made = every_kind().but(|session| session.inputs[at] = input);
        expect(tally, "a bad input", &made, false);
    }
}

/// "the count is below opening's or over the table's records"
fn counts(tally: &mut Tally) {
    expect(tally, "an opening", &opened(), true);
    for count in [0, 1, 2, LAST_OPENED] {
        let mut short = opened().but(|session| session.count = count);
        expect(tally, "a count below the opening's", &short, false);
        short.table[8 * usize::from(count)..].fill(0);
        expect(tally, "a count below the opening's", &short, false);
    }
    expect(tally, "a full table", &filled(40), true);
    for over in [41, 8_192, 8_193, 65_535] {
        let made = filled(40).but(|session| session.count = over);
        expect(tally, "a count over the records", &made, false);
    }
}

/// "the table does not begin as opening would write it"
fn beginnings(tally: &mut Tally) {
    let made = every_kind();
    let word = record(2, 0, 8, 0, 0);
    expect(tally, "another first term", &made.put(0, word), false);
    expect(tally, "another constant", &made.put(NINE, word), false);
    let binding = |next| record(8, 0, NINE, next, 0);
    let first = made.put(FIRST_BINDING, binding(65_535));
    expect(tally, "another first binding", &first, false);
    let last = made.put(LAST_OPENED, binding(LAST_OPENED - 1));
    expect(tally, "another last binding", &last, false);
    let swapped = |i, j| made.put(i, made.term(j)).put(j, made.term(i));
    let turned = swapped(0, TRUE_TERM);
    expect(tally, "true before false", &turned, false);
    let turned = swapped(FREE_TRUTH_TERM, FREE_WORD_TERM);
    expect(tally, "inputs in another order", &turned, false);
}

/// "a free input stands past that"
fn free_inputs(tally: &mut Tally) {
    for kind in [3, 4] {
        for input in [0, 1, 5, 15, 16, 65_535] {
            let made = every_kind().more(record(kind, 0, input, 0, 0));
            expect(tally, "a free input", &made, false);
        }
    }
    free_among_words(tally);
}

/// At every place behind an opening: the desk looks at the oldest and the newest together, up to the middle one of an odd number.
fn free_among_words(tally: &mut Tally) {
    for behind in 1..=6 {
        let words = (0..behind).map(|n| record(2, 0, 1_000 + n, 0, 0));
        let made = words.fold(opened(), |made, word| made.more(word));
        expect(tally, "words alone", &made, true);
        for at in 0..behind {
            let number = LAST_OPENED + 1 + at;
            for kind in [3, 4] {
                let made = made.put(number, record(kind, 0, 7, 0, 0));
                expect(tally, "a free input among words", &made, false);
            }
        }
    }
}

/// "the tail is not zero"
fn tails(tally: &mut Tally) {
    let made = every_kind();
    let (count, end) = (8 * usize::from(made.session.count), made.table.len());
    for at in (count..=count + 8).chain([end - 9, end - 8, end - 1]) {
        for byte in [1, 128, 255] {
            let mut made = made.clone();
            made.table[at] = byte;
            expect(tally, "a tail", &made, false);
        }
    }
}

/// "a formula is no truth below the count"; no clause names the halted mark
fn formulas(tally: &mut Tally) {
    let past = [LAST + 1, LAST + 2, 65_535].map(|number| (number, Sort::Binding));
    for (number, sort) in TERMS.into_iter().chain(past) {
        for halted in [false, true] {
            let made = every_kind().but(|session| session.halted = halted);
            let assumed = made.but(|session| session.s = number);
            expect(tally, "S", &assumed, sort == Sort::Truth);
            let asserted = made.but(|session| session.t = number);
            expect(tally, "T", &asserted, sort == Sort::Truth);
        }
    }
}

/// "or the accepted count is over 1,000"
fn accepted_counts(tally: &mut Tally) {
    for (accepted, good) in [(999, true), (1_000, true), (1_001, false), (65_535, false)] {
        let made = every_kind().but(|session| session.accepted = accepted);
        expect(tally, "an accepted count", &made, good);
    }
}

/// "A table is 34 to 8,192 records of 8 bytes": with terms in all of them
fn full_tables(tally: &mut Tally) {
    for records in [34, 8_191, 8_192] {
        let made = filled(records);
        expect(tally, "a full table", &made, true);
        let repeated = made.put(records - 1, record(2, 0, 7, 0, 0));
        expect(tally, "a full table with a repeated term", &repeated, false);
        let over = made.but(|session| session.count += 1);
        expect(tally, "a count over the records", &over, false);
    }
}
