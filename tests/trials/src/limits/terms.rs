//! Test 3, the clauses about a term: each is broken alone, by one term more.

use super::every_kind::{
    every_kind, opened, operands_of, operator, Sort, BINDING, CHOICE, CHOSEN, FREE_TRUTH_TERM,
    FREE_WORD_TERM, LAST, LAST_OPENED, LESS, NINE, NOT, PROCEDURE, SEVEN, SUM, TERMS,
};
use super::fitting::expect;
use crate::tally::Tally;
use second::dice::record;
use second::Record;

pub fn all(tally: &mut Tally) {
    kinds(tally);
    codes(tally);
    unused_fields(tally);
    repeated_terms(tally);
    lower_terms(tally);
    operands(tally);
    truths(tally);
    named_kinds(tally);
    procedures(tally);
}

fn expect_more(tally: &mut Tally, what: &str, term: Record, good: bool) {
    expect(tally, what, &every_kind().more(term), good);
}

/// "a term breaks the layout above": its kind
fn kinds(tally: &mut Tally) {
    for kind in [0, 9, 10, 255] {
        for (a, b) in [(0, 0), (8, 0), (FREE_WORD_TERM, LAST_OPENED)] {
            expect_more(tally, "no kind", record(kind, 0, a, b, 0), false);
        }
    }
    for a in [0, 1, 2, 65_535] {
        for (op, b, c) in [(0, 0, 0), (1, 0, 0), (0, 1, 0), (0, 0, 1)] {
            let term = record(1, op, a, b, c);
            expect_more(tally, "a truth constant", term, false);
        }
    }
}

/// "Code 13 makes no term of its own.", nor does any code but 1 to 12, 14, 15 and 32 to 35.
fn codes(tally: &mut Tally) {
    for op in 0..=255 {
        if let Some(term) = operator(op) {
            expect_more(tally, "a code", term, true);
            continue;
        }
        let word = FREE_WORD_TERM;
        for (a, b) in [(word, 0), (word, word), (CHOICE, 0), (LESS, 0)] {
            expect_more(tally, "no code", record(5, op, a, b, 0), false);
        }
    }
}

/// Terms that fit, with the changes of a field that is unused in them.
fn with_unused_fields() -> Vec<(Record, Vec<Change>)> {
    let op: Change = |term, value| term.op = value.to_le_bytes()[0];
    let b: Change = |term, value| term.b = value;
    let c: Change = |term, value| term.c = value;
    let mut terms = vec![
        (record(2, 0, 8, 0, 0), vec![op, b, c]),
        (record(6, 0, NOT, NINE, SUM), vec![op]),
        (record(7, 0, 5, LAST_OPENED, 1), vec![op]),
        (record(8, 0, SEVEN, LAST_OPENED, 0), vec![op, c]),
    ];
    for code in 1..=35 {
        match (operands_of(code), operator(code)) {
            (Some((2, _)), Some(term)) => terms.push((term, vec![c])),
            (_, Some(term)) => terms.push((term, vec![b, c])),
            _ => {}
        }
    }
    terms
}

type Change = fn(&mut Record, u16);

/// "Unused fields are zero."
fn unused_fields(tally: &mut Tally) {
    for (term, changes) in with_unused_fields() {
        expect_more(tally, "one term more", term, true);
        for change in changes {
            // of an op it is the low byte
            for value in [1, 257, 65_535] {
                let mut other = term;
                change(&mut other, value);
                expect_more(tally, "an unused field", other, false);
            }
        }
    }
}

/// "or is repeated"
fn repeated_terms(tally: &mut Tally) {
    let made = every_kind();
    for number in 0..=LAST {
        expect_more(tally, "a repeated term", made.term(number), false);
    }
    let other = Record {
        c: 0,
        ..made.term(PROCEDURE)
    };
    expect_more(tally, "another rule's procedure", other, true);
}

/// A term, and one above it that names a number.
type Namer = (Record, fn(u16) -> Record);

/// Each field that names a term, over one of the kind that it may name.
fn namers() -> [Namer; 14] {
    let word = record(2, 0, 8, 0, 0);
    let truth = record(5, 12, FREE_WORD_TERM, NINE, 0);
    let choice = record(6, 0, NOT, FREE_WORD_TERM, NINE);
    let binding = record(8, 0, FREE_WORD_TERM, LAST_OPENED, 0);
    [
        (word, |n| record(5, 1, n, FREE_WORD_TERM, 0)),
        (word, |n| record(5, 1, FREE_WORD_TERM, n, 0)),
        (word, |n| record(5, 9, n, 0, 0)),
        (truth, |n| record(5, 32, n, 0, 0)),
        (truth, |n| record(5, 33, n, FREE_TRUTH_TERM, 0)),
        (truth, |n| record(5, 34, FREE_TRUTH_TERM, n, 0)),
        (choice, |n| record(5, 14, n, 0, 0)),
        (choice, |n| record(5, 35, n, 0, 0)),
        (truth, |n| record(6, 0, n, NINE, SUM)),
        (word, |n| record(6, 0, NOT, n, SUM)),
        (word, |n| record(6, 0, NOT, SUM, n)),
        (binding, |n| record(7, 0, 6, n, 1)),
        (word, |n| record(8, 0, n, LAST_OPENED, 0)),
        (binding, |n| record(8, 0, SEVEN, n, 0)),
    ]
}

/// "A term names only lower terms."
fn lower_terms(tally: &mut Tally) {
    for (before, namer) in namers() {
        let made = every_kind().more(before);
        // the one before, itself, and higher ones
        for (number, lower) in [
            (LAST + 1, true),
            (LAST + 2, false),
            (LAST + 3, false),
            (65_534, false),
        ] {
            let named = made.more(namer(number));
            expect(tally, "a named term", &named, lower);
        }
        let turned = every_kind().more(namer(LAST + 2)).more(before);
        expect(tally, "a higher term of the right kind", &turned, false);
    }
}

/// "Operands of codes 32 to 34 [..] are truths [..]; operands of 14, 15 and 35 are choices; operands of 1 to 12 [..] are
/// anything but bindings"
fn operands(tally: &mut Tally) {
    let made = every_kind();
    for op in 1..=35 {
        let (Some((count, sorts)), Some(term)) = (operands_of(op), operator(op)) else {
            continue;
        };
        for (number, sort) in TERMS {
            let first = Record { a: number, ..term };
            let good = sorts.contains(&sort) && !made.holds(first);
            expect_more(tally, "a first operand", first, good);
            if count == 2 {
                let second = Record { b: number, ..term };
                let good = sorts.contains(&sort) && !made.holds(second);
                expect_more(tally, "a second operand", second, good);
            }
        }
    }
}

/// "truths (kinds 1 and 3, or an operator giving a truth)"
fn truths(tally: &mut Tally) {
    for op in 1..=35 {
        let Some(term) = operator(op) else { continue };
        let not = record(5, 32, LAST + 1, 0, 0);
        let truth = matches!(op, 11 | 12 | 14 | 15 | 32..=35);
        let made = every_kind().more(term).more(not);
        expect(tally, "not of an operator", &made, truth);
    }
}

/// "a choice's a [is a truth]; [..] choice sides and binding values are anything but bindings; a procedure's b and a next
/// are bindings", "next b, or 65,535"
fn named_kinds(tally: &mut Tally) {
    for (number, sort) in TERMS {
        let (truth, binding) = (sort == Sort::Truth, sort == Sort::Binding);
        let term = record(6, 0, number, NINE, SUM);
        expect_more(tally, "a choice's a", term, truth);
        let term = record(6, 0, NOT, number, CHOSEN);
        expect_more(tally, "a choice's b", term, !binding);
        let term = record(6, 0, NOT, CHOSEN, number);
        expect_more(tally, "a choice's c", term, !binding);
        let term = record(7, 0, 9, number, 0);
        expect_more(tally, "a procedure's b", term, binding);
        let term = record(8, 0, number, BINDING, 0);
        expect_more(tally, "a binding's value", term, !binding);
        let term = record(8, 0, SEVEN, number, 0);
        expect_more(tally, "a binding's next", term, binding);
    }
    let last = record(8, 0, SEVEN, 65_535, 0);
    expect_more(tally, "the last of a chain", last, true);
    let free = record(7, 0, 9, 65_535, 0);
    expect_more(tally, "a procedure without bindings", free, false);
    let empty = record(8, 0, 65_535, 65_535, 0);
    expect_more(tally, "a binding without a value", empty, false);
}

/// "a procedure's c is not below the accepted count or its a is over 4,095"
fn procedures(tally: &mut Tally) {
    for (a, good) in [(0, true), (4_095, true), (4_096, false), (65_535, false)] {
        let term = record(7, 0, a, LAST_OPENED, 1);
        expect_more(tally, "a procedure's a", term, good);
    }
    for accepted in [0, 1, 2, 3, 999, 1_000] {
        for c in [0, 1, 2, 3, 998, 999, 1_000, 65_535] {
            let made = opened().more(record(7, 0, 0, LAST_OPENED, c));
            let made = made.but(|session| session.accepted = accepted);
            expect(tally, "a procedure's c", &made, c < accepted);
        }
    }
}
