//! "a choice reports the decided side, else the smallest report that covers both"

use super::{
    choice, expect, heads, operated, procedure, reports, span, spans, with, Numbers, Ways, EITHER,
    FALSE, HEADS, MOST, OPEN, SWITCH, TRUE,
};
use crate::tally::Tally;
use second::Word;

pub fn all(tally: &mut Tally) {
    procedures_and_bindings(tally);
    covered_spans(tally);
    covered_truths(tally);
    guards(tally);
    open_sides(tally);
    all_sides(tally);
    nested(tally);
}

/// "that its kind is open, as for procedures and bindings"
fn procedures_and_bindings(tally: &mut Tally) {
    let made = heads().more(procedure());
    expect(tally, "a procedure", &made, &spans(&[]), OPEN);
    let bindings = reports(tally, &heads(), &spans(&[])).split_off(usize::from(SWITCH) + 1);
    tally.same("bindings", bindings, vec![OPEN; 16]);
}

type Ends = (Word, Word);

fn covered_spans(tally: &mut Tally) {
    let made = with(heads(), [choice(SWITCH, HEADS[0], HEADS[1])]);
    let cases: [(Ends, Ends, Ends); 8] = [
        ((3, 5), (8, 9), (3, 9)),
        ((3, 5), (6, 9), (3, 9)),
        ((3, 7), (5, 9), (3, 9)),
        ((3, 9), (5, 6), (3, 9)),
        ((4, 9), (3, 9), (3, 9)),
        ((3, 8), (3, 9), (3, 9)),
        ((4, 4), (4, 4), (4, 4)),
        ((0, 0), (MOST, MOST), (0, MOST)),
    ];
    for (first, second, (low, high)) in cases {
        for ends in [[first, second], [second, first]] {
            expect(tally, "two spans", &made, &spans(&ends), span(low, high));
        }
    }
}

fn covered_truths(tally: &mut Tally) {
    for (then, other, wanted) in [
        (0, 0, FALSE),
        (0, 1, EITHER),
        (1, 1, TRUE),
        (0, SWITCH, EITHER),
        (1, SWITCH, EITHER),
        (SWITCH, SWITCH, EITHER),
    ] {
        for (then, other) in [(then, other), (other, then)] {
            let made = heads().more(choice(SWITCH, then, other));
            expect(tally, "two truths", &made, &spans(&[]), wanted);
        }
    }
}

/// A guard by constants, which the factory never leaves, and by spans, on either side of less's limits.
fn guards(tally: &mut Tally) {
    let less = heads().session.count;
    let compared = heads().more(operated(11, HEADS[0], HEADS[1]));
    let [then, other] = [span(100, 110), span(50, 60)];
    for (guard, first, wanted) in [
        (0, (0, 0), other),
        (1, (0, 0), then),
        (SWITCH, (0, 0), span(50, 110)),
        (less, (3, 5), then),
        (less, (3, 6), span(50, 110)),
        (less, (8, 12), span(50, 110)),
        (less, (9, 12), other),
    ] {
        let made = compared.more(choice(guard, HEADS[2], HEADS[3]));
        let given = spans(&[first, (6, 9), (100, 110), (50, 60)]);
        expect(tally, "a guard", &made, &given, wanted);
    }
}

/// "open where the sides differ in sort or one is open", but not where the guard decides for a side that is neither
fn open_sides(tally: &mut Tally) {
    let made = heads().more(procedure());
    let (head, proc) = (HEADS[0], made.session.count - 1);
    let given = spans(&[(4, 6)]);
    let mut tried = |guard, then, other, wanted: Numbers| {
        let made = made.more(choice(guard, then, other));
        expect(tally, "sides of two sorts", &made, &given, wanted);
    };
    for (side, report) in [(head, span(4, 6)), (SWITCH, EITHER), (1, TRUE), (0, FALSE)] {
        tried(SWITCH, side, proc, OPEN);
        tried(SWITCH, proc, side, OPEN);
        tried(1, side, proc, report);
        tried(0, proc, side, report);
        tried(0, side, proc, OPEN);
        tried(1, proc, side, OPEN);
    }
    for truth in [0, 1, SWITCH] {
        tried(SWITCH, head, truth, OPEN);
        tried(SWITCH, truth, head, OPEN);
    }
    tried(SWITCH, proc, proc, OPEN);
}

/// Every guard over any two values.
fn all_sides(tally: &mut Tally) {
    let ways = Ways::new();
    let sides = |guard, then| {
        let others = ways.values.iter();
        others.map(move |&other| choice(guard, then, other))
    };
    let firsts = ways.truths.iter();
    let firsts = firsts.flat_map(|&guard| ways.values.iter().map(move |&then| (guard, then)));
    ways.reports(tally, firsts.flat_map(|(guard, then)| sides(guard, then)));
}

/// Choices in choices: a span grows with each side that is not decided against.
fn nested(tally: &mut Tally) {
    let first = heads().session.count;
    let chain = (0..13).map(|n: u16| {
        let other = if n == 0 { HEADS[0] } else { first + n - 1 };
        choice(SWITCH, HEADS[usize::from(n) + 1], other)
    });
    let made = with(heads(), chain);
    let apart: Vec<Ends> = (0..15).map(|n| (100 - n, 1_000 + n)).collect();
    let inward: Vec<Ends> = (0..15).map(|n| (100 + n, 1_000 - n)).collect();
    expect(tally, "a chain", &made, &spans(&apart), span(87, 1_013));
    expect(tally, "a chain", &made, &spans(&inward), span(100, 1_000));
}
