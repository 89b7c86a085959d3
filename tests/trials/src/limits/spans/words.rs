//! Sums, differences and the other operators that give words.

use super::{
    expect, heads, operated, reports, span, spans, with, Numbers, Ways, ANY_WORD, HALF, HEADS, MOST,
};
use crate::tally::Tally;
use second::dice::datum;
use second::{Record, Word};

pub fn all(tally: &mut Tally) {
    constants(tally);
    sums(tally);
    differences(tally);
    other_operators(tally);
    all_ends(tally);
    all_operands(tally);
    chains(tally);
}

type Ends = (Word, Word);

/// The report of an operator on the first two heads, with these spans.
fn of_two(tally: &mut Tally, what: &str, op: u8, ends: [Ends; 2], wanted: Numbers) {
    let made = with(heads(), [operated(op, HEADS[0], HEADS[1])]);
    expect(tally, what, &made, &spans(&ends), wanted);
}

/// "a constant reports itself alone and a free word its own span"
fn constants(tally: &mut Tally) {
    for word in [0, 1, HALF, HALF + 1, MOST - 1, MOST] {
        let constant = Record {
            kind: 2,
            op: 0,
            ..datum(word)
        };
        let made = heads().more(constant);
        expect(
            tally,
            "a word constant",
            &made,
            &spans(&[]),
            span(word, word),
        );
        for low in [0, 1, word / 2, word] {
            let given = spans(&[(low.min(word), word)]);
            let reports = reports(tally, &heads(), &given);
            let head = reports[usize::from(HEADS[0])];
            tally.same("a free word", head, span(low.min(word), word));
        }
    }
}

/// "A sum [..] of two spans that cannot wrap reports exactly what their ends give"
fn sums(tally: &mut Tally) {
    for (first, second, wanted) in [
        ((0, 0), (0, 0), span(0, 0)),
        ((1, 2), (10, 20), span(11, 22)),
        ((5, 5), (6, 6), span(11, 11)),
        ((0, MOST), (0, 0), span(0, MOST)),
        ((7, MOST), (0, 0), span(7, MOST)),
        ((7, MOST), (0, 1), ANY_WORD),
        ((7, MOST - 1), (3, 5), ANY_WORD),
        ((7, MOST - 5), (3, 5), span(10, MOST)),
        ((7, MOST - 4), (3, 5), ANY_WORD),
        ((HALF, HALF), (HALF + 1, HALF + 1), span(MOST, MOST)),
        ((HALF + 1, HALF + 1), (HALF + 1, HALF + 1), ANY_WORD),
        // each sum of the ends wraps, and neither does
        ((MOST, MOST), (1, 1), ANY_WORD),
        ((MOST, MOST), (MOST, MOST), ANY_WORD),
        ((MOST, MOST), (0, 0), span(MOST, MOST)),
    ] {
        of_two(tally, "a sum", 1, [first, second], wanted);
        of_two(tally, "a sum turned", 1, [second, first], wanted);
    }
}

/// "difference of two spans that cannot wrap": the first's low is at or above the second's high
fn differences(tally: &mut Tally) {
    for (first, second, wanted) in [
        ((10, 20), (3, 10), span(0, 17)),
        ((10, 20), (3, 11), ANY_WORD),
        ((11, 20), (3, 10), span(1, 17)),
        ((9, 20), (3, 10), ANY_WORD),
        ((7, 7), (7, 7), span(0, 0)),
        ((7, 7), (8, 8), ANY_WORD),
        ((8, 8), (7, 7), span(1, 1)),
        ((0, 0), (0, 0), span(0, 0)),
        ((0, MOST), (0, 0), span(0, MOST)),
        ((0, MOST), (0, 1), ANY_WORD),
        ((MOST, MOST), (0, MOST), span(0, MOST)),
        ((MOST - 1, MOST), (0, MOST), ANY_WORD),
        ((HALF + 1, MOST), (HALF, HALF + 1), span(0, HALF + 1)),
        ((0, 5), (10, 20), ANY_WORD),
    ] {
        of_two(tally, "a difference", 2, [first, second], wanted);
    }
}

/// "any other word operator reports 0 to 65,535", even of spans of one word
fn other_operators(tally: &mut Tally) {
    for op in 3..=10 {
        for ends in [(0, 0), (1, 1), (2, 3), (0, MOST), (MOST, MOST)] {
            of_two(tally, "another operator", op, [ends, (1, 1)], ANY_WORD);
            of_two(tally, "another operator", op, [(0, 0), ends], ANY_WORD);
        }
    }
}

const CODES: [u8; 12] = [1, 2, 3, 4, 5, 6, 7, 8, 9, 10, 11, 12];

/// Every operator on any two of these terms.
fn pairs(terms: &[u16]) -> impl Iterator<Item = Record> + '_ {
    CODES.into_iter().flat_map(move |op| {
        let second = move |a| terms.iter().map(move |&b| operated(op, a, b));
        terms.iter().flat_map(move |&a| second(a))
    })
}

/// Every two spans that end at words about the limits.
fn all_ends(tally: &mut Tally) {
    let words = [0, 1, 2, HALF, HALF + 1, MOST - 1, MOST];
    let of_low = |&low: &Word| words.iter().map(move |&high| (low, high));
    let ends = words.iter().flat_map(of_low);
    let ends: Vec<Ends> = ends.filter(|(low, high)| low <= high).collect();
    let parts: Vec<&[Ends]> = ends.chunks(7).collect();
    let made = with(heads(), pairs(&HEADS));
    for first in 0..parts.len() {
        for second in 0..first {
            let both = [parts[first], parts[second]].concat();
            reports(tally, &made, &spans(&both));
        }
    }
}

/// "sum or difference of two spans": an operand may be a choice that has a span; of one that has none, nothing is known.
fn all_operands(tally: &mut Tally) {
    let ways = Ways::new();
    ways.reports(tally, pairs(&ways.values));
}

/// Sums of sums and differences of these: a span goes on from term to term, until one wraps.
fn chains(tally: &mut Tally) {
    let first = heads().session.count;
    // the longest step that twenty do not wrap from 0 on, and what they leave
    let (step, left) = (MOST / 20, MOST % 20);
    for op in [1, 2] {
        let sums = (0..20).map(|n| {
            let a = if n == 0 { HEADS[0] } else { first + n - 1 };
            operated(op, a, HEADS[1])
        });
        let made = with(heads(), sums);
        for ends in [
            [(0, 1), (0, 1)],
            [(5, 9), (1, 3)],
            [(0, 0), (step, step)],
            [(left, left), (step, step)],
            [(left + 1, left + 1), (step, step)],
            [(MOST, MOST), (step, step)],
            [(MOST - left, MOST), (0, step)],
            [(MOST - left - 1, MOST), (0, step)],
        ] {
            reports(tally, &made, &spans(&ends));
        }
    }
}
