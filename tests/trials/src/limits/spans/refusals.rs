//! "It refuses by 3, then by 17 if a free word's low exceeds its high, then by 15 if its list is shorter than the count.
//! [..] a refusal leaves what is lent for answers as it was, success the places past the count"

use super::{spans, HALF, MOST};
use crate::compare::compare_spans;
use crate::desk::REPORT;
use crate::limits::every_kind::{every_kind, filled};
use crate::made::{word_input, Made, FALSE, FREE_TRUTH, FREE_WORD, TRUE};
use crate::tally::Tally;
use second::{Input, Spans, Word};

pub fn all(tally: &mut Tally) {
    lows_and_highs(tally);
    ignored(tally);
    lists(tally);
    orders(tally);
}

fn refusal(tally: &mut Tally, made: &Made, given: &Spans, numbers: usize) -> u8 {
    compare_spans(tally, &made.session, &made.table, given, numbers).0
}

/// Of all inputs these ends, but of one others.
fn but_at(all: (Word, Word), at: usize, one: (Word, Word)) -> Spans {
    let mut given = Spans {
        lows: [all.0; 16],
        highs: [all.1; 16],
    };
    (given.lows[at], given.highs[at]) = one;
    given
}

/// Each of sixteen free words: a span of one word is taken, a low one above the high is not.
fn lows_and_highs(tally: &mut Tally) {
    let made = Made::open(&[FREE_WORD; 16], 34);
    for at in 0..16 {
        for high in [0, 1, 8, 255, 256, HALF, HALF + 1, MOST - 1, MOST] {
            for low in [high.saturating_sub(1), high, high.saturating_add(1), MOST] {
                let given = but_at((0, MOST), at, (low, high));
                let expected = if low > high { 17 } else { 0 };
                let refusal = refusal(tally, &made, &given, 102);
                tally.same("a low and a high", refusal, expected);
            }
        }
    }
}

/// "if a free word's low exceeds its high": of any other input they are ignored.
fn ignored(tally: &mut Tally) {
    let kinds = [FALSE, TRUE, word_input(9), FREE_TRUTH, FREE_WORD];
    for other in [FALSE, FREE_TRUTH, word_input(5)] {
        for at in 0..16 {
            for input in kinds {
                let mut inputs = [other; 16];
                inputs[at] = input;
                let made = Made::open(&inputs, 34);
                for (one, all) in [((8, 7), (0, MOST)), ((7, 8), (MOST, 0)), ((8, 7), (1, 0))] {
                    let given = but_at(all, at, one);
                    let refused = input == FREE_WORD && one.0 > one.1;
                    let refusal = refusal(tally, &made, &given, 102);
                    tally.same("ends", refusal, if refused { 17 } else { 0 });
                }
            }
        }
    }
}

/// "15 if its list is shorter than the count", also at the most terms that there can be
fn lists(tally: &mut Tally) {
    for made in [
        every_kind(),
        filled(8_192),
        Made::open(&[FREE_WORD; 16], 34),
        Made::open(&[FALSE; 16], 34),
    ] {
        let count = usize::from(made.session.count);
        let right = REPORT * count;
        let short = [0, 1, 2, count - 1, count, 2 * count, right - 3, right - 2];
        let long = [right, right + 1, right + 2, right + 3, right + 1_000];
        for numbers in short.into_iter().chain([right - 1]).chain(long) {
            let refusal = refusal(tally, &made, &spans(&[]), numbers);
            let expected = if numbers < right { 15 } else { 0 };
            tally.same("a list", refusal, expected);
        }
    }
}

/// Every two of the three tests, and all of them.
fn orders(tally: &mut Tally) {
    let mut inputs = [FALSE; 16];
    inputs[15] = FREE_WORD;
    let good = Made::open(&inputs, 40);
    let unfit: [Made; 4] = [
        good.over(319),
        good.but(|session| session.inputs[0] = Input { kind: 4, value: 0 }),
        good.but(|session| session.count += 1),
        good.but(|session| session.t = 90),
    ];
    let right = REPORT * usize::from(good.session.count);
    for (made, fits) in unfit
        .iter()
        .map(|made| (made, false))
        .chain([(&good, true)])
    {
        for (low, high) in [(7, 7), (8, 7)] {
            for numbers in [0, right - 1, right] {
                let given = but_at((0, 0), 15, (low, high));
                let expected = match (fits, low <= high, numbers == right) {
                    (false, _, _) => 3,
                    (true, false, _) => 17,
                    (true, true, false) => 15,
                    (true, true, true) => 0,
                };
                let refusal = refusal(tally, made, &given, numbers);
                tally.same("the order of 3, 17, 15", refusal, expected);
            }
        }
    }
}
