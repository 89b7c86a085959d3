//! "Spans from request Two may narrow the search: then only readings inside them count."

use super::{free, is_the_word, not, numbers, or, put, Asked};
use crate::limits::every_kind::{FALSE_TERM, TRUE_TERM};
use crate::limits::GOOD;
use crate::made::{word_input, Made, FALSE, FREE_TRUTH, FREE_WORD, TRUE};
use crate::tally::Tally;
use second::dice::record;
use second::{Goal, Input, ResultOf, Spans, Word};

pub fn all(tally: &mut Tally) {
    words_in_their_spans(tally);
    from_a_limit_on(tally);
    truths_ignore_theirs(tally);
    constants_ignore_theirs(tally);
    begin_anew(tally);
    last_reading(tally);
}

const SPANS: [(Word, Word); 8] = [
    (5, 5),
    (5, 9),
    (0, 0),
    (0, 1),
    (255, 257),
    (0x7fff, 0x8000),
    (Word::MAX - 4, Word::MAX),
    (Word::MAX, Word::MAX),
];

/// Of every other input these ends, which do not meet those of the one.
fn at_one(at: usize, (low, high): (Word, Word)) -> Spans {
    let mut given = Spans {
        lows: [low ^ 0x4000; 16],
        highs: [high ^ 0x4000; 16],
    };
    (given.lows[at], given.highs[at]) = (low, high);
    given
}

/// The words about both ends of a span, at each place.
fn words_in_their_spans(tally: &mut Tally) {
    let result = ResultOf { value: 2, ..GOOD };
    for at in 0..16 {
        let made = Made::open(&free(&[], Some(at)), 34);
        for (low, high) in SPANS {
            let given = at_one(at, (low, high));
            for end in [low, high] {
                for word in [end.wrapping_sub(1), end, end.wrapping_add(1)] {
                    let asked = Asked {
                        made: &made,
                        result,
                        goal: Goal::Gives(word),
                        given: Some(&given),
                    };
                    let inside = (low..=high).contains(&word);
                    let wanted = inside.then(|| numbers(&[(at, word)]));
                    asked.expect(tally, "a word in its span", wanted);
                }
            }
        }
    }
}

/// An error from 100 on: at the low, at 100, or not at all.
fn from_a_limit_on(tally: &mut Tally) {
    let opened = Made::open(&free(&[3], Some(5)), 40);
    let (made, hundred) = put(opened, record(2, 0, 100, 0, 0));
    let (made, below) = put(made, record(5, 11, 3, hundred, 0));
    for (low, high, wanted) in [
        (0, 99, None),
        (99, 99, None),
        (0, 100, Some(100)),
        (90, 110, Some(100)),
        (100, 110, Some(100)),
        (101, 110, Some(101)),
        (100, 100, Some(100)),
        (Word::MAX, Word::MAX, Some(Word::MAX)),
    ] {
        let given = at_one(5, (low, high));
        let asked = Asked {
            made: &made,
            result: ResultOf { t: below, ..GOOD },
            goal: Goal::Errs,
            given: Some(&given),
        };
        let wanted = wanted.map(|head| numbers(&[(5, head)]));
        asked.expect(tally, "from a limit on", wanted);
    }
}

/// A free truth is false in some readings and true in others, whatever is given for it.
fn truths_ignore_theirs(tally: &mut Tally) {
    for at in [0, 4, 15] {
        let (made, not_it) = not(Made::open(&free(&[at], None), 34), 2);
        for ends in [(0, 0), (0, 1), (1, 1), (1, 0), (2, 9), (9, 2), (9, 9)] {
            for (t, number) in [(2, 0), (not_it, 1)] {
                let given = at_one(at, ends);
                let asked = Asked {
                    made: &made,
                    result: ResultOf { t, ..GOOD },
                    goal: Goal::Errs,
                    given: Some(&given),
                };
                let wanted = Some(numbers(&[(at, number)]));
                asked.expect(tally, "a truth with a span", wanted);
            }
        }
    }
}

/// A constant stands as 0 and reads as itself.
fn constants_ignore_theirs(tally: &mut Tally) {
    for input in [FALSE, TRUE, word_input(9), word_input(0)] {
        for ends in [(0, 0), (5, 7), (7, 5), (9, 9), (0, Word::MAX)] {
            let mut inputs: [Input; 16] = [input; 16];
            (inputs[3], inputs[8]) = (FREE_TRUTH, FREE_WORD);
            let made = Made::open(&inputs, 34);
            let mut given = Spans {
                lows: [ends.0; 16],
                highs: [ends.1; 16],
            };
            (given.lows[8], given.highs[8]) = (20, 21);
            for t in [FALSE_TERM, TRUE_TERM] {
                let asked = Asked {
                    made: &made,
                    result: ResultOf { t, ..GOOD },
                    goal: Goal::Errs,
                    given: Some(&given),
                };
                let wanted = (t == FALSE_TERM).then(|| numbers(&[(8, 20)]));
                asked.expect(tally, "constants with spans", wanted);
            }
        }
    }
}

/// With a truth before the word: where the truth goes up, the word begins anew at its low.
fn begin_anew(tally: &mut Tally) {
    let opened = Made::open(&free(&[2, 9], Some(6)), 40);
    // the terms of the free inputs in their order
    let [first, word, last] = [2, 3, 4];
    let (made, is_low) = is_the_word(opened, word, 40);
    let (made, is_high) = is_the_word(made, word, 43);
    let (made, not_first) = not(made, first);
    let (made, not_last) = not(made, last);
    let (made, low_after) = put(made, record(5, 33, is_low, first, 0));
    let (made, high_after) = put(made, record(5, 33, is_high, first, 0));
    let (made, not_low_after) = not(made, low_after);
    let (made, not_high_after) = not(made, high_after);
    let (made, either) = or(made, not_first, not_last);
    for (t, wanted) in [
        (not_low_after, vec![(2, 1), (6, 40)]),
        (not_high_after, vec![(2, 1), (6, 43)]),
        (not_first, vec![(2, 1), (6, 40)]),
        (not_last, vec![(6, 40), (9, 1)]),
        (either, vec![(2, 1), (6, 40), (9, 1)]),
    ] {
        let given = at_one(6, (40, 43));
        let asked = Asked {
            made: &made,
            result: ResultOf { t, ..GOOD },
            goal: Goal::Errs,
            given: Some(&given),
        };
        asked.expect(tally, "begins anew", Some(numbers(&wanted)));
    }
}

/// 24 free bits, and the last reading inside the spans: every truth is true and the word is at its high.
fn last_reading(tally: &mut Tally) {
    for word in [0, 8] {
        let truths: Vec<usize> = (0..9).filter(|&at| at != word).collect();
        let mut made = Made::open(&free(&truths, Some(word)), 60);
        let mut all = TRUE_TERM;
        for &at in &truths {
            (made, all) = put(made, record(5, 33, all, 2 + at as u16, 0));
        }
        let (made, high) = is_the_word(made, 2 + word as u16, Word::MAX);
        let (made, last) = put(made, record(5, 33, all, high, 0));
        let (made, not_last) = not(made, last);
        let mut wanted: Vec<(usize, Word)> = truths.iter().map(|&at| (at, 1)).collect();
        wanted.push((word, Word::MAX));
        for (high, wanted) in [(Word::MAX, Some(numbers(&wanted))), (Word::MAX - 1, None)] {
            let given = at_one(word, (Word::MAX - 3, high));
            let asked = Asked {
                made: &made,
                result: ResultOf {
                    t: not_last,
                    ..GOOD
                },
                goal: Goal::Errs,
                given: Some(&given),
            };
            asked.expect(tally, "the last reading", wanted);
        }
    }
}
