//! "With at most 24 free bits in all (a truth is one, a word sixteen)"; "More than 24 free bits is refused by 19, after 3, 14
//! and 17 and before 15."

use super::{free, Asked};
use crate::limits::every_kind::{every_kind, filled, FALSE_TERM, TRUE_TERM};
use crate::limits::readings::results_of_terms;
use crate::limits::{first, tables_over, GOOD, RESULTS_ABOUT_FOURTEEN};
use crate::made::{word_input, Made, FALSE, FREE_TRUTH, FREE_WORD, TRUE};
use crate::tally::Tally;
use second::{Goal, Input, ResultOf, Spans, Word};

pub fn all(tally: &mut Tally) {
    bits(tally);
    bits_at_each_place(tally);
    lows_and_highs(tally);
    work_lists(tally);
    formulas_and_values(tally);
    orders(tally);
}

/// It errs under every reading, so that the first is found at once.
const ERRS: ResultOf = ResultOf {
    t: FALSE_TERM,
    ..GOOD
};

/// Of every input the same ends.
fn all_spans(low: Word, high: Word) -> Spans {
    Spans {
        lows: [low; 16],
        highs: [high; 16],
    }
}

/// How a search for an error is refused, with a work list that is just long enough.
fn refusal(tally: &mut Tally, made: &Made, given: Option<&Spans>) -> u8 {
    let asked = Asked {
        made,
        result: ERRS,
        goal: Goal::Errs,
        given,
    };
    asked.with(tally, usize::from(made.session.count)).0
}

/// Each number of free truths with none, one or two free words, before or behind them, and constants for the rest: what is
/// counted are the bits that are free, whatever the spans leave of them.
fn bits(tally: &mut Tally) {
    for words in 0..=2 {
        for truths in 0..=16 - words {
            for constant in [FALSE, TRUE, word_input(9)] {
                for turned in [false, true] {
                    let mut inputs = [constant; 16];
                    inputs[..truths].fill(FREE_TRUTH);
                    inputs[truths..truths + words].fill(FREE_WORD);
                    if turned {
                        inputs.reverse();
                    }
                    let expected = if truths + 16 * words > 24 { 19 } else { 0 };
                    taken_or_not(tally, &inputs, expected);
                }
            }
        }
    }
}

fn taken_or_not(tally: &mut Tally, inputs: &[Input; 16], expected: u8) {
    let made = Made::open(inputs, 34);
    for given in [None, Some(all_spans(7, 7)), Some(all_spans(0, Word::MAX))] {
        let refusal = refusal(tally, &made, given.as_ref());
        tally.same("free bits", refusal, expected);
    }
}

/// 24 bits and 25, with the word and the constants at each place.
fn bits_at_each_place(tally: &mut Tally) {
    for word in 0..16 {
        for truths in [8, 9] {
            let mut inputs = [FALSE; 16];
            for k in 0..truths {
                inputs[(word + 1 + k) % 16] = FREE_TRUTH;
            }
            inputs[word] = FREE_WORD;
            let expected = if truths == 8 { 0 } else { 19 };
            taken_or_not(tally, &inputs, expected);
        }
    }
}

/// "17 if a free word's low exceeds its high", of spans that are given: at each place, and of no other input.
fn lows_and_highs(tally: &mut Tally) {
    let others = [FALSE, TRUE, word_input(9), FREE_TRUTH, FREE_WORD];
    for at in 0..16 {
        for input in others {
            let mut inputs = [FALSE; 16];
            inputs[at] = input;
            let made = Made::open(&inputs, 34);
            for (low, high) in [
                (0, 0),
                (7, 7),
                (8, 7),
                (7, 8),
                (Word::MAX, Word::MAX),
                (Word::MAX, Word::MAX - 1),
                (1, 0),
                (256, 255),
                (255, 256),
            ] {
                let mut given = all_spans(1, 0);
                (given.lows[at], given.highs[at]) = (low, high);
                let refused = input == FREE_WORD && low > high;
                let expected = if refused { 17 } else { 0 };
                let refusal = refusal(tally, &made, Some(&given));
                tally.same("a low and a high", refusal, expected);
            }
            let without = refusal(tally, &made, None);
            tally.same("no spans", without, 0);
        }
    }
}

/// "15: work list shorter than the count.", also at the most terms that there can be
fn work_lists(tally: &mut Tally) {
    for made in [
        every_kind(),
        filled(8_192),
        Made::open(&free(&[0, 1, 15], Some(7)), 34),
        Made::open(&[FREE_TRUTH; 16], 34),
        Made::open(&[FALSE; 16], 34),
    ] {
        let count = usize::from(made.session.count);
        for work in [0, 1, count - 1, count, count + 1, 10_000] {
            for given in [None, Some(all_spans(9, 9))] {
                let asked = Asked {
                    made: &made,
                    result: ERRS,
                    goal: Goal::Errs,
                    given: given.as_ref(),
                };
                let expected = if work < count { 15 } else { 0 };
                let (refusal, _) = asked.with(tally, work);
                tally.same("a work list", refusal, expected);
            }
        }
    }
}

/// 14 as a reading has it, of each goal.
fn formulas_and_values(tally: &mut Tally) {
    let made = every_kind();
    let given = all_spans(9, 10);
    for (result, bad_result) in results_of_terms() {
        for goal in [Goal::Errs, Goal::Aborts, Goal::Gives(9)] {
            let asked = Asked {
                made: &made,
                result,
                goal,
                given: Some(&given),
            };
            let (refusal, _) = asked.with(tally, usize::from(made.session.count));
            tally.same("S, T and a value", refusal, first(&[bad_result]));
        }
    }
}

/// The same, but that every reading errs where T is taken: a search without spans ends at once.
fn erring(result: ResultOf) -> ResultOf {
    match result.t {
        TRUE_TERM => ResultOf {
            t: FALSE_TERM,
            ..result
        },
        _ => result,
    }
}

/// Every two of the five tests, and all of them.
fn orders(tally: &mut Tally) {
    for (truths, too_many) in [(8, None), (9, Some(19))] {
        let mut inputs = [FALSE; 16];
        inputs[15] = FREE_WORD;
        inputs[14 - truths..14].fill(FREE_TRUTH);
        for (made, unfit) in tables_over(&inputs) {
            for (result, bad_result) in RESULTS_ABOUT_FOURTEEN {
                for (given, bad_span) in [
                    (None, None),
                    (Some(all_spans(7, 7)), None),
                    (Some(all_spans(8, 7)), Some(17)),
                ] {
                    for short in [0, 1, usize::from(made.session.count)] {
                        let too_short = (short > 0).then_some(15);
                        let asked = Asked {
                            made: &made,
                            result: erring(result),
                            goal: Goal::Errs,
                            given: given.as_ref(),
                        };
                        let work = usize::from(made.session.count) - short;
                        let refusals = [unfit, bad_result, bad_span, too_many, too_short];
                        let (refusal, _) = asked.with(tally, work);
                        tally.same("the order of 3, 14, 17, 19, 15", refusal, first(&refusals));
                    }
                }
            }
        }
    }
}
