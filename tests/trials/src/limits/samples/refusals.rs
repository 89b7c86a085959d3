//! "Refusals 3, 14 and 15 come first and stop the whole call; 15 also covers numbers that aren't whole bales of sixteen, and
//! an answers list whose length isn't the count of bales."

use super::{sample, REFUSED};
use crate::compare::compare_samples;
use crate::desk::SAMPLE;
use crate::limits::every_kind::{every_kind, filled};
use crate::limits::readings::results_of_terms;
use crate::limits::{first, tables_about_three, GOOD, RESULTS_ABOUT_FOURTEEN};
use crate::made::{Made, FALSE, FREE_TRUTH, FREE_WORD};
use crate::tally::Tally;
use second::{ResultOf, Word};

pub fn all(tally: &mut Tally) {
    work_lists(tally);
    lengths(tally);
    long_lists(tally);
    formulas_and_values(tally);
    orders(tally);
    thirteen(tally);
    no_samples(tally);
}

/// A call's lists: how long the work list and the answers are, and the numbers.
struct Lists<'a> {
    work: usize,
    numbers: &'a [Word],
    answers: usize,
}

fn refusal(tally: &mut Tally, made: &Made, result: &ResultOf, lists: &Lists) -> u8 {
    let Lists {
        work,
        numbers,
        answers,
    } = *lists;
    let Made { session, table } = made;
    compare_samples(tally, session, table, result, numbers, work, answers).0
}

/// A work list shorter than the count, also at the most terms that there can be, and however many samples there are.
fn work_lists(tally: &mut Tally) {
    for made in [
        every_kind(),
        filled(8_192),
        Made::open(&[FREE_WORD; 16], 34),
        Made::open(&[FALSE; 16], 34),
    ] {
        let count = usize::from(made.session.count);
        for work in [0, 1, count - 1, count, count + 1, 10_000] {
            for answers in [0, 1, 3] {
                let lists = Lists {
                    work,
                    numbers: &[1; 3 * SAMPLE][..answers * SAMPLE],
                    answers,
                };
                let expected = if work < count { 15 } else { 0 };
                let refusal = refusal(tally, &made, &GOOD, &lists);
                tally.same("a work list", refusal, expected);
            }
        }
    }
}

/// Every length of the numbers up to some samples, and of the answers about their count.
fn lengths(tally: &mut Tally) {
    let made = every_kind();
    let count = usize::from(made.session.count);
    let all = [1; 4 * SAMPLE + 2];
    for numbers in 0..=all.len() {
        for answers in (0..=6).chain([numbers]) {
            let whole = numbers == answers * SAMPLE;
            for work in [count - 1, count] {
                let lists = Lists {
                    work,
                    numbers: &all[..numbers],
                    answers,
                };
                let expected = if whole && work == count { 0 } else { 15 };
                let refusal = refusal(tally, &made, &GOOD, &lists);
                tally.same("numbers and answers", refusal, expected);
            }
        }
    }
}

/// Lists about a length that a byte or two could no longer count: they are not cut to what these hold.
fn long_lists(tally: &mut Tally) {
    let made = every_kind();
    let all = vec![1; 65_537 * SAMPLE];
    let work = usize::from(made.session.count);
    for samples in [15, 16, 255, 256, 257, 4_095, 4_096, 4_097, 65_537] {
        let numbers = samples * SAMPLE;
        for (numbers, answers) in [
            (numbers, samples),
            (numbers, samples - 1),
            (numbers, samples + 1),
            (numbers, samples % 256),
            (numbers, samples % 65_536),
            (SAMPLE, samples),
            (numbers - 1, samples - 1),
            (numbers - 1, samples),
            (numbers - 15, samples - 1),
        ] {
            let lists = Lists {
                work,
                numbers: &all[..numbers],
                answers,
            };
            let expected = if numbers == answers * SAMPLE { 0 } else { 15 };
            let refusal = refusal(tally, &made, &GOOD, &lists);
            tally.same("long lists", refusal, expected);
        }
    }
}

/// 14 as a single reading has it, with samples and with none; a sample that 13 refuses does not come before it.
fn formulas_and_values(tally: &mut Tally) {
    let made = every_kind();
    let work = usize::from(made.session.count);
    let samples = [sample(1, 5, 1), sample(2, 5, 0)];
    for (result, bad_result) in results_of_terms() {
        for answers in [0, 1, 2] {
            let lists = Lists {
                work,
                numbers: samples[..answers].as_flattened(),
                answers,
            };
            let refusal = refusal(tally, &made, &result, &lists);
            tally.same("S, T and a value", refusal, first(&[bad_result]));
        }
    }
}

/// Every two of the tests, and all of them; 13, which a single reading makes between 3 and 14, refuses no call.
fn orders(tally: &mut Tally) {
    let tables = tables_about_three();
    let good = &tables[0].0;
    let count = usize::from(good.session.count);
    for (made, unfit) in &tables {
        for (result, bad_result) in &RESULTS_ABOUT_FOURTEEN {
            for number in [1, 2] {
                let numbers = [number; 3 * SAMPLE];
                for (work, length, answers) in lists_about(count) {
                    let right = work >= count && length == answers * SAMPLE;
                    let bad_list = (!right).then_some(15);
                    let lists = Lists {
                        work,
                        numbers: &numbers[..length],
                        answers,
                    };
                    let refusal = refusal(tally, made, result, &lists);
                    let expected = first(&[*unfit, *bad_result, bad_list]);
                    tally.same("the order of 3, 14, 15", refusal, expected);
                }
            }
        }
    }
}

/// Work lists, numbers and answers, each right or not, of two samples.
fn lists_about(count: usize) -> impl Iterator<Item = (usize, usize, usize)> {
    let two = 2 * SAMPLE;
    let works = [0, count - 1, count, count + 1];
    let pairs =
        [two, two - 1, two + 1].map(|numbers| [0, 1, 2, 3].map(|answers| (numbers, answers)));
    let pairs = pairs.into_iter().flatten();
    pairs.flat_map(move |(numbers, answers)| works.map(|work| (work, numbers, answers)))
}

/// "a refusal by 13 included": of each input, in each of three samples, with the numbers on both sides of the limit.
fn thirteen(tally: &mut Tally) {
    let made = every_kind();
    let Made { session, table } = &made;
    let work = usize::from(session.count);
    for at in 0..16 {
        for number in [0, 1, 2, 3, 255, 256, Word::MAX - 1, Word::MAX] {
            for place in 0..3 {
                let mut samples = [sample(1, 5, 1); 3];
                samples[place][at] = number;
                let numbers = samples.as_flattened();
                let (refusal, answers) =
                    compare_samples(tally, session, table, &GOOD, numbers, work, 3);
                let over = session.inputs[at] == FREE_TRUTH && number > 1;
                let refused: Vec<bool> = answers.iter().map(|&answer| answer == REFUSED).collect();
                let expected: Vec<bool> = (0..3).map(|other| over && other == place).collect();
                tally.same("a number", (refusal, refused), (0, expected));
            }
        }
    }
}

/// No samples: the tests are made, and nothing else is refused.
fn no_samples(tally: &mut Tally) {
    let good = every_kind();
    let count = usize::from(good.session.count);
    let unfit = good.but(|session| session.count += 1);
    let bad = ResultOf { s: 90, ..GOOD };
    for (made, result, work, answers, expected) in [
        (&good, GOOD, count, 0, 0),
        (&good, GOOD, count + 7, 0, 0),
        (&good, GOOD, count - 1, 0, 15),
        (&good, GOOD, 0, 0, 15),
        (&good, GOOD, count, 1, 15),
        (&good, bad, count, 0, 14),
        (&good, bad, 0, 1, 14),
        (&unfit, GOOD, count, 0, 3),
        (&unfit, bad, 0, 1, 3),
    ] {
        let lists = Lists {
            work,
            numbers: &[],
            answers,
        };
        let refusal = refusal(tally, made, &result, &lists);
        tally.same("no samples", refusal, expected);
    }
}
