//! "In the bales' order, the answers hold just what single readings would give, a refusal by 13 included."

use super::{read, sample, word, Sample, REFUSED};
use crate::bench::{operators, ors, procedures};
use crate::desk::{Place, SAMPLE};
use crate::limits::every_kind::{
    every_kind, operands_of, Sort, BINDING, CHOSEN, FALSE_TERM, FREE_TRUTH_TERM, FREE_WORD_TERM,
    LAST, LAST_TRUTH_TERM, NOT, PROCEDURE, SUM, TERMS, TRUE_TERM,
};
use crate::limits::GOOD;
use crate::made::{Made, FREE_WORD};
use crate::tally::Tally;
use second::dice::record;
use second::{ResultOf, Word};

pub fn all(tally: &mut Tally) {
    in_order(tally);
    refused_in_place(tally);
    every_input(tally);
    every_outcome(tally);
    two_samples(tally);
    every_result(tally);
    every_operator(tally);
    full_tables(tally);
}

/// Samples that all read otherwise, each in its place.
fn in_order(tally: &mut Tally) {
    let head = ResultOf {
        value: FREE_WORD_TERM,
        ..GOOD
    };
    for count in [1, 2, 3, 16, 17, 40] {
        let samples: Vec<Sample> = (0..count).map(|n| sample(1, 100 + n, 1)).collect();
        let expected: Vec<Place> = (0..count).map(|n| word(100 + n)).collect();
        let answers = read(tally, &every_kind(), &head, &samples);
        tally.same_list("samples in order", &answers, &expected);
    }
}

/// Each choice of up to five samples is refused, by the first free truth or by the last; the others are read.
fn refused_in_place(tally: &mut Tally) {
    let sum = ResultOf { value: SUM, ..GOOD };
    for count in 1..=5 {
        for refused in 0..1 << count {
            for (first, last) in [(2, 1), (1, 2), (Word::MAX, 0), (0, 3)] {
                let is_refused = |n: Word| refused >> n & 1 == 1;
                let numbers = |n| match is_refused(n) {
                    true => sample(first, 20 + n, last),
                    false => sample(1, 20 + n, 1),
                };
                // the sum with the constant 9
                let answer = |n| match is_refused(n) {
                    true => REFUSED,
                    false => word(29 + n),
                };
                let samples: Vec<Sample> = (0..count).map(numbers).collect();
                let expected: Vec<Place> = (0..count).map(answer).collect();
                let answers = read(tally, &every_kind(), &sum, &samples);
                tally.same_list("refused samples", &answers, &expected);
            }
        }
    }
}

/// Each of sixteen numbers of a sample is its own input's, and of its own sample.
fn every_input(tally: &mut Tally) {
    let made = Made::open(&[FREE_WORD; 16], 34);
    let samples: [Sample; 3] =
        std::array::from_fn(|n| std::array::from_fn(|at| (1_000 * n + at) as Word));
    for at in 0..SAMPLE {
        let value = 2 + at as u16;
        let answers = read(tally, &made, &ResultOf { value, ..GOOD }, &samples);
        let expected: Vec<Place> = samples.iter().map(|numbers| word(numbers[at])).collect();
        tally.same_list("an input", &answers, &expected);
    }
}

/// Kind and number, as a reading has them: a word 13 is no refusal, and an abort and an error have 0.
fn every_outcome(tally: &mut Tally) {
    let kind = |kind: Place, number: Place| kind << Word::BITS | number;
    let samples = [
        sample(0, 13, 0),
        sample(0, 13, 1),
        sample(1, 13, 0),
        sample(1, 13, 1),
        sample(2, 13, 0),
    ];
    let choice = every_kind().more(record(6, 0, LAST_TRUTH_TERM, PROCEDURE, FREE_TRUTH_TERM));
    let by_inputs = ResultOf {
        s: FREE_TRUTH_TERM,
        t: LAST_TRUTH_TERM,
        value: FREE_WORD_TERM,
        halted: false,
    };
    let halt = ResultOf {
        value: 65_535,
        halted: true,
        ..by_inputs
    };
    let chosen = ResultOf {
        value: LAST + 1,
        ..GOOD
    };
    let (abort, error) = (kind(8, 0), kind(9, 0));
    for (result, expected) in [
        (by_inputs, [error, abort, error, word(13), REFUSED]),
        (halt, [error, abort, error, error, REFUSED]),
        (
            chosen,
            [kind(1, 0), kind(7, 4), kind(1, 1), kind(7, 4), REFUSED],
        ),
    ] {
        let answers = read(tally, &choice, &result, &samples);
        tally.same_list("outcomes", &answers, &expected);
    }
}

/// Samples with both truths at either end and with what 13 refuses.
fn some_samples() -> Vec<Sample> {
    let mut samples = Vec::new();
    for first in [0, 1, 2] {
        for last in [0, 1, 2] {
            samples.extend([0, 13, Word::MAX].map(|word| sample(first, word, last)));
        }
    }
    samples
}

/// Any sample after any other: nothing of the one before is left.
fn two_samples(tally: &mut Tally) {
    let made = every_kind();
    for (s, value) in [(TRUE_TERM, CHOSEN), (FREE_TRUTH_TERM, SUM), (NOT, CHOSEN)] {
        let result = ResultOf {
            s,
            t: LAST_TRUTH_TERM,
            value,
            halted: false,
        };
        for first in some_samples() {
            for second in some_samples() {
                read(tally, &made, &result, &[first, second]);
            }
        }
    }
}

/// Every S, T and value: what they stand on reaches from one term to all of them, and leaves out some between.
fn every_result(tally: &mut Tally) {
    let of = |sorts: fn(Sort) -> bool| TERMS.into_iter().filter(move |&(_, sort)| sorts(sort));
    for (s, _) in of(|sort| sort == Sort::Truth) {
        for (t, _) in of(|sort| sort == Sort::Truth) {
            for (value, _) in of(|sort| sort != Sort::Binding) {
                for halted in [false, true] {
                    let result = ResultOf {
                        s,
                        t,
                        value,
                        halted,
                    };
                    read(tally, &every_kind(), &result, &some_samples());
                }
            }
        }
    }
}

/// Every operator on each two terms that test 3 lets it have, as the value, or as S and T where it is a truth.
fn every_operator(tally: &mut Tally) {
    let samples = [sample(0, 9, 1), sample(1, 9, 0), sample(1, 70, 1)];
    for op in 1..=35 {
        let Some((count, sorts)) = operands_of(op) else {
            continue;
        };
        let operands = || TERMS.into_iter().filter(|(_, sort)| sorts.contains(sort));
        for (a, _) in operands() {
            for (b, _) in operands().filter(|&(b, _)| count == 2 || b == a) {
                let term = record(5, op, a, if count == 2 { b } else { 0 }, 0);
                if !every_kind().holds(term) {
                    over(tally, &every_kind().more(term), op >= 11, &samples);
                }
            }
        }
    }
    // a procedure's bindings are not read
    let other = record(7, 0, 4_095, BINDING, 0);
    over(tally, &every_kind().more(other), false, &samples);
}

/// The last term as the value, and as S and T if it is a truth.
fn over(tally: &mut Tally, made: &Made, truth: bool, samples: &[Sample]) {
    let last = made.session.count - 1;
    let value = ResultOf {
        value: last,
        ..GOOD
    };
    read(tally, made, &value, samples);
    if truth {
        read(tally, made, &ResultOf { s: last, ..GOOD }, samples);
        read(tally, made, &ResultOf { t: last, ..GOOD }, samples);
    }
}

/// The most terms that there can be: a chain through all of them, operators on few words, procedures.
fn full_tables(tally: &mut Tally) {
    let mut samples = [[0; SAMPLE]; 4];
    (samples[1][0], samples[2][0], samples[3][1]) = (1, 2, 77);
    for (session, table) in [ors(), operators(), procedures()] {
        let made = Made { session, table };
        let count = session.count;
        for number in [count / 2, count - 2, count - 1] {
            let value = ResultOf {
                value: number,
                ..GOOD
            };
            read(tally, &made, &value, &samples);
        }
    }
    let (session, table) = ors();
    let made = Made { session, table };
    for (s, t) in [
        (session.count - 1, FALSE_TERM),
        (TRUE_TERM, session.count - 1),
        (session.count - 1, session.count - 2),
    ] {
        read(tally, &made, &ResultOf { s, t, ..GOOD }, &samples);
    }
}
