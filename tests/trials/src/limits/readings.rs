//! Reading: the tests 13, 14 and 15, and what is read.

use super::every_kind::{
    every_kind, filled, Sort, CHOICE, CHOSEN, FALSE_TERM, FREE_TRUTH_TERM, FREE_WORD_TERM, LAST,
    LAST_TRUTH_TERM, NINE, PROCEDURE, TERMS, TRUE_TERM,
};
use super::GOOD;
use crate::compare::{compare_read, compare_run};
use crate::made::{Made, FREE_TRUTH};
use crate::tally::Tally;
use crate::tree::place;
use second::dice::record;
use second::{ResultOf, Word};

pub fn all(tally: &mut Tally) {
    numbers(tally);
    formulas(tally);
    values(tally);
    work_lists(tally);
    outcomes(tally);
    wrong_operands(tally);
}

/// With a work list that is long enough.
fn read(tally: &mut Tally, made: &Made, numbers: &[Word; 16], result: &ResultOf) -> u8 {
    let work = usize::from(made.session.count);
    compare_read(tally, &made.session, &made.table, numbers, result, work)
}

/// "13: a free truth given a number over 1.", "(constants ignore theirs)"
fn numbers(tally: &mut Tally) {
    let made = every_kind();
    for at in 0..16 {
        for number in [0, 1, 2, 3, Word::MAX] {
            let mut numbers = [0; 16];
            numbers[at] = number;
            for value in [FREE_TRUTH_TERM, FREE_WORD_TERM, NINE, LAST_TRUTH_TERM] {
                let refusal = read(tally, &made, &numbers, &ResultOf { value, ..GOOD });
                let over = made.session.inputs[at] == FREE_TRUTH && number > 1;
                tally.same("a number", refusal, if over { 13 } else { 0 });
            }
            // a run tests them too
            let (inputs, rule) = (&made.session.inputs, place(at as u16).rule());
            let refusal = compare_run(tally, inputs, &numbers, &rule, 1, 128);
            let over = inputs[at] == FREE_TRUTH && number > 1;
            tally.same("a run's number", refusal, if over { 13 } else { 0 });
        }
    }
}

/// The terms, and numbers at and past the count, which no test of a result takes, as bindings.
fn numbers_of_terms() -> impl Iterator<Item = (u16, Sort)> {
    let past = [LAST + 1, LAST + 2, 39, 40, 65_535];
    let past = past.map(|number| (number, Sort::Binding));
    TERMS.into_iter().chain(past)
}

/// Each of these as S, as T and as the value over `every_kind`, of a result that is out and of a halt, and whether 14 takes it.
pub fn results_of_terms() -> Vec<(ResultOf, Option<u8>)> {
    let mut results = Vec::new();
    for (number, sort) in numbers_of_terms() {
        let no_truth = (sort != Sort::Truth).then_some(14);
        let no_value = (sort == Sort::Binding).then_some(14);
        for halted in [false, true] {
            let [mut assumed, mut asserted, mut given] = [ResultOf { halted, ..GOOD }; 3];
            (assumed.s, asserted.t, given.value) = (number, number, number);
            // a halt's value is not looked at
            let no_value = no_value.filter(|_| !halted);
            results.extend([(assumed, no_truth), (asserted, no_truth), (given, no_value)]);
        }
    }
    results
}

/// "14: the result's S or T is no truth below the count", also of a halt
fn formulas(tally: &mut Tally) {
    let made = every_kind();
    for (number, sort) in numbers_of_terms() {
        let expected = if sort == Sort::Truth { 0 } else { 14 };
        for halted in [false, true] {
            let good = ResultOf { halted, ..GOOD };
            let assumed = ResultOf { s: number, ..good };
            let refusal = read(tally, &made, &[1; 16], &assumed);
            tally.same("S", refusal, expected);
            let asserted = ResultOf { t: number, ..good };
            let refusal = read(tally, &made, &[1; 16], &asserted);
            tally.same("T", refusal, expected);
        }
    }
}

/// "or its value is a binding or not below the count": of a halt, which has none, it is not looked at.
fn values(tally: &mut Tally) {
    let made = every_kind();
    for (value, sort) in numbers_of_terms() {
        let expected = if sort == Sort::Binding { 14 } else { 0 };
        for number in [0, 1] {
            let out = ResultOf { value, ..GOOD };
            let refusal = read(tally, &made, &[number; 16], &out);
            tally.same("a value", refusal, expected);
            let halted = true;
            let halt = ResultOf { halted, ..out };
            let refusal = read(tally, &made, &[number; 16], &halt);
            tally.same("a halt's value", refusal, 0);
        }
    }
}

/// "15: work list shorter than the count.", also at the most terms that there can be
fn work_lists(tally: &mut Tally) {
    for made in [every_kind(), filled(8_192)] {
        let Made { session, table } = &made;
        let count = usize::from(session.count);
        for work in [0, 1, count - 1, count, count + 1, 10_000] {
            let value = session.count - 1;
            let result = ResultOf { value, ..GOOD };
            let refusal = compare_read(tally, session, table, &[1; 16], &result, work);
            let expected = if work < count { 15 } else { 0 };
            tally.same("a work list", refusal, expected);
        }
    }
}

/// "both formulas true, the value; only S false, abort; otherwise error. For a halt: abort if only S is false, else error."
fn outcomes(tally: &mut Tally) {
    let truths = [FALSE_TERM, TRUE_TERM, FREE_TRUTH_TERM, LAST_TRUTH_TERM];
    for (first, last) in [(0, 0), (0, 1), (1, 0), (1, 1)] {
        let mut numbers = [8; 16];
        (numbers[0], numbers[15]) = (first, last);
        for s in truths {
            for t in truths {
                for halted in [false, true] {
                    let value = CHOSEN;
                    let result = ResultOf {
                        s,
                        t,
                        value,
                        halted,
                    };
                    read(tally, &every_kind(), &numbers, &result);
                }
            }
        }
    }
}

/// "An operator term with an operand of the wrong kind reads as word 0 or false."
fn wrong_operands(tally: &mut Tally) {
    let operands = [
        TRUE_TERM,
        FREE_TRUTH_TERM,
        FREE_WORD_TERM,
        NINE,
        CHOICE,
        CHOSEN,
        PROCEDURE,
    ];
    let result = ResultOf {
        value: LAST + 1,
        ..GOOD
    };
    for op in 1..=12 {
        for a in operands {
            for b in operands {
                let b = if matches!(op, 9 | 10) { 0 } else { b };
                let term = record(5, op, a, b, 0);
                if every_kind().holds(term) {
                    continue;
                }
                for number in [0, 1] {
                    let made = every_kind().more(term);
                    let refusal = read(tally, &made, &[number; 16], &result);
                    tally.same("an operator's reading", refusal, 0);
                }
            }
        }
    }
}
