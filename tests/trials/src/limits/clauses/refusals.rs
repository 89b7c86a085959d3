//! "It refuses by 3, then 14, then by 18 exactly when the text is longer than the lent buffer; its bytes past the text stay as
//! they were." "a refusal leaves what is lent for answers as it was"

use super::told_length;
use crate::bench::{ors, procedures};
use crate::compare::compare_clauses;
use crate::desk;
use crate::limits::every_kind::{every_kind, opened};
use crate::limits::readings::results_of_terms;
use crate::limits::{first, tables_about_three, GOOD, RESULTS_ABOUT_FOURTEEN};
use crate::made::{free_inputs, word_input, Made, FALSE, FREE_WORD};
use crate::tally::Tally;
use second::{Goal, ResultOf, Word};

pub fn all(tally: &mut Tally) {
    buffers(tally);
    full_tables(tally);
    formulas_and_values(tally);
    orders(tally);
}

const GOALS: [Goal; 5] = [
    Goal::Errs,
    Goal::Aborts,
    Goal::Gives(0),
    Goal::Gives(7),
    Goal::Gives(Word::MAX),
];

/// How long the desk says that a text is, where nothing is lent for it.
fn length(tally: &mut Tally, made: &Made, result: &ResultOf, goal: Goal) -> usize {
    let Made { session, table } = made;
    let short = compare_clauses(tally, session, table, result, goal, 0);
    let right = told_length(made, result, goal);
    tally.same(
        "no buffer",
        (short.refusal, short.length),
        (18, right as u64),
    );
    right
}

/// A buffer of each length about the text's. A table with more room, or over other terms, has a text of its own.
fn buffers(tally: &mut Tally) {
    for made in [
        Made::open(&[FALSE; 16], 34),
        Made::open(&[FALSE; 16], 8_192),
        Made::open(&[FREE_WORD; 16], 34),
        Made::open(&[word_input(77); 16], 34),
        Made::open(&free_inputs(), 34),
        opened(),
        every_kind(),
    ] {
        for goal in GOALS {
            for halted in [false, true] {
                let result = ResultOf { halted, ..GOOD };
                about_its_length(tally, &made, &result, goal);
            }
        }
    }
}

fn about_its_length(tally: &mut Tally, made: &Made, result: &ResultOf, goal: Goal) {
    let Made { session, table } = made;
    let right = length(tally, made, result, goal);
    let short = [1, 2, right / 2, right - 2, right - 1];
    for bytes in short
        .into_iter()
        .chain([right, right + 1, right + 2, 2 * right])
    {
        let written = compare_clauses(tally, session, table, result, goal, bytes);
        let expected = if bytes < right { 18 } else { 0 };
        let told = (written.refusal, written.length);
        tally.same("a buffer", told, (expected, right as u64));
        // what is not written stays: of a refused call all of it, else what comes after the last line feed
        let end = if bytes < right { 0 } else { right };
        let stays = written.buffer[end..] == desk::unwritten(bytes)[end..];
        tally.same("bytes past the text", stays, true);
        let ends = end == 0 || written.buffer[end - 1] == b'\n';
        tally.same("a text's last byte", ends, true);
    }
}

/// The most terms that there can be.
fn full_tables(tally: &mut Tally) {
    for (session, table) in [ors(), procedures()] {
        let value = session.count - 1;
        let result = ResultOf { value, ..GOOD };
        let made = Made { session, table };
        let Made { session, table } = &made;
        let right = length(tally, &made, &result, Goal::Gives(9));
        for (bytes, expected) in [(right - 1, 18), (right, 0), (right + 1, 0)] {
            let written = compare_clauses(tally, session, table, &result, Goal::Gives(9), bytes);
            tally.same("a full table's buffer", written.refusal, expected);
        }
    }
}

/// 14 as a reading has it: of each goal, and whatever the buffer holds.
fn formulas_and_values(tally: &mut Tally) {
    let made = every_kind();
    let Made { session, table } = &made;
    for (result, bad_result) in results_of_terms() {
        for goal in [Goal::Errs, Goal::Aborts, Goal::Gives(9)] {
            for bytes in [0, 100_000] {
                let written = compare_clauses(tally, session, table, &result, goal, bytes);
                let short = (bytes == 0).then_some(18);
                let expected = first(&[bad_result, short]);
                tally.same("S, T and a value", written.refusal, expected);
                let told = written.length != desk::UNTOLD;
                tally.same("a length", told, matches!(expected, 0 | 18));
            }
        }
    }
}

/// Every two of the three tests, and all of them.
fn orders(tally: &mut Tally) {
    let tables = tables_about_three();
    let good = &tables[0].0;
    for goal in GOALS {
        let right = length(tally, good, &GOOD, goal);
        for (made, unfit) in &tables {
            for (result, bad_result) in &RESULTS_ABOUT_FOURTEEN {
                for bytes in [0, 1, right - 1, right, right + 1] {
                    let too_short = (bytes < right).then_some(18);
                    let Made { session, table } = made;
                    let written = compare_clauses(tally, session, table, result, goal, bytes);
                    let expected = first(&[*unfit, *bad_result, too_short]);
                    tally.same("the order of 3, 14, 18", written.refusal, expected);
                }
            }
        }
    }
}
