//! "readings that bring about an error, an abort or a named word"

use super::{Asked, Numbers};
use crate::desk;
use crate::limits::every_kind::{
    every_kind, Sort, CHOSEN, FREE_TRUTH_TERM, FREE_WORD_TERM, LAST_TRUTH_TERM, PROCEDURE, TERMS,
};
use crate::limits::GOOD;
use crate::made::Made;
use crate::tally::Tally;
use second::{Goal, ResultOf, Spans, Word};

pub fn all(tally: &mut Tally) {
    formulas(tally);
    values(tally);
}

/// The free word from 7 to 9; the free truths at either end have both numbers.
const LOW: Word = 7;
const HIGH: Word = 9;

const GIVEN: Spans = Spans {
    lows: [LOW; 16],
    highs: [HIGH; 16],
};

/// The readings inside these spans, in their order.
fn readings() -> Vec<Numbers> {
    let mut readings = Vec::new();
    for first in [0, 1] {
        for word in LOW..=HIGH {
            for last in [0, 1] {
                let mut numbers = [0; 16];
                (numbers[0], numbers[1], numbers[15]) = (first, word, last);
                readings.push(numbers);
            }
        }
    }
    readings
}

/// What the desk reads a result as, in bytes.
fn reading(made: &Made, result: &ResultOf, numbers: &Numbers) -> [u8; desk::READING] {
    let mut reading = desk::UNREAD;
    desk::read(
        &desk::session_bytes(&made.session),
        &made.table,
        &desk::numbers_bytes(numbers),
        &desk::result_bytes(result),
        &mut vec![0; usize::from(made.session.count)],
        &mut reading,
    );
    reading
}

/// The first of the desk's own readings that is the goal.
fn expect(tally: &mut Tally, made: &Made, result: ResultOf, goals: &[Goal]) {
    let read: Vec<(Numbers, [u8; desk::READING])> = readings()
        .into_iter()
        .map(|numbers| (numbers, reading(made, &result, &numbers)))
        .collect();
    for &goal in goals {
        let form = desk::goal_bytes(goal);
        let first = read.iter().find(|(_, reading)| *reading == form);
        let asked = Asked {
            made,
            result,
            goal,
            given: Some(&GIVEN),
        };
        asked.expect(tally, "a goal", first.map(|(numbers, _)| *numbers));
    }
}

/// Every S and T, of a result and of a halt.
fn formulas(tally: &mut Tally) {
    let made = every_kind();
    let truths = || TERMS.into_iter().filter(|(_, sort)| *sort == Sort::Truth);
    let goals = [Goal::Errs, Goal::Aborts, Goal::Gives(8), Goal::Gives(1)];
    for (s, _) in truths() {
        for (t, _) in truths() {
            for value in [FREE_WORD_TERM, FREE_TRUTH_TERM, PROCEDURE, CHOSEN] {
                for halted in [false, true] {
                    let result = ResultOf {
                        s,
                        t,
                        value,
                        halted,
                    };
                    expect(tally, &made, result, &goals);
                }
            }
        }
    }
}

/// Every value: a truth is no word 0 or 1, a procedure no word 4, though its reading has that number.
fn values(tally: &mut Tally) {
    let made = every_kind();
    let words = [0, 1, 2, 4, 7, 8, 9, 16, 17, 18, 256 + 8, Word::MAX];
    let goals = words.map(Goal::Gives);
    for (value, _) in TERMS.into_iter().filter(|(_, sort)| *sort != Sort::Binding) {
        for (s, t) in [
            (GOOD.s, GOOD.t),
            (FREE_TRUTH_TERM, LAST_TRUTH_TERM),
            (LAST_TRUTH_TERM, FREE_TRUTH_TERM),
        ] {
            let result = ResultOf {
                s,
                t,
                value,
                halted: false,
            };
            expect(tally, &made, result, &goals);
        }
    }
}
