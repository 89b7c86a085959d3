//! "The goal is one of: some reading errs, some aborts, or some gives a named word."

use super::gates::{fixed, Clause};
use super::{clauses, taken_apart};
use crate::limits::every_kind::{
    every_kind, Sort, CHOSEN, FALSE_TERM, FREE_TRUTH_TERM, FREE_WORD_TERM, LAST_TRUTH_TERM, SUM,
    TERMS, TRUE_TERM,
};
use crate::limits::operators::WORDS;
use crate::limits::GOOD;
use crate::made::{free_inputs, Made};
use crate::tally::Tally;
use second::cnf::{input_literals, wire, Cnf};
use second::{read, records, Goal, Outcome, Record, ResultOf, Word};

pub fn all(tally: &mut Tally) {
    of_results_and_halts(tally);
    words(tally);
    reached(tally);
}

/// The truth of a term.
fn lowest(number: u16) -> i64 {
    wire(usize::from(number), 2)
}

/// "-T2", of a halt "S2 -T2"; "-S2 · T2"; "S2 · T2 · those of the word constant w, over the wires of the value", of a halt "the
/// empty clause"
fn wanted(result: &ResultOf, goal: Goal) -> Vec<Clause> {
    let (s, t) = (lowest(result.s), lowest(result.t));
    match (goal, result.halted) {
        (Goal::Errs, false) => vec![vec![-t]],
        (Goal::Errs, true) => vec![vec![s, -t]],
        (Goal::Aborts, _) => vec![vec![-s], vec![t]],
        (Goal::Gives(_), true) => vec![vec![]],
        (Goal::Gives(word), false) => {
            let value = usize::from(result.value);
            let bits = (0..Word::BITS as usize).map(|bit| (2 + bit, word >> bit & 1 == 1));
            let wires = [(0, true), (1, false)].into_iter().chain(bits);
            let wires = wires.map(|(i, holds)| (wire(value, i), holds));
            [vec![vec![s], vec![t]], fixed(wires)].concat()
        }
    }
}

/// The clauses of a goal, behind those of the terms; no goal has helpers.
fn expect(tally: &mut Tally, made: &Made, terms: Option<&Cnf>, result: &ResultOf, goal: Goal) {
    let cnf = taken_apart(tally, made, result, goal);
    let (Some(terms), Some(cnf)) = (terms, cnf) else {
        return;
    };
    let told = cnf.clauses.strip_prefix(&terms.clauses[..]);
    let wanted = wanted(result, goal);
    tally.same("a goal's clauses", told, Some(&wanted[..]));
    tally.same("variables", cnf.variables, terms.variables);
}

/// Every S, T and value, of a result and of a halt, whose value is not looked at.
fn of_results_and_halts(tally: &mut Tally) {
    let made = every_kind();
    let terms = clauses(tally, &made);
    let of = |sorts: fn(Sort) -> bool| TERMS.into_iter().filter(move |&(_, sort)| sorts(sort));
    for (s, _) in of(|sort| sort == Sort::Truth) {
        for (t, _) in of(|sort| sort == Sort::Truth) {
            for (value, halted) in [
                (FREE_WORD_TERM, false),
                (FREE_TRUTH_TERM, false),
                (0, true),
                (65_535, true),
            ] {
                let result = ResultOf {
                    s,
                    t,
                    value,
                    halted,
                };
                for goal in [Goal::Errs, Goal::Aborts, Goal::Gives(9)] {
                    expect(tally, &made, terms.as_ref(), &result, goal);
                }
            }
        }
    }
    for (value, _) in of(|sort| sort != Sort::Binding) {
        let result = ResultOf { value, ..GOOD };
        expect(tally, &made, terms.as_ref(), &result, Goal::Gives(0x5a5a));
    }
}

/// Each bit of the named word, and the words at the limits.
fn words(tally: &mut Tally) {
    let made = every_kind();
    let terms = clauses(tally, &made);
    let bits = (0..Word::BITS).map(|bit| 1 << bit);
    for word in WORDS.into_iter().chain(bits) {
        for value in [FREE_WORD_TERM, SUM, CHOSEN, FALSE_TERM] {
            let result = ResultOf { value, ..GOOD };
            expect(tally, &made, terms.as_ref(), &result, Goal::Gives(word));
        }
    }
}

/// "The text can be satisfied exactly when such a reading exists": with a reading's input variables given, a clause is left
/// without a literal exactly where the reading does not reach the goal.
fn reached(tally: &mut Tally) {
    let (s, t) = (FREE_TRUTH_TERM, LAST_TRUTH_TERM);
    let halt = ResultOf {
        s,
        t,
        value: 0,
        halted: true,
    };
    let out = |value| ResultOf {
        value,
        halted: false,
        ..halt
    };
    for result in [halt, out(FREE_WORD_TERM), out(SUM), out(CHOSEN), out(s)] {
        each_reading(tally, &every_kind(), &result);
    }
    let constants = [TRUE_TERM, FALSE_TERM];
    for (s, t) in constants
        .into_iter()
        .flat_map(|s| constants.map(|t| (s, t)))
    {
        for value in [3, 2] {
            let result = ResultOf {
                s,
                t,
                value,
                halted: false,
            };
            each_reading(tally, &Made::open(&free_inputs(), 34), &result);
        }
    }
}

fn each_reading(tally: &mut Tally, made: &Made, result: &ResultOf) {
    let Made { session, table } = made;
    let count = usize::from(session.count);
    let terms: Vec<Record> = records(table).take(count).collect();
    for goal in [
        Goal::Errs,
        Goal::Aborts,
        Goal::Gives(0),
        Goal::Gives(8),
        Goal::Gives(17),
    ] {
        let Some(cnf) = taken_apart(tally, made, result, goal) else {
            continue;
        };
        for (first, last) in [(0, 0), (0, 1), (1, 0), (1, 1)] {
            for word in [0, 8, 17] {
                let mut numbers = [0; 16];
                (numbers[0], numbers[1], numbers[15]) = (first, word, last);
                let outcome = read(session, table, &numbers, result, count);
                let reaches = match goal {
                    Goal::Errs => outcome == Outcome::Error,
                    Goal::Aborts => outcome == Outcome::Abort,
                    Goal::Gives(word) => outcome == Outcome::Word(word),
                };
                let stands = cnf.follow(&input_literals(&terms, &numbers)).is_some();
                tally.same("a goal that is reached", stands, reaches);
            }
        }
    }
}
