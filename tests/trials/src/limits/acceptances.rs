//! The tests 8 and 9, and the halted session.

use super::evaluate;
use crate::compare::compare_run;
use crate::evaluations::Pair;
use crate::made::{free_inputs, Made, FALSE};
use crate::tally::Tally;
use crate::tree::{error, truth, word};

pub fn all(tally: &mut Tally) {
    allowances(tally);
    accepted_counts(tally);
    halted_sessions(tally);
    false_formulas(tally);
}

/// "8: allowance outside 1 to 256."
fn allowances(tally: &mut Tally) {
    let (made, rule) = (Made::open(&[FALSE; 16], 34), truth(true).rule());
    for allowance in [0, 1, 2, 255, 256, 257, 512, 65_535] {
        let expected = if (1..=256).contains(&allowance) { 0 } else { 8 };
        let refusal = evaluate(tally, &made, &rule, allowance);
        tally.same("an evaluation's allowance", refusal, expected);
        let refusal = compare_run(tally, &[FALSE; 16], &[0; 16], &rule, allowance, 128);
        tally.same("a run's allowance", refusal, expected);
    }
}

/// "9: 1,000 rules already accepted."
fn accepted_counts(tally: &mut Tally) {
    for (accepted, expected) in [(0, 0), (998, 0), (999, 0), (1_000, 9), (1_001, 3)] {
        for halted in [false, true] {
            let made = Made::open(&[FALSE; 16], 34).but(|session| {
                session.accepted = accepted;
                session.halted = halted;
            });
            let refusal = evaluate(tally, &made, &truth(true).rule(), 1);
            tally.same("an accepted count", refusal, expected);
        }
    }
    // 998 and two more are 1,000
    let made = Made::open(&[FALSE; 16], 34).but(|session| session.accepted = 998);
    let mut pair = Pair::of(made.session, made.table);
    for expected in [0, 0, 9, 9] {
        let refusal = pair.refusal(tally, &error().rule(), 1);
        tally.same("rules after 998", refusal, expected);
    }
}

/// "A halted session then answers the same halt, and the rule counts as accepted."
fn halted_sessions(tally: &mut Tally) {
    for (s, t) in [(0, 1), (1, 0), (1, 1), (2, 1), (1, 2), (0, 0)] {
        let made = Made::open(&free_inputs(), 34).but(|session| {
            session.s = s;
            session.t = t;
            session.halted = true;
        });
        let mut pair = Pair::of(made.session, made.table);
        // a word would be one term too many
        for allowance in [1, 2, 256] {
            let refusal = pair.refusal(tally, &word(5).rule(), allowance);
            tally.same("a halted session", refusal, 0);
        }
    }
}

/// "A state with false on either side halts.", also where the session is not marked
fn false_formulas(tally: &mut Tally) {
    for (s, t) in [(0, 1), (1, 0), (0, 0), (0, 2), (2, 0)] {
        let made = Made::open(&free_inputs(), 34).but(|session| {
            session.s = s;
            session.t = t;
        });
        for rule in [truth(true), word(5), error()] {
            let refusal = evaluate(tally, &made, &rule.rule(), 1);
            tally.same("a state with false", refusal, 0);
        }
    }
}
