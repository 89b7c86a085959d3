//! The trials, each with seeds of its own.

use crate::compare::compare_open;
use crate::tally::Tally;
use crate::witness_trials;
use crate::{clause_trials, evaluations, form_trials, limits, long_rules, rule_trials};
use crate::{run_trials, sample_trials, session_trials, solver_texts, span_trials, vectors};
use second::dice::Dice;
use second::{Input, Word};

pub fn all() -> Tally {
    let mut tally = Tally::default();
    openings(&mut tally);
    rule_trials::all(&mut tally);
    long_rules::all(&mut tally);
    run_trials::all(&mut tally);
    session_trials::all(&mut tally);
    form_trials::all(&mut tally);
    evaluations::all(&mut tally);
    span_trials::all(&mut tally);
    sample_trials::all(&mut tally);
    clause_trials::all(&mut tally);
    witness_trials::all(&mut tally);
    vectors::all(&mut tally);
    solver_texts::all(&mut tally);
    limits::all(&mut tally);
    for (operation, answers) in ANSWERS {
        for &answer in answers {
            tally.require(operation, answer);
        }
    }
    tally
}

/// Every answer that some trial must have had.
const ANSWERS: [(&str, &[u8]); 13] = [
    ("open", &[0, 1, 2]),
    ("rule", &[0, 4, 5, 6, 7]),
    ("fits", &[0, 3]),
    ("evaluate", &[0, 3, 4, 5, 6, 7, 8, 9, 10, 11, 12]),
    (
        "run",
        &[2, 4, 5, 6, 7, 8, 12, 13, 16, 101, 102, 107, 108, 109],
    ),
    ("read", &[3, 13, 14, 15, 101, 102, 107, 108, 109]),
    ("read_all", &[0, 3, 14, 15]),
    ("sample", &[13, 101, 102, 107, 108, 109]),
    ("spans", &[0, 3, 15, 17]),
    ("clauses", &[0, 3, 14, 18]),
    ("goal", &[0, 1]),
    ("witness", &[0, 3, 14, 15, 17, 19]),
    ("found", &[0, 1]),
];

fn openings(tally: &mut Tally) {
    let mut dice = Dice(0x0be1);
    let sizes = [0, 8, 264, 271, 272, 273, 280, 4_096, 65_528, 65_536, 65_544];
    for bytes in sizes {
        for _ in 0..40 {
            let inputs = dice.any_inputs();
            compare_open(tally, &inputs, bytes);
        }
    }
    for kind in 0..=255 {
        for value in [0, 1, 2, Word::MAX] {
            let mut inputs = dice.inputs();
            let at = dice.below(16) as usize;
            inputs[at] = Input { kind, value };
            compare_open(tally, &inputs, 272);
        }
    }
}
