//! Which texts are kept of many: short ones, so that every operator is in one that can be satisfied and in one that cannot, and
//! under every goal as far as they go.

use crate::trial::Trial;
use second::Goal;
use std::collections::BTreeSet;

/// At most so many, in the order in which they were made.
pub fn keep(trials: Vec<Trial>, count: usize) -> Vec<Trial> {
    let mut shortest: Vec<usize> = (0..trials.len()).collect();
    shortest.sort_by_key(|&at| trials[at].text.len());
    let mut kept = BTreeSet::new();
    add(&mut kept, count, &trials, &shortest, |trial, part| {
        (trial.reached, false, 0, part)
    });
    while kept.len() < count.min(trials.len()) {
        add(&mut kept, count, &trials, &shortest, |trial, part| {
            (trial.reached, trial.halted, goal(trial), part)
        });
    }
    let numbered = trials.into_iter().enumerate();
    numbered
        .filter(|(at, _)| kept.contains(at))
        .map(|(_, trial)| trial)
        .collect()
}

/// Adds the shortest that have something which no other that is added here has, up to a count in all.
fn add<T: Ord>(
    kept: &mut BTreeSet<usize>,
    count: usize,
    trials: &[Trial],
    shortest: &[usize],
    of_part: impl Fn(&Trial, u8) -> T,
) {
    let mut had = BTreeSet::new();
    for &at in shortest {
        let trial = &trials[at];
        let has = || trial.parts.iter().map(|&part| of_part(trial, part));
        let new = has().any(|one| !had.contains(&one));
        if new && kept.len() < count && kept.insert(at) {
            had.extend(has());
        }
    }
}

fn goal(trial: &Trial) -> u8 {
    match trial.goal {
        Goal::Errs => 1,
        Goal::Aborts => 2,
        Goal::Gives(_) => 3,
    }
}
