//! Faulty second evaluators: for each fault in `tests/second/faults` the trials of its group must tell a difference between
//! the desk and a second evaluator with that fault. One build holds them all, and an environment variable says which one
//! a run has.

mod copy;
mod edits;

use crate::limits;
use copy::FaultyTrials;
use edits::Fault;
use std::sync::Mutex;

/// Fails where a fault is not noticed, or the copy differs without one.
pub fn run() {
    let faults: Vec<Fault> = limits::groups().flat_map(edits::of_group).collect();
    let trials = FaultyTrials::build(&faults);
    for group in limits::groups() {
        assert_eq!(trials.notice(group, 0), Ok(false), "{group}: no fault");
    }
    let queue = Mutex::new((1..).zip(&faults));
    let unnoticed = Mutex::new(0);
    let workers = std::thread::available_parallelism().map_or(1, usize::from);
    let work = || loop {
        let next = queue.lock().expect("a queue").next();
        let Some((number, Fault { group, name, .. })) = next else {
            break;
        };
        match trials.notice(group, number) {
            Ok(true) => println!("{group}, {name}: noticed"),
            other => {
                println!("{group}, {name}: not noticed: {other:?}");
                *unnoticed.lock().expect("a count") += 1;
            }
        }
    };
    std::thread::scope(|scope| {
        for _ in 0..workers {
            scope.spawn(work);
        }
    });
    let unnoticed = unnoticed.into_inner().expect("a count");
    println!("faults: {} faults, {unnoticed} not noticed", faults.len());
    if unnoticed != 0 {
        std::process::exit(1);
    }
}
