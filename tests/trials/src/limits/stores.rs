//! The plain run's store: 16, and which comes first of 16 and 12.

use crate::compare::compare_run;
use crate::made::FREE_WORD;
use crate::needs::taking_places;
use crate::tally::Tally;
use crate::tree::{abort, bind, call, error, operator, place, procedure, test, truth, word, Tree};

pub fn all(tally: &mut Tally) {
    most_places(tally);
    small_stores(tally);
    takers(tally);
    whichever_first(tally);
}

/// Runs on free words that are all 5.
fn run(tally: &mut Tally, rule: &Tree, allowance: u16, store: usize) -> u8 {
    let (inputs, numbers) = ([FREE_WORD; 16], [5; 16]);
    compare_run(tally, &inputs, &numbers, &rule.rule(), allowance, store)
}

/// "The store has a place for each whole 8 bytes, at most 8,192."
fn most_places(tally: &mut Tally) {
    for needed in [8_190, 8_191, 8_192, 8_193, 8_194, 8_700, 8_750] {
        let rule = taking_places(needed);
        for store in [65_528, 65_535, 65_536, 65_544, 70_000, 140_000] {
            let places = (store / 8).min(8_192);
            let refusal = run(tally, &rule, 256, store);
            let expected = if needed <= places { 0 } else { 16 };
            tally.same("a run's places", refusal, expected);
        }
    }
}

/// "The inputs take 16 places first, then each let and each call of a procedure takes one as it binds"
fn small_stores(tally: &mut Tally) {
    for needed in [16, 17, 18, 19, 25, 31, 60] {
        let rule = taking_places(needed);
        for bytes in 0..=8 * needed + 16 {
            let refusal = run(tally, &rule, 256, bytes);
            let expected = if needed <= bytes / 8 { 0 } else { 16 };
            tally.same("a small store", refusal, expected);
        }
    }
}

/// What takes places, and what takes none: so many are needed beside the inputs'.
fn takers(tally: &mut Tally) {
    let identity = || procedure(place(0));
    for (rule, needed) in [
        (truth(true), 0),
        (word(7), 0),
        (place(0), 0),
        (identity(), 0),
        (operator(1, 0, 1), 0),
        (test(0, truth(true), truth(false)), 0),
        (abort(), 0),
        (error(), 0),
        // of no procedure: an error, without a place
        (call(0, 0), 0),
        (bind(truth(true), call(0, 0)), 1),
        (bind(truth(true), place(0)), 1),
        (bind(identity(), call(0, 0)), 2),
        (bind(identity(), bind(call(0, 0), call(0, 0))), 4),
        // a let that stops in its first part takes none
        (bind(abort(), place(0)), 0),
        (bind(error(), place(0)), 0),
        (bind(bind(truth(true), abort()), place(0)), 1),
    ] {
        for places in 15..=21 {
            let refusal = run(tally, &rule, 256, 8 * places);
            let expected = if 16 + needed <= places { 0 } else { 16 };
            tally.same("what takes places", refusal, expected);
        }
    }
}

/// "then whichever first: 16, its store is full; 12": a call takes its place before the depth of the body is tested, and a
/// let takes it once the first part has a value.
fn whichever_first(tally: &mut Tally) {
    let identity = || procedure(place(0));
    let called = bind(identity(), call(0, 0));
    let one = || bind(truth(true), truth(true));
    let in_first = bind(one(), truth(true));
    let in_second = bind(truth(true), one());
    for (rule, allowance, places, expected) in [
        (&called, 2, 17, 16),
        (&called, 2, 18, 12),
        (&called, 3, 17, 16),
        (&called, 3, 18, 0),
        (&one(), 1, 16, 12),
        (&one(), 2, 16, 16),
        (&one(), 2, 17, 0),
        (&in_first, 2, 16, 12),
        (&in_first, 2, 17, 12),
        (&in_second, 2, 16, 16),
        (&in_second, 2, 17, 12),
        (&in_second, 3, 17, 16),
    ] {
        let refusal = run(tally, rule, allowance, 8 * places);
        tally.same("16 or 12", refusal, expected);
    }
    let calls = bind(identity(), bind(call(0, 0), bind(call(1, 0), call(2, 0))));
    for allowance in 1..=6 {
        for places in 15..=23 {
            run(tally, &calls, allowance, 8 * places);
        }
    }
}
