//! 12, the depth is spent, and which comes first of 10, 11 and 12.

use super::evaluate;
use crate::choices::{halves, procedures};
use crate::compare::compare_run;
use crate::evaluations::Pair;
use crate::made::{free_inputs, Made, FALSE, FREE_TRUTH, FREE_WORD, TRUE};
use crate::needs::{making_terms, needing_depth, DEEPER};
use crate::tally::Tally;
use crate::tree::{abort, bind, call, error, operator, place, procedure, test, truth, word, Tree};
use second::Input;

pub fn all(tally: &mut Tally) {
    every_part(tally);
    bodies_of_targets(tally);
    reported_depths(tally);
    depth_or_full_table(tally);
    depth_or_leaves(tally);
    full_tables(tally);
}

/// "Every expression needs depth 1 or more and gives its parts one less. The body a call runs is such a part."
/// Of the run: "An expression at depth 0: the depth is spent and the run stops." "Parts, a called body too, get one less."
fn every_part(tally: &mut Tally) {
    for deeper in DEEPER {
        for depth in [1, 2, 3, 4, 5, 99, 100, 101, 255, 256, 259] {
            let (needed, tree) = needing_depth(depth, deeper);
            for allowance in needed.saturating_sub(2)..=needed + 1 {
                // of a constant test one branch alone is gone into
                for input in [TRUE, FALSE] {
                    tried(tally, &[input; 16], &tree, allowance);
                }
                let refusal = tried(tally, &[FREE_TRUTH; 16], &tree, allowance);
                let expected = match allowance {
                    0 | 257.. => 8,
                    few if few < needed => 12,
                    _ => 0,
                };
                tally.same("a depth", refusal, expected);
            }
        }
    }
}

/// An evaluation, whose refusal or 0 it gives back, and runs.
fn tried(tally: &mut Tally, inputs: &[Input; 16], tree: &Tree, allowance: u16) -> u8 {
    let rule = tree.rule();
    for number in [0, 1] {
        compare_run(tally, inputs, &[number; 16], &rule, allowance, 65_536);
    }
    evaluate(tally, &Made::open(inputs, 4_096), &rule, allowance)
}

/// A choice of procedures of which each needs another depth, under the call of it.
fn bodies_of_targets(tally: &mut Tally) {
    let bodies = [(1, 3), (3, 1), (1, 1), (2, 3), (3, 2)];
    for (first, second) in bodies {
        let body = |depth| needing_depth(depth, DEEPER[1]).1;
        let chosen = test(0, procedure(body(first)), procedure(body(second)));
        let tree = bind(chosen, call(0, 1));
        for allowance in 1..=7 {
            tried(tally, &[FREE_TRUTH; 16], &tree, allowance);
        }
    }
}

/// "An accepted rule reports a depth, at most the allowance, with which the same result is given."
fn reported_depths(tally: &mut Tally) {
    let deep = || needing_depth(5, DEEPER[0]).1;
    for tree in [
        truth(true),
        error(),
        bind(error(), deep()),
        bind(deep(), abort()),
        bind(abort(), deep()),
        test(0, deep(), error()),
        test(0, error(), deep()),
        test(1, deep(), truth(true)),
        test(1, truth(true), deep()),
        bind(word(3), call(0, 1)),
        bind(procedure(deep()), place(0)),
        bind(procedure(deep()), call(0, 1)),
    ] {
        for allowance in [1, 2, 3, 5, 6, 7, 8, 100, 256] {
            let mut inputs = [FALSE; 16];
            inputs[0] = FREE_TRUTH;
            evaluate(tally, &Made::open(&inputs, 100), &tree.rule(), allowance);
        }
    }
}

/// Rules whose steps make terms before, between and after they go deeper.
fn steps() -> Vec<Tree> {
    let either = |p, q| test(0, p, q);
    let two = || either(procedure(word(6)), procedure(place(0)));
    vec![
        bind(word(5), word(6)),
        bind(word(5), bind(word(6), place(0))),
        either(word(5), word(6)),
        either(either(word(5), word(6)), word(7)),
        either(abort(), word(7)),
        either(word(7), error()),
        bind(either(word(5), truth(true)), operator(1, 0, 0)),
        bind(either(word(5), truth(true)), test(0, word(7), word(8))),
        bind(procedure(word(6)), call(0, 1)),
        bind(procedure(bind(word(5), word(6))), call(0, 1)),
        bind(two(), call(0, 1)),
        bind(two(), bind(call(0, 1), call(1, 0))),
        bind(either(procedure(word(6)), word(7)), call(0, 1)),
        bind(
            either(word(7), either(word(8), procedure(word(6)))),
            call(0, 1),
        ),
    ]
}

/// "Then whichever comes first: [..] 11, a new term with the table full; 12, depth zero." At every allowance that is too
/// small, in every table that is too small.
fn depth_or_full_table(tally: &mut Tally) {
    for tree in steps() {
        let rule = tree.rule();
        for allowance in 1.. {
            let mut refusal = 11;
            let mut records = 34;
            while refusal == 11 {
                let made = Made::open(&free_inputs(), records);
                refusal = evaluate(tally, &made, &rule, allowance);
                records += 1;
            }
            if refusal == 0 {
                break;
            }
            tally.same("too little depth", refusal, 12);
        }
    }
}

/// "whichever comes first: 10 [..] 12, depth zero": a call is walked before a body runs.
fn depth_or_leaves(tally: &mut Tally) {
    for (leaves, spent, enough) in [(64, 12, 0), (65, 10, 10)] {
        let chosen = halves(&procedures(leaves));
        // ten lets over the call, so that it is deeper than the choice
        let called = (0..10).fold(call(10, 0), |tree, _| bind(truth(true), tree));
        let rule = bind(truth(true), bind(chosen, called)).rule();
        for (allowance, expected) in [(12, 12), (13, spent), (14, enough)] {
            let made = Made::open(&[FREE_TRUTH; 16], 8_192);
            let refusal = evaluate(tally, &made, &rule, allowance);
            tally.same("depth or leaves", refusal, expected);
        }
    }
}

/// "11, a new term with the table full": at the most terms that there can be, and in smaller tables.
fn full_tables(tally: &mut Tally) {
    let mut inputs = [FALSE; 16];
    inputs[0] = FREE_WORD;
    for records in [34, 35, 100, 8_191, 8_192] {
        let made = Made::open(&inputs, records);
        let room = records - usize::from(made.session.count);
        for (terms, expected) in [(room - 1, 0), (room, 0), (room + 1, 11)] {
            let rule = making_terms(terms).rule();
            let mut pair = Pair::of(made.session, made.table.clone());
            let refusal = pair.refusal(tally, &rule, 256);
            tally.same("a full table", refusal, expected);
            // a full table still takes what makes no term
            for tree in [truth(true), word(7), place(0), bind(word(7), place(0))] {
                pair.refusal(tally, &tree.rule(), 256);
            }
        }
    }
}
