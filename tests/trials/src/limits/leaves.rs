//! The walk of a call: 10, a 65th leaf, and 11, a table that is full before.

use super::evaluate;
use crate::choices::{called, called_asserted, chain, halves, procedures};
use crate::made::{Made, FREE_TRUTH};
use crate::tally::Tally;
use crate::tree::{bind, call, operator, place, truth, word};

pub fn all(tally: &mut Tally) {
    procedures_alone(tally);
    other_leaves(tally);
    two_calls(tally);
    guards_before_leaves(tally);
}

const MOST: usize = 8_192;

fn evaluated(tally: &mut Tally, rule: &[u8], records: usize) -> u8 {
    evaluate(tally, &Made::open(&[FREE_TRUTH; 16], records), rule, 256)
}

/// "10, a 65th leaf in one call's walk"
fn procedures_alone(tally: &mut Tally) {
    for (count, expected) in [(1, 0), (63, 0), (64, 0), (65, 10), (66, 10), (100, 10)] {
        let leaves = procedures(count);
        let refusal = evaluated(tally, &called(halves(&leaves)), MOST);
        tally.same("halves", refusal, expected);
        let refusal = evaluated(tally, &called(chain(leaves)), MOST);
        tally.same("a chain", refusal, expected);
    }
}

/// "any other term met that is no choice is a leaf. Procedure leaves are the targets"
fn other_leaves(tally: &mut Tally) {
    for other in [word(7), truth(true), place(1), operator(13, 1, 0)] {
        for at in [0, 31, 62, 63, 64] {
            for (count, expected) in [(64, 0), (65, 10)] {
                let mut leaves = procedures(count);
                let at = at.min(leaves.len() - 1);
                leaves[at] = other.clone();
                let refusal = evaluated(tally, &called(chain(leaves)), MOST);
                tally.same("a leaf that is no procedure", refusal, expected);
            }
        }
    }
    for (count, expected) in [(64, 0), (65, 10)] {
        let words = (0..count).map(word).collect();
        let refusal = evaluated(tally, &called(chain(words)), MOST);
        tally.same("words alone", refusal, expected);
    }
}

/// "in one call's walk": another call begins again
fn two_calls(tally: &mut Tally) {
    let chosen = halves(&procedures(64));
    let twice = bind(call(0, 1), call(1, 0));
    let rule = bind(truth(true), bind(chosen, twice)).rule();
    let refusal = evaluated(tally, &rule, MOST);
    tally.same("two calls of 64 leaves", refusal, 0);
}

/// "each made as that side is entered": the guard of the 65th leaf is made before that leaf is met, so that a full table
/// there is 11. "Then whichever comes first". The 65th leaf is on a right side where it is the last, else on a left one.
fn guards_before_leaves(tally: &mut Tally) {
    for (count, in_chain, in_halves) in [(65, 879, 736), (66, 890, 743)] {
        let leaves = procedures(count);
        fills(tally, &called_asserted(halves(&leaves)), in_halves);
        fills(tally, &called_asserted(chain(leaves)), in_chain);
    }
}

/// A rule that is refused by 10 in a table of so many records, and by 11 in smaller ones.
fn fills(tally: &mut Tally, rule: &[u8], enough: usize) {
    for records in enough - 20..=enough + 2 {
        let refusal = evaluated(tally, rule, records);
        let expected = if records < enough { 11 } else { 10 };
        tally.same("a full table in the walk", refusal, expected);
    }
}
