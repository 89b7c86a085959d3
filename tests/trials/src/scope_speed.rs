//! The times of the tests 4 to 7 on rules of up to the most records, beside the second evaluator's, as rows of a table. The
//! time for each record shows whether it grows with their number, and whether a rule pays for room that it does not need.

use crate::compare::second_rule_refusal;
use crate::desk;
use crate::laid::{Laid, Order};
use crate::rules::long_rule;
use crate::shapes::random;
use crate::speed::least_times;
use second::dice::Dice;
use std::hint::black_box;

const SIZES: [u16; 11] = [50, 57, 64, 65, 128, 256, 512, 513, 1_024, 2_048, 4_096];
/// About how many records are tested in a turn: the same of short rules as of long ones.
const RECORDS: u16 = 40_960;

pub fn run() {
    println!("| rules | records | desk, ms | for a record, ns | second evaluator, ms | ratio |");
    println!("|---|---|---|---|---|---|");
    for records in SIZES {
        time("chains of lets", records, || long_rule(records));
    }
    let mut dice = Dice(0x5c0e);
    for records in SIZES {
        time("random trees", records, || scattered(&mut dice, records));
    }
}

/// A random tree, each record's first child right after it, with any places in scope.
fn scattered(dice: &mut Dice, records: u16) -> Vec<u8> {
    let tree = random(dice, records);
    let laid = Laid::new(&tree, Order::FirstChild);
    let placed = laid.placed(|bindings| dice.below(u64::from(bindings) + 16) as u16);
    placed.rule()
}

/// The time for one rule, in the mean of many.
fn time(what: &str, records: u16, rule: impl FnMut() -> Vec<u8>) {
    let count = usize::from(RECORDS / records);
    let rules: Vec<Vec<u8>> = std::iter::repeat_with(rule).take(count).collect();
    let all = |refusal: fn(&[u8]) -> u8| {
        for bytes in &rules {
            assert_eq!(refusal(black_box(bytes)), 0);
        }
    };
    let mut ours = |_: &mut ()| all(desk::rule_refusal);
    let mut theirs = |_: &mut ()| all(second_rule_refusal);
    let [ours, theirs] = least_times(count, &(), [&mut ours, &mut theirs]);
    let each = ours * 1e6 / f64::from(records);
    let ratio = ours / theirs;
    println!("| {what} | {records} | {ours:.5} | {each:.2} | {theirs:.5} | {ratio:.2} |");
}
