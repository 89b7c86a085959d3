//! Tests 4 to 7: sizes, places, random rules and damaged ones.

use crate::compare::{compare_rule, compare_run};
use crate::made::FALSE;
use crate::rules::long_rule;
use crate::run_trials::{ALLOWANCES, STORES};
use crate::tally::Tally;
use second::dice::{record, rule, Dice};
use second::{Input, Record, Word};

pub fn all(tally: &mut Tally) {
    rule_sizes(tally);
    scopes(tally);
    random_rules(tally);
    damaged_rules(tally);
}

fn rule_sizes(tally: &mut Tally) {
    for records in [1, 2, 3, 4_095, 4_096, 4_097] {
        let bytes = long_rule(records);
        tally.same("records", bytes.len(), 8 * usize::from(records));
        compare_rule(tally, &bytes);
        for allowance in ALLOWANCES {
            for store in STORES {
                compare_run(tally, &[FALSE; 16], &[0; 16], &bytes, allowance, store);
            }
        }
        let mut longer = bytes.clone();
        longer.push(0);
        compare_rule(tally, &longer);
        compare_rule(tally, &bytes[1..]);
    }
    compare_rule(tally, &[]);
}

/// Each place up to 20 in each field that holds one, at the root, in a let and in a procedure.
fn scopes(tally: &mut Tally) {
    let inputs: [Input; 16] = std::array::from_fn(|i| Input {
        kind: 1,
        value: i as Word,
    });
    for place in (0..=20).chain([4_096, 65_535]) {
        let uses = [
            record(2, 0, place, 0, 0),
            record(4, 0, place, 0, 0),
            record(4, 0, 0, place, 0),
            record(5, 1, place, 0, 0),
            record(5, 1, 0, place, 0),
            record(5, 9, place, 0, 0),
        ];
        for used in uses {
            let rules: [Vec<Record>; 3] = [
                vec![used],
                vec![record(6, 0, 1, 2, 0), record(1, 2, 7, 0, 0), used],
                vec![record(3, 0, 1, 0, 0), used],
            ];
            for records in rules {
                let bytes = rule(&records);
                compare_rule(tally, &bytes);
                compare_run(tally, &inputs, &[0; 16], &bytes, 9, 256);
            }
        }
        let tested = [
            record(7, 0, place, 1, 2),
            record(1, 1, 0, 0, 0),
            record(1, 0, 0, 0, 0),
        ];
        compare_rule(tally, &rule(&tested));
    }
}

fn random_rules(tally: &mut Tally) {
    let mut dice = Dice(0x51e5);
    for _ in 0..80_000 {
        let size = dice.below(20) + 1;
        let mut bytes = dice.rule(size);
        compare_rule(tally, &bytes);
        for _ in 0..3 {
            let at = dice.below(bytes.len() as u64) as usize;
            bytes[at] = dice.pick(&[0, 1, 2, 3, 4, 5, 6, 7, 8, 9, 16, 17, 255]);
            compare_rule(tally, &bytes);
        }
        let stray = dice.bytes();
        compare_rule(tally, &stray);
    }
}

/// Every other value of every byte of small rules.
fn damaged_rules(tally: &mut Tally) {
    let mut dice = Dice(0xda3a);
    for _ in 0..20 {
        let size = dice.below(8) + 2;
        let good = dice.rule(size);
        let shown = good.len().min(160);
        for at in 0..shown {
            let mut bytes = good.clone();
            for other in 0..=255 {
                bytes[at] = other;
                compare_rule(tally, &bytes);
            }
        }
    }
}
