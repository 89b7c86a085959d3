//! Plain runs, in stores and with allowances of many sizes.

use crate::compare::compare_run;
use crate::made::FALSE;
use crate::rules::self_application;
use crate::tally::Tally;
use second::dice::Dice;

pub const STORES: [usize; 9] = [0, 127, 128, 135, 136, 160, 400, 65_536, 70_001];
pub const ALLOWANCES: [u16; 8] = [0, 1, 2, 5, 24, 100, 256, 257];

pub fn all(tally: &mut Tally) {
    random_runs(tally);
    looping(tally);
}

fn random_runs(tally: &mut Tally) {
    let mut dice = Dice(0x4a5);
    for turn in 0..60_000 {
        let inputs = if turn % 8 == 0 {
            dice.any_inputs()
        } else {
            dice.inputs()
        };
        let numbers = dice.any_numbers(&inputs);
        let size = dice.below(24) + 1;
        let mut bytes = dice.rule(size);
        if dice.below(8) == 0 {
            let at = dice.below(bytes.len() as u64) as usize;
            bytes[at] = dice.below(20) as u8;
        }
        let allowance = dice.pick(&ALLOWANCES);
        let store = match dice.below(4) {
            0 => 128 + 8 * dice.below(30) as usize,
            1 => dice.pick(&STORES),
            _ => 4_096,
        };
        compare_run(tally, &inputs, &numbers, &bytes, allowance, store);
    }
}

/// "Apply my argument to itself", applied to itself: the depth is spent, or the store is full first.
fn looping(tally: &mut Tally) {
    let bytes = self_application();
    for allowance in 0..=258 {
        for store in [127, 128, 136, 144, 800, 2_144, 2_160, 2_168, 2_176, 65_536] {
            compare_run(tally, &[FALSE; 16], &[0; 16], &bytes, allowance, store);
        }
    }
}
