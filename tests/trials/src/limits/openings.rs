//! Opening: the tests 1 and 2, and what it leaves.

use crate::compare::{compare_open, compare_run};
use crate::made::{free_inputs, word_input, FALSE, FREE_TRUTH, FREE_WORD, TRUE};
use crate::tally::Tally;
use crate::tree::truth;
use second::{Input, Word};

pub fn all(tally: &mut Tally) {
    table_bytes(tally);
    input_values(tally);
    shared_inputs(tally);
    table_before_inputs(tally);
}

/// "1: table bytes not a multiple of 8, below 272 or above 65,536."
fn table_bytes(tally: &mut Tally) {
    for bytes in [272, 280, 65_528, 65_536] {
        let refusal = compare_open(tally, &free_inputs(), bytes);
        tally.same("a table of good length", refusal, 0);
    }
    for bytes in [0, 8, 256, 264, 271, 273, 65_529, 65_535, 65_537, 65_544] {
        let refusal = compare_open(tally, &free_inputs(), bytes);
        tally.same("a table of bad length", refusal, 1);
    }
}

/// "0 constant truth (0 or 1), 1 constant word, 2 free truth, 3 free word (value 0 for free ones)."
fn input_values(tally: &mut Tally) {
    let inputs = [FALSE, TRUE, word_input(7), FREE_TRUTH, FREE_WORD];
    let mut inputs: [Input; 16] = std::array::from_fn(|i| inputs[i % 5]);
    for at in 0..16 {
        let before = inputs[at];
        for kind in [0, 1, 2, 3, 4, 255] {
            for value in [0, 1, 2, Word::MAX] {
                inputs[at] = Input { kind, value };
                let refusal = compare_open(tally, &inputs, 280);
                let good = match kind {
                    0 => value < 2,
                    1 => true,
                    2 | 3 => value == 0,
                    _ => false,
                };
                tally.same("an input", refusal, if good { 0 } else { 2 });
                // a run tests them too
                let refusal = compare_run(tally, &inputs, &[0; 16], &truth(true).rule(), 1, 128);
                tally.same("a run's input", refusal, if good { 0 } else { 2 });
            }
        }
        inputs[at] = before;
    }
}

/// "Terms: false, true, inputs 0 to 15, then bindings from input 15 to input 0.", and equal ones share a number.
fn shared_inputs(tally: &mut Tally) {
    for input in [FALSE, TRUE, word_input(0), word_input(1), FREE_TRUTH] {
        compare_open(tally, &[input; 16], 272);
    }
}

/// "Tests are made in the order written." "The table is left untouched."
fn table_before_inputs(tally: &mut Tally) {
    let bad = [Input { kind: 4, value: 0 }; 16];
    for bytes in [264, 273, 65_544] {
        let refusal = compare_open(tally, &bad, bytes);
        tally.same("a bad table and bad inputs", refusal, 1);
    }
    let refusal = compare_open(tally, &bad, 272);
    tally.same("bad inputs", refusal, 2);
}
