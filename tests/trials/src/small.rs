//! The time of a rule of 57 records on a fresh table beside the second evaluator's, as a row of a table. Of a small rule,
//! what is cleared for the tests can take longer than the rule itself; `scopes` has the times of its tests 4 to 7.

use crate::speed::{compare, Start, TABLE};
use second::dice::Dice;
use std::hint::black_box;

const RECORDS: usize = 57;

pub fn run() {
    println!("| what | desk, ms | second evaluator, ms | ratio |");
    println!("|---|---|---|---|");
    let mut dice = Dice(0x57);
    let (start, bytes) = accepted(&mut dice);
    compare(
        &format!("evaluate {RECORDS} records, fresh table of {TABLE} bytes"),
        1,
        &start,
        |start| assert_eq!(start.desk(&bytes), 0),
        |start| {
            black_box(start.second(&bytes));
        },
    );
}

/// A random rule of 57 records that an opening's session accepts, and that session.
fn accepted(dice: &mut Dice) -> (Start, Vec<u8>) {
    loop {
        let bytes = dice.rule(120);
        let start = Start::new(&dice.inputs(), TABLE);
        if bytes.len() == 8 * RECORDS && start.clone().desk(&bytes) == 0 {
            return (start, bytes);
        }
    }
}
