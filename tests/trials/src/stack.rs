//! How much stack an evaluation takes: calls of 64 targets, one inside the other down to depth 256.

use crate::desk;
use crate::rules::chained_targets;
use second::dice::record;
use second::{open, Input};

/// Evaluates in a thread with so much stack; a thread that needs more ends the program by a signal.
pub fn run(kibibytes: usize) {
    // each of 64 targets is "apply my argument to itself"
    let bytes = chained_targets(64, 0, |_| record(4, 0, 0, 0, 0));
    let evaluation = move || {
        let mut table = vec![0; 65_536];
        let session = open(&[Input { kind: 2, value: 0 }; 16], &mut table).expect("a good opening");
        let mut form = desk::session_bytes(&session);
        let mut answer = [0; desk::ANSWER];
        desk::evaluate(&mut form, &mut table, &bytes, 256, &mut answer)
    };
    let thread = std::thread::Builder::new().stack_size(kibibytes * 1_024);
    let refusal = thread.spawn(evaluation).expect("a thread").join();
    println!("stack: {kibibytes} KiB are enough; refused by {refusal:?}");
}
