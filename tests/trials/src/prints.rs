//! The printing program against the second evaluator: the vectors' inputs, and one of them cut short at every length,
//! grown past the longest rule, and empty.

use crate::desk::INPUTS;
use crate::tally::Tally;
use second::print;
use second::text::hex;
use std::io::Write;
use std::path::Path;
use std::process::{Command, Stdio};

const PRINTS: &str = include_str!("../../vectors/print.txt");
const PRINTED_CASE: &[u8] = include_bytes!("../../../examples/printed-case.bin");

/// One byte more than the inputs and the longest rule.
const TOO_LONG: usize = INPUTS + 32_768 + 1;

pub fn all(tally: &mut Tally) {
    for bytes in PRINTS
        .lines()
        .filter_map(|line| line.strip_prefix("in "))
        .filter_map(hex)
    {
        compare(tally, &bytes);
    }
    for end in 0..=PRINTED_CASE.len() {
        compare(tally, &PRINTED_CASE[..end]);
    }
    for length in [TOO_LONG - 1, TOO_LONG, 2 * TOO_LONG] {
        let mut long = PRINTED_CASE.to_vec();
        long.resize(length, 0);
        compare(tally, &long);
    }
}

/// What the program writes.
pub fn compare(tally: &mut Tally, bytes: &[u8]) -> String {
    let what = format!("print of {} bytes", bytes.len());
    let lines = printed(bytes);
    tally.same(&what, &lines, &print(bytes));
    lines
}

/// What the program writes for its input.
fn printed(bytes: &[u8]) -> String {
    let program = Path::new(env!("CARGO_MANIFEST_DIR")).join("../../target/bin/print");
    let mut child = Command::new(program)
        .stdin(Stdio::piped())
        .stdout(Stdio::piped())
        .spawn()
        .expect("target/bin/print, which `tools/build` makes");
    let mut input = child.stdin.take().expect("a pipe");
    // the program reads no more than it needs, so that the end of a long input may find no reader
    let _ = input.write_all(bytes);
    drop(input);
    let output = child.wait_with_output().expect("the program ends");
    String::from_utf8(output.stdout).expect("lines of text")
}
