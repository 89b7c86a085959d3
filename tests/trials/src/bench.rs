//! The time of test 3 on full tables and on an opening, beside the second evaluator's.

use crate::compare::second_fits;
use crate::desk;
use crate::rules::guarded_update;
use second::dice::record;
use second::{evaluate, open, Answer, Input, Record, Session};
use std::hint::black_box;
use std::time::Instant;

const TERMS: u16 = 8_192;

/// An opening over a table of so many records.
fn opening(inputs: &[Input; 16], records: u16) -> (Session, Vec<u8>) {
    let mut table = vec![0; 8 * usize::from(records)];
    let session = open(inputs, &mut table).expect("a good opening");
    (session, table)
}

/// An opening with a free truth and a free word, over a table of 8,192 records.
fn opened() -> (Session, Vec<u8>) {
    let mut inputs = [Input { kind: 0, value: 0 }; 16];
    inputs[0].kind = 2;
    inputs[1].kind = 3;
    opening(&inputs, TERMS)
}

/// A full table of terms that a function gives by their numbers, as if two rules had been accepted.
fn filled(term: impl Fn(u16) -> Record) -> (Session, Vec<u8>) {
    let (mut session, mut table) = opened();
    for n in session.count..TERMS {
        let at = 8 * usize::from(n);
        table[at..at + 8].copy_from_slice(&term(n).to_bytes());
    }
    session.count = TERMS;
    session.accepted = 2;
    (session, table)
}

/// Guarded updates, rule after rule, until the table is full.
pub fn updated() -> (Session, Vec<u8>) {
    let (mut session, mut table) = opened();
    for k in 3.. {
        match evaluate(&mut session, &mut table, &guarded_update(k), 9) {
            Answer::Refused(_) => break,
            _ => continue,
        }
    }
    (session, table)
}

/// A chain of ors, each of the one before and the free truth.
pub fn ors() -> (Session, Vec<u8>) {
    let first = opened().0.count;
    filled(|n| record(5, 34, if n == first { 2 } else { n - 1 }, 2, 0))
}

/// Words, and any two of them under each operator on two words.
pub fn operators() -> (Session, Vec<u8>) {
    const WORDS: u16 = 29;
    const CODES: [u8; 10] = [1, 2, 3, 4, 5, 6, 7, 8, 11, 12];
    let first = opened().0.count;
    filled(|n| match (n - first).checked_sub(WORDS) {
        None => record(2, 0, n, 0, 0),
        Some(k) => {
            let code = CODES[usize::from(k / WORDS / WORDS)];
            record(5, code, first + k / WORDS % WORDS, first + k % WORDS, 0)
        }
    })
}

/// The procedures of all records of a rule, and of most of a second, in the environment of the opening.
pub fn procedures() -> (Session, Vec<u8>) {
    const RECORDS: u16 = 4_096;
    let first = opened().0.count;
    filled(|n| {
        let k = n - first;
        record(7, 0, k % RECORDS, first - 1, k / RECORDS)
    })
}

/// The least of some times, in milliseconds.
fn least(turns: u32, mut f: impl FnMut() -> u8) -> f64 {
    let mut best = f64::MAX;
    for _ in 0..turns {
        let start = Instant::now();
        black_box(f());
        best = best.min(start.elapsed().as_secs_f64() * 1_000.0);
    }
    best
}

fn report(what: &str, desk: f64, second: f64) {
    let ratio = desk / second;
    println!("{what}: desk {desk:.4} ms, second {second:.4} ms, ratio {ratio:.2}");
}

fn time_fits(what: &str, (session, table): (Session, Vec<u8>), turns: u32) {
    let form = desk::session_bytes(&session);
    assert_eq!(desk::fits(&form, &table), 0);
    assert_eq!(second_fits(&session, &table), 0);
    let ours = least(turns, || desk::fits(black_box(&form), black_box(&table)));
    let theirs = least(turns, || {
        second_fits(black_box(&session), black_box(&table))
    });
    let (terms, records) = (session.count, table.len() / 8);
    report(
        &format!("fits, {terms} terms on {records} records, {what}"),
        ours,
        theirs,
    );
}

pub fn run() {
    time_fits("guarded updates", updated(), 30);
    time_fits("a chain of ors", ors(), 30);
    time_fits("words alone", filled(|n| record(2, 0, n, 0, 0)), 30);
    time_fits("operators on few words", operators(), 30);
    time_fits("procedures of one binding", procedures(), 30);
    let free = [Input { kind: 2, value: 0 }; 16];
    time_fits("an opening", opening(&free, 34), 3_000);
    time_fits("an opening", opening(&free, TERMS), 3_000);
}
