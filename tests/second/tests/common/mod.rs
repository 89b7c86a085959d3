//! Rules built by hand and at random, and test 3 written out plainly.
#![allow(dead_code)]

use second::{open, records, Input, Record, Session, Word};

pub const FALSE: Input = Input { kind: 0, value: 0 };
pub const FREE_TRUTH: Input = Input { kind: 2, value: 0 };
pub const FREE_WORD: Input = Input { kind: 3, value: 0 };

pub fn word(value: Word) -> Input {
    Input { kind: 1, value }
}

/// Truths in even places and words in odd ones, all free.
pub fn free_inputs() -> [Input; 16] {
    std::array::from_fn(|i| if i % 2 == 0 { FREE_TRUTH } else { FREE_WORD })
}

/// A fresh session and its table; the inputs and length must be good.
pub fn opened(inputs: &[Input; 16], bytes: usize) -> (Session, Vec<u8>) {
    let mut table = vec![0xa5; bytes];
    let session = open(inputs, &mut table).expect("a good opening");
    (session, table)
}

/// Test 3, sentence by sentence, slow and without an index.
pub fn fits(session: &Session, table: &[u8]) -> bool {
    let mut start = vec![0; 272];
    let length = table.len().is_multiple_of(8) && (272..=65_536).contains(&table.len());
    let Ok(opening) = open(&session.inputs, &mut start) else {
        return false;
    };
    let (begun, count) = (usize::from(opening.count), usize::from(session.count));
    if !length || count < begun || count > table.len() / 8 || session.accepted > 1_000 {
        return false;
    }
    let terms: Vec<Record> = records(table).take(count).collect();
    let in_range = |n: u16| usize::from(n) < count && truth(&terms, n);
    table[..begun * 8] == start[..begun * 8]
        && table[count * 8..].iter().all(|&byte| byte == 0)
        && (begun..count).all(|n| term_fits(&terms, n, session.accepted))
        && (begun..count).all(|n| !terms[..n].contains(&terms[n]))
        && in_range(session.s)
        && in_range(session.t)
}

fn truth(terms: &[Record], number: u16) -> bool {
    let term = terms[usize::from(number)];
    let gives_truth = matches!(term.op, 11..=15 | 32..=35);
    term.kind == 1 || term.kind == 3 || term.kind == 5 && gives_truth
}

fn term_fits(terms: &[Record], number: usize, accepted: u16) -> bool {
    let Record { kind, op, a, b, c } = terms[number];
    let lower = |n: u16| usize::from(n) < number;
    let of_kind = |n: u16, kind: u8| lower(n) && terms[usize::from(n)].kind == kind;
    let is_truth = |n: u16| lower(n) && truth(terms, n);
    let is_value = |n: u16| lower(n) && !of_kind(n, 8);
    let is_choice = |n: u16| of_kind(n, 6);
    match kind {
        2 => op == 0 && b == 0 && c == 0,
        5 => {
            c == 0
                && match op {
                    9 | 10 => is_value(a) && b == 0,
                    1..=12 => is_value(a) && is_value(b),
                    14 | 15 | 35 => is_choice(a) && b == 0,
                    32 => is_truth(a) && b == 0,
                    33 | 34 => is_truth(a) && is_truth(b),
                    _ => false,
                }
        }
        6 => op == 0 && is_truth(a) && is_value(b) && is_value(c),
        7 => op == 0 && a <= 4_095 && of_kind(b, 8) && c < accepted,
        8 => op == 0 && c == 0 && is_value(a) && (b == 65_535 || of_kind(b, 8)),
        // Truth constants would repeat the opening's; free inputs are only there.
        _ => false,
    }
}
