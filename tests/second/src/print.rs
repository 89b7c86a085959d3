use crate::evaluate::{evaluate, Answer};
use crate::opening::open;
use crate::records::records;
use crate::session::Input;
use crate::words::{Word, WORD_BYTES};
use std::fmt::Write;

const ALLOWANCE: u16 = 100;
/// A kind, what is zero, and from the middle on a word.
const INPUT: usize = 2 * WORD_BYTES;
const INPUT_BYTES: usize = 16 * INPUT;

/// What the printing program writes for its standard input.
pub fn print(input: &[u8]) -> String {
    printed(input).unwrap_or_else(|refusal| format!("refused {refusal}\n"))
}

fn printed(input: &[u8]) -> Result<String, u8> {
    let (head, rule) = input.split_at_checked(INPUT_BYTES).ok_or(2)?;
    let inputs = parse_inputs(head).ok_or(2)?;
    let mut table = vec![0; 65_536];
    let mut session = open(&inputs, &mut table)?;
    let opened = usize::from(session.count);
    let mut text = match evaluate(&mut session, &mut table, rule, ALLOWANCE) {
        Answer::Out { s, t, value, .. } => format!("out {s} {t} {value} {}\n", session.count),
        Answer::Halt { s, t, .. } => format!("halt {s} {t} {}\n", session.count),
        Answer::Refused(refusal) => return Err(refusal),
    };
    let terms = records(&table).enumerate();
    for (number, r) in terms.take(usize::from(session.count)).skip(opened) {
        // Writing to a string cannot fail.
        let _ = writeln!(text, "{number} {} {} {} {} {}", r.kind, r.op, r.a, r.b, r.c);
    }
    Ok(text)
}

/// Nothing if what stands between the kind and the value of an input is not zero.
fn parse_inputs(head: &[u8]) -> Option<[Input; 16]> {
    let mut inputs = [Input::default(); 16];
    for (input, record) in inputs.iter_mut().zip(head.chunks_exact(INPUT)) {
        let (kind, value) = record.split_at(WORD_BYTES);
        if kind[1..].iter().any(|&byte| byte != 0) {
            return None;
        }
        input.kind = kind[0];
        input.value = Word::from_le_bytes(value.try_into().ok()?);
    }
    Some(inputs)
}
