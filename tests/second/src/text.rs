//! How the vector files write inputs, numbers, spans, goals and bytes.

use crate::clauses::Goal;
use crate::session::Input;
use crate::spans::Spans;

pub fn input(field: &str) -> Option<Input> {
    let (kind, value) = field.split_once(':')?;
    Some(Input {
        kind: kind.parse().ok()?,
        value: value.parse().ok()?,
    })
}

pub fn sixteen<T>(fields: &[&str], parse: impl Fn(&str) -> Option<T>) -> Option<[T; 16]> {
    let parsed: Option<Vec<T>> = fields.iter().map(|field| parse(field)).collect();
    parsed?.try_into().ok()
}

pub fn spans(fields: &[&str]) -> Option<Spans> {
    let ends = sixteen(fields, |field| {
        let (low, high) = field.split_once(':')?;
        Some((low.parse().ok()?, high.parse().ok()?))
    })?;
    Some(Spans {
        lows: ends.map(|(low, _)| low),
        highs: ends.map(|(_, high)| high),
    })
}

/// The texts for a solver say what some reading does, the cases of witnesses what it reads as.
pub fn goal(fields: &[&str]) -> Option<Goal> {
    Some(match fields {
        ["errs" | "error"] => Goal::Errs,
        ["aborts" | "abort"] => Goal::Aborts,
        ["gives" | "word", word] => Goal::Gives(word.parse().ok()?),
        _ => return None,
    })
}

/// What a case asks a witness of.
pub struct Asked {
    pub work: usize,
    pub goal: Goal,
    pub spans: Option<Spans>,
}

/// The work list's length and the goal, then `in` and spans where they are given.
pub fn asked(fields: &[&str]) -> Option<Asked> {
    let (work, rest) = fields.split_first()?;
    let (wanted, given) = match rest.iter().position(|&field| field == "in") {
        Some(at) => (&rest[..at], Some(spans(&rest[at + 1..])?)),
        None => (rest, None),
    };
    Some(Asked {
        work: work.parse().ok()?,
        goal: goal(wanted)?,
        spans: given,
    })
}

pub fn hex(text: &str) -> Option<Vec<u8>> {
    let byte = |pair: &[u8]| {
        let digits = std::str::from_utf8(pair).ok()?;
        u8::from_str_radix(digits, 16).ok()
    };
    if !text.len().is_multiple_of(2) {
        return None;
    }
    text.as_bytes().chunks_exact(2).map(byte).collect()
}
