//! A session with inputs and terms of every kind, for the trials that change one thing of it.

use crate::made::{word_input, Made, FALSE, FREE_TRUTH, FREE_WORD, TRUE};
use second::dice::record;
use second::Record;

/// What a term's kind tells about its value.
#[derive(Clone, Copy, PartialEq, Eq)]
pub enum Sort {
    Truth,
    Word,
    Choice,
    Procedure,
    Binding,
}

// The terms' numbers.
pub const FALSE_TERM: u16 = 0;
pub const TRUE_TERM: u16 = 1;
pub const FREE_TRUTH_TERM: u16 = 2;
pub const FREE_WORD_TERM: u16 = 3;
pub const NINE: u16 = 4;
pub const LAST_TRUTH_TERM: u16 = 5;
pub const FIRST_BINDING: u16 = 6;
pub const LAST_OPENED: u16 = 21;
pub const SEVEN: u16 = 22;
pub const SUM: u16 = 23;
pub const LESS: u16 = 24;
pub const NOT: u16 = 25;
pub const CHOICE: u16 = 26;
pub const PROCEDURE: u16 = 27;
pub const CHOSEN: u16 = 28;
pub const BINDING: u16 = 29;
pub const LAST: u16 = 30;

/// All but the bindings between the opening's first and last.
pub const TERMS: [(u16, Sort); 17] = [
    (FALSE_TERM, Sort::Truth),
    (TRUE_TERM, Sort::Truth),
    (FREE_TRUTH_TERM, Sort::Truth),
    (FREE_WORD_TERM, Sort::Word),
    (NINE, Sort::Word),
    (LAST_TRUTH_TERM, Sort::Truth),
    (FIRST_BINDING, Sort::Binding),
    (LAST_OPENED, Sort::Binding),
    (SEVEN, Sort::Word),
    (SUM, Sort::Word),
    (LESS, Sort::Truth),
    (NOT, Sort::Truth),
    (CHOICE, Sort::Choice),
    (PROCEDURE, Sort::Procedure),
    (CHOSEN, Sort::Choice),
    (BINDING, Sort::Binding),
    (LAST, Sort::Truth),
];

/// An input of every kind, and a free truth at either end, over 40 records.
pub fn opened() -> Made {
    let mut inputs = [FALSE; 16];
    inputs[..4].copy_from_slice(&[FREE_TRUTH, FREE_WORD, word_input(9), TRUE]);
    inputs[15] = FREE_TRUTH;
    Made::open(&inputs, 40)
}

/// As if two rules had been accepted. The last term is a truth.
pub fn every_kind() -> Made {
    let terms = [
        record(2, 0, 7, 0, 0),
        record(5, 1, FREE_WORD_TERM, NINE, 0),
        record(5, 11, FREE_WORD_TERM, NINE, 0),
        record(5, 32, FREE_TRUTH_TERM, 0, 0),
        record(6, 0, FREE_TRUTH_TERM, FREE_WORD_TERM, FALSE_TERM),
        record(7, 0, 4, LAST_OPENED, 1),
        record(6, 0, FREE_TRUTH_TERM, PROCEDURE, CHOICE),
        record(8, 0, PROCEDURE, LAST_OPENED, 0),
        record(5, 14, CHOICE, 0, 0),
    ];
    let made = terms
        .into_iter()
        .fold(opened(), |made, term| made.more(term));
    made.but(|session| {
        session.s = NOT;
        session.t = LAST;
        session.accepted = 2;
    })
}

/// The same over so many records, those behind its terms words.
pub fn filled(records: u16) -> Made {
    let mut made = every_kind().over(8 * usize::from(records));
    let words = (0..records).map(|number| record(2, 0, 100 + number, 0, 0));
    let places = made.table.chunks_exact_mut(8).zip(words);
    for (place, word) in places.skip(usize::from(made.session.count)) {
        place.copy_from_slice(&word.to_bytes());
    }
    made.but(|session| session.count = records)
}

/// What an operator's operands must be, and how many it has; nothing of a code that makes no term.
pub fn operands_of(op: u8) -> Option<(u8, &'static [Sort])> {
    use Sort::{Choice, Procedure, Truth, Word};
    match op {
        9 | 10 => Some((1, &[Truth, Word, Choice, Procedure])),
        1..=12 => Some((2, &[Truth, Word, Choice, Procedure])),
        14 | 15 | 35 => Some((1, &[Choice])),
        32 => Some((1, &[Truth])),
        33 | 34 => Some((2, &[Truth])),
        _ => None,
    }
}

/// A term whose operands fit its code.
pub fn operator(op: u8) -> Option<Record> {
    let (count, sorts) = operands_of(op)?;
    let (a, b) = match sorts {
        [Sort::Choice] => (CHOSEN, CHOSEN),
        [Sort::Truth] => (LESS, NOT),
        _ => (SEVEN, SUM),
    };
    Some(record(5, op, a, if count == 2 { b } else { 0 }, 0))
}
