/// "Words are 16 bits": all else about the width follows from this type.
pub type Word = u16;
pub const WIDTH: Word = Word::BITS as Word;
pub const WORD_BYTES: usize = Word::BITS as usize / 8;

/// A word in two fields of a record or a term, the low half first.
pub fn halves(word: Word) -> (u16, u16) {
    let word = u64::from(word);
    (word as u16, (word >> 16) as u16)
}

/// The word in two fields, or nothing if a word does not take what the second has.
pub fn joined(low: u16, high: u16) -> Option<Word> {
    Word::try_from(u64::from(high) << 16 | u64::from(low)).ok()
}

pub const ADD: u8 = 1;
pub const SUBTRACT: u8 = 2;
pub const MULTIPLY: u8 = 3;
pub const BITWISE_AND: u8 = 4;
pub const LESS: u8 = 11;
pub const IS_FALSE: u8 = 13;
pub const IS_WORD: u8 = 14;
pub const IS_PROCEDURE: u8 = 15;
pub const NOT: u8 = 32;
pub const AND: u8 = 33;
pub const OR: u8 = 34;
pub const TRUTH: u8 = 35;

/// What a term or a record can come to.
#[derive(Clone, Copy, PartialEq, Eq, Debug)]
pub enum Value<P> {
    Truth(bool),
    Word(Word),
    Procedure(P),
}

impl<P> Value<P> {
    /// Only false fails a test.
    pub fn holds(&self) -> bool {
        !matches!(self, Value::Truth(false))
    }

    pub fn word(&self) -> Option<Word> {
        match self {
            Value::Word(word) => Some(*word),
            _ => None,
        }
    }
}

/// Operand count and result kind of an operator code; no operands, no such code.
#[derive(Clone, Copy)]
pub struct Shape {
    pub operands: u8,
    pub truth: bool,
}

const NONE: Shape = shape_of(0, false);
const WORD_1: Shape = shape_of(1, false);
const WORD_2: Shape = shape_of(2, false);
const TRUTH_1: Shape = shape_of(1, true);
const TRUTH_2: Shape = shape_of(2, true);

const fn shape_of(operands: u8, truth: bool) -> Shape {
    Shape { operands, truth }
}

#[rustfmt::skip]
const SHAPES: [Shape; 36] = [
    NONE, WORD_2, WORD_2, WORD_2, WORD_2, WORD_2, WORD_2, WORD_2,
    WORD_2, WORD_1, WORD_1, TRUTH_2, TRUTH_2, TRUTH_1, TRUTH_1, TRUTH_1,
    NONE, NONE, NONE, NONE, NONE, NONE, NONE, NONE,
    NONE, NONE, NONE, NONE, NONE, NONE, NONE, NONE,
    TRUTH_1, TRUTH_2, TRUTH_2, TRUTH_1,
];

/// The shape of any code; an unknown one has no operands.
pub fn shape(op: u8) -> Shape {
    SHAPES.get(usize::from(op)).copied().unwrap_or(NONE)
}

/// An operator 1 to 12 on its operands, or nothing if one of them is no word. A shift gives zero once the amount reaches the
/// width.
pub fn on_words<P>(op: u8, x: Option<Word>, y: Option<Word>) -> Option<Value<P>> {
    let x = x?;
    let y = if shape(op).operands == 2 { y? } else { 0 };
    Some(match op {
        1 => Value::Word(x.wrapping_add(y)),
        2 => Value::Word(x.wrapping_sub(y)),
        3 => Value::Word(x.wrapping_mul(y)),
        4 => Value::Word(x & y),
        5 => Value::Word(x | y),
        6 => Value::Word(x ^ y),
        7 => Value::Word(x.checked_shl(u32::from(y)).unwrap_or(0)),
        8 => Value::Word(x.checked_shr(u32::from(y)).unwrap_or(0)),
        9 => Value::Word(x.count_ones() as Word),
        10 => Value::Word(x.leading_zeros() as Word),
        11 => Value::Truth(x < y),
        12 => Value::Truth(x == y),
        _ => return None,
    })
}
