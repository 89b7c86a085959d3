//! The lengths of the byte forms, as `include/desk.h` has them: all of them go by the length of a word.

/// A word of the rules, and a place of a work list or of the answers for bales.
pub type Word = u16;
pub type Place = u32;

pub const WORD: usize = Word::BITS as usize / 8;

/// A kind, what is zero, and from the middle on a word.
pub const INPUT: usize = 2 * WORD;
pub const INPUTS: usize = 16 * INPUT;

/// The inputs, then the count of terms and what else the session holds.
pub const SESSION: usize = COUNT + 10;
pub const COUNT: usize = INPUTS;
pub const ASSERTED: usize = COUNT + 4;
pub const HALTED: usize = COUNT + 8;

/// A sample is the sixteen numbers of a bale, one for each input; as bytes they are lent for a single reading.
pub const SAMPLE: usize = 16;
pub const NUMBERS: usize = SAMPLE * WORD;
pub const RESULT: usize = 8;
pub const ANSWER: usize = 10;

/// What was read, and its number, each as a word.
pub const READING: usize = 2 * WORD;

/// A mark and what is zero, in the bytes of a word, then sixteen numbers.
pub const WITNESS: usize = WORD + NUMBERS;

/// Sort, low and high, each as a number of a list.
pub const REPORT: usize = 3;
