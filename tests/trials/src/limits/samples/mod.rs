//! Document 02's request Four: what refuses a call for many samples, and what each sample is answered. A sample is the
//! sixteen numbers of a bale.

mod answers;
mod refusals;
mod wrapped;

use crate::compare::compare_samples;
use crate::desk::{Place, SAMPLE};
use crate::made::Made;
use crate::tally::Tally;
use second::{ResultOf, Word};

pub fn all(tally: &mut Tally) {
    refusals::all(tally);
    answers::all(tally);
    wrapped::all(tally);
}

type Sample = [Word; SAMPLE];

/// What a sample is answered that 13 refuses.
const REFUSED: Place = 13;

/// A free truth at either end and a free word after the first, as `every_kind` has them.
fn sample(first: Word, word: Word, last: Word) -> Sample {
    let mut numbers = [8; SAMPLE];
    (numbers[0], numbers[1], numbers[15]) = (first, word, last);
    numbers
}

/// What a sample is answered that reads as a word.
fn word(word: Word) -> Place {
    2 << Word::BITS | Place::from(word)
}

/// The answers of a call that is not refused, with lists of the right lengths.
fn read(tally: &mut Tally, made: &Made, result: &ResultOf, samples: &[Sample]) -> Vec<Place> {
    let Made { session, table } = made;
    let (work, numbers) = (usize::from(session.count), samples.as_flattened());
    let (refusal, answers) =
        compare_samples(tally, session, table, result, numbers, work, samples.len());
    tally.same("samples that are read", refusal, 0);
    answers
}
