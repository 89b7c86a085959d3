//! Document 02's request Seven: what refuses a call for a witness, which reading it is, and which ones spans leave.

mod goals;
mod order;
mod refusals;
mod within;
mod wrapped;

use crate::compare::compare_witness;
use crate::made::{Made, FALSE, FREE_TRUTH, FREE_WORD};
use crate::tally::Tally;
use second::dice::record;
use second::{Goal, Input, ResultOf, Spans, Word};

pub fn all(tally: &mut Tally) {
    within::all(tally);
    refusals::all(tally);
    order::all(tally);
    goals::all(tally);
    wrapped::all(tally);
}

type Numbers = [Word; 16];

/// A result of a session, a goal, and spans or none.
struct Asked<'a> {
    made: &'a Made,
    result: ResultOf,
    goal: Goal,
    given: Option<&'a Spans>,
}

impl Asked<'_> {
    fn with(&self, tally: &mut Tally, work: usize) -> (u8, Option<Numbers>) {
        let Made { session, table } = self.made;
        let Asked {
            result,
            goal,
            given,
            ..
        } = self;
        compare_witness(tally, session, table, result, *goal, *given, work)
    }

    /// With a work list that is just long enough; nothing where it is refused.
    fn found(&self, tally: &mut Tally) -> Option<Numbers> {
        let (refusal, found) = self.with(tally, usize::from(self.made.session.count));
        tally.same("a search that is made", refusal, 0);
        found
    }

    fn expect(&self, tally: &mut Tally, what: &str, wanted: Option<Numbers>) {
        let found = self.found(tally);
        tally.same(what, found, wanted);
    }
}

/// Numbers that are 0 but at these places.
fn numbers(some: &[(usize, Word)]) -> Numbers {
    let mut numbers = [0; 16];
    for &(at, number) in some {
        numbers[at] = number;
    }
    numbers
}

/// Free truths at these places, a free word at one or none, and false. The terms of the free inputs are numbered from 2 on, in
/// the order of their places.
fn free(truths: &[usize], word: Option<usize>) -> [Input; 16] {
    let mut inputs = [FALSE; 16];
    for &at in truths {
        inputs[at] = FREE_TRUTH;
    }
    if let Some(at) = word {
        inputs[at] = FREE_WORD;
    }
    inputs
}

/// One term more, and its number.
fn put(made: Made, term: second::Record) -> (Made, u16) {
    let number = made.session.count;
    (made.more(term), number)
}

/// A truth that holds where the free word of this term is this word.
fn is_the_word(made: Made, term: u16, word: Word) -> (Made, u16) {
    let constant = second::dice::datum(word);
    let (made, constant) = put(made, record(2, 0, constant.a, constant.b, 0));
    put(made, record(5, 12, term, constant, 0))
}

fn or(made: Made, a: u16, b: u16) -> (Made, u16) {
    put(made, record(5, 34, a, b, 0))
}

fn not(made: Made, a: u16) -> (Made, u16) {
    put(made, record(5, 32, a, 0, 0))
}
