//! Document 02's request Two: what refuses a call for reports, and what is reported of each term.

mod asserted;
mod choices;
mod refusals;
mod truths;
mod words;

use crate::compare::compare_spans;
use crate::desk::REPORT;
use crate::made::{Made, FREE_TRUTH, FREE_WORD};
use crate::tally::Tally;
use second::dice::record;
use second::{Record, Spans, Word};
use std::collections::HashSet;

pub fn all(tally: &mut Tally) {
    refusals::all(tally);
    words::all(tally);
    truths::all(tally);
    choices::all(tally);
    asserted::all(tally);
}

/// The numbers of a report.
type Numbers = [u32; REPORT];

const OPEN: Numbers = [0, 0, 0];
const FALSE: Numbers = [1, 0, 0];
const TRUE: Numbers = [1, 1, 1];
const EITHER: Numbers = [1, 0, 1];
const ANY_WORD: Numbers = [2, 0, Word::MAX as u32];

fn span(low: Word, high: Word) -> Numbers {
    [2, u32::from(low), u32::from(high)]
}

/// The most that a word can be, and the words about its half.
const MOST: Word = Word::MAX;
const HALF: Word = Word::MAX / 2;

/// The reports of all terms, with a list that is just long enough.
fn reports(tally: &mut Tally, made: &Made, given: &Spans) -> Vec<Numbers> {
    let Made { session, table } = made;
    let numbers = REPORT * usize::from(session.count);
    let (refusal, list) = compare_spans(tally, session, table, given, numbers);
    tally.same("spans that are taken", refusal, 0);
    let three = |report: &[u32]| [report[0], report[1], report[2]];
    list.chunks_exact(REPORT).map(three).collect()
}

/// The report of the last term.
fn expect(tally: &mut Tally, what: &str, made: &Made, given: &Spans, wanted: Numbers) {
    let last = reports(tally, made, given).pop();
    tally.same(what, last, Some(wanted));
}

/// Spans for the first inputs; every other one is of any word.
fn spans(first: &[(Word, Word)]) -> Spans {
    let ends = |at: usize| first.get(at).copied().unwrap_or((0, MOST));
    Spans {
        lows: std::array::from_fn(|at| ends(at).0),
        highs: std::array::from_fn(|at| ends(at).1),
    }
}

/// Free words, and a free truth as the last input, over the largest table.
fn heads() -> Made {
    let mut inputs = [FREE_WORD; 16];
    inputs[15] = FREE_TRUTH;
    Made::open(&inputs, 8_192).but(|session| session.accepted = 1)
}

/// The terms of its inputs.
const HEADS: [u16; 15] = [2, 3, 4, 5, 6, 7, 8, 9, 10, 11, 12, 13, 14, 15, 16];
const SWITCH: u16 = 17;
const LAST_BINDING: u16 = 33;

/// With more terms, of which those that are there already, or repeated, are left out.
fn with(made: Made, terms: impl IntoIterator<Item = Record>) -> Made {
    let Made { session, mut table } = made;
    let used = second::records(&table).take(usize::from(session.count));
    let mut there: HashSet<[u8; 8]> = used.map(Record::to_bytes).collect();
    for bytes in terms.into_iter().map(Record::to_bytes) {
        let at = 8 * there.len();
        if there.insert(bytes) {
            table[at..at + 8].copy_from_slice(&bytes);
        }
    }
    let made = Made { session, table };
    made.but(|session| session.count = there.len() as u16)
}

fn operated(op: u8, a: u16, b: u16) -> Record {
    let one = matches!(op, 9 | 10 | 14 | 15 | 32 | 35);
    record(5, op, a, if one { 0 } else { b }, 0)
}

fn choice(guard: u16, then: u16, other: u16) -> Record {
    record(6, 0, guard, then, other)
}

fn procedure() -> Record {
    record(7, 0, 3, LAST_BINDING, 0)
}

/// Terms that are reported in every way, with spans that make them so.
struct Ways {
    made: Made,
    given: Spans,
    /// Truths that can only be false, only be true or be either: constants, a free truth and comparisons.
    truths: Vec<u16>,
    /// These, words of many spans, a procedure, and choices of each sort.
    values: Vec<u16>,
}

impl Ways {
    /// The heads' spans are apart, touch, overlap, and lie in one another.
    fn new() -> Ways {
        let given = spans(&[(3, 5), (6, 9), (5, 7), (4, 4), (0, MOST), (9, 9)]);
        let [low, high, across, inner, any, end] = [2, 3, 4, 5, 6, 7];
        let first = heads().session.count;
        let (only_true, only_false, either, proc) = (first, first + 1, first + 2, first + 3);
        let made = with(
            heads(),
            [
                operated(11, low, high),
                operated(11, high, low),
                operated(11, low, across),
                procedure(),
                // a span by a guard that decides, in either way, and by one that does not
                choice(only_true, low, proc),
                choice(only_false, proc, high),
                choice(SWITCH, low, end),
                // a truth
                choice(either, only_true, only_true),
                choice(SWITCH, only_false, 1),
                // open: the sides differ, one is open, the side that is decided for is open
                choice(SWITCH, low, either),
                choice(either, proc, low),
                choice(only_true, proc, low),
                record(2, 0, 5, 0, 0),
            ],
        );
        let truths = vec![0, 1, SWITCH, only_true, only_false, either];
        let words = [low, high, across, inner, any, end];
        let last = made.session.count;
        let values = truths.iter().copied().chain(words).chain(proc..last);
        Ways {
            values: values.collect(),
            made,
            given,
            truths,
        }
    }

    /// The reports of these terms, made over the others in this order.
    fn reports(&self, tally: &mut Tally, terms: impl IntoIterator<Item = Record>) -> Vec<Numbers> {
        let made = with(self.made.clone(), terms);
        reports(tally, &made, &self.given)
    }
}
