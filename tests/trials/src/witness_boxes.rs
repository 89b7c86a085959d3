//! The desk's search for a witness once more, to count what it visits. A box has a low and a high for each input; of a large one
//! it is asked by the ranges of the terms whether the goal can be reached at all, and else it is halved at its first input that
//! is not a single number, the lower half first. Nothing is read here: the search is over when it comes to what the desk found.

use crate::stood_on::{has_one_operand, stood_on};
use second::{records, Goal, Record, ResultOf, Session, Word};

type Numbers = [Word; 16];

/// Boxes with fewer readings are not asked.
const LARGE: u64 = 32;

#[derive(Clone, Copy, Default)]
pub struct Visited {
    /// All of them, single readings too.
    pub boxes: u64,
    /// Those of which the ranges were worked out.
    pub asked: u64,
    pub readings: u64,
}

/// What a search visits that finds these numbers, or none.
pub fn visited(
    session: &Session,
    table: &[u8],
    result: &ResultOf,
    goal: Goal,
    found: Option<Numbers>,
) -> Visited {
    let mut search = Search::new(session, table, result, goal, found);
    let (mut lows, mut highs) = search.ends();
    let over = search.search(&mut lows, &mut highs);
    assert_eq!(
        over,
        found.is_some(),
        "the search finds what the desk finds"
    );
    search.visited
}

/// What a term may read as: no sort where that is open, a truth or a word from low to high.
#[derive(Clone, Copy, PartialEq, Eq)]
struct Range {
    sort: Option<Sort>,
    low: Word,
    high: Word,
}

#[derive(Clone, Copy, PartialEq, Eq)]
enum Sort {
    Truth,
    Word,
}

const OPEN: Range = Range {
    sort: None,
    low: 0,
    high: 0,
};
const EITHER: Range = truth(0, 1);
const ANY_WORD: Range = word(0, Word::MAX);

const fn truth(low: Word, high: Word) -> Range {
    let sort = Some(Sort::Truth);
    Range { sort, low, high }
}

const fn word(low: Word, high: Word) -> Range {
    let sort = Some(Sort::Word);
    Range { sort, low, high }
}

impl Range {
    fn is_only(self, number: Word) -> bool {
        self == truth(number, number)
    }

    fn is_one_word(self) -> bool {
        self.sort == Some(Sort::Word) && self.low == self.high
    }
}

struct Search {
    result: ResultOf,
    goal: Goal,
    found: Option<Numbers>,
    /// Those that the result stands on.
    terms: Vec<(usize, Record)>,
    /// Of each of these terms; open of the others.
    ranges: Vec<Range>,
    visited: Visited,
}

impl Search {
    fn new(
        session: &Session,
        table: &[u8],
        result: &ResultOf,
        goal: Goal,
        found: Option<Numbers>,
    ) -> Search {
        let terms: Vec<Record> = records(table).take(usize::from(session.count)).collect();
        let on = stood_on(&terms, result);
        Search {
            result: *result,
            goal,
            found,
            ranges: vec![OPEN; terms.len()],
            terms: terms
                .into_iter()
                .enumerate()
                .filter(|&(number, _)| on[number])
                .collect(),
            visited: Visited::default(),
        }
    }

    /// Those of the whole search, without spans: an input on which the result does not stand stays at 0.
    fn ends(&self) -> (Numbers, Numbers) {
        let mut highs = [0; 16];
        for (_, term) in &self.terms {
            match term.kind {
                3 => highs[usize::from(term.a)] = 1,
                4 => highs[usize::from(term.a)] = Word::MAX,
                _ => {}
            }
        }
        ([0; 16], highs)
    }

    /// Whether it came to what was found.
    fn search(&mut self, lows: &mut Numbers, highs: &mut Numbers) -> bool {
        self.visited.boxes += 1;
        let Some(at) = (0..16).find(|&at| lows[at] != highs[at]) else {
            self.visited.readings += 1;
            return self.found == Some(*lows);
        };
        if size(lows, highs) >= LARGE && !self.may_reach(lows, highs) {
            return false;
        }
        let (low, high) = (lows[at], highs[at]);
        let middle = low + (high - low) / 2;
        highs[at] = middle;
        let mut over = self.search(lows, highs);
        highs[at] = high;
        if !over {
            lows[at] = middle + 1;
            over = self.search(lows, highs);
            lows[at] = low;
        }
        over
    }

    fn may_reach(&mut self, lows: &Numbers, highs: &Numbers) -> bool {
        self.visited.asked += 1;
        for &(number, term) in &self.terms {
            self.ranges[number] = range(term, &self.ranges, lows, highs);
        }
        let at = |number: u16| self.ranges[usize::from(number)];
        let (s, t, halted) = (at(self.result.s), at(self.result.t), self.result.halted);
        match self.goal {
            Goal::Errs if halted => !(t.is_only(1) && s.is_only(0)),
            Goal::Errs => !t.is_only(1),
            Goal::Aborts => !t.is_only(0) && !s.is_only(1),
            Goal::Gives(_) if halted => false,
            Goal::Gives(word) => {
                let may_be = |value: Range| match value.sort {
                    None => true,
                    Some(Sort::Word) => (value.low..=value.high).contains(&word),
                    Some(Sort::Truth) => false,
                };
                !t.is_only(0) && !s.is_only(0) && may_be(at(self.result.value))
            }
        }
    }
}

/// How many readings a box has.
fn size(lows: &Numbers, highs: &Numbers) -> u64 {
    let ends = lows.iter().zip(highs);
    ends.map(|(&low, &high)| u64::from(high - low) + 1)
        .product()
}

fn range(term: Record, ranges: &[Range], lows: &Numbers, highs: &Numbers) -> Range {
    let at = |number: u16| ranges[usize::from(number)];
    let input = usize::from(term.a);
    match term.kind {
        1 => truth(term.a, term.a),
        2 => word(term.a, term.a),
        3 => truth(lows[input], highs[input]),
        4 => word(lows[input], highs[input]),
        5 if has_one_operand(term.op) => operator_range(term.op, at(term.a), OPEN),
        5 => operator_range(term.op, at(term.a), at(term.b)),
        6 => choice_range(at(term.a), at(term.b), at(term.c)),
        _ => OPEN,
    }
}

fn choice_range(guard: Range, then: Range, other: Range) -> Range {
    match guard {
        _ if guard.is_only(1) => then,
        _ if guard.is_only(0) => other,
        _ if then.sort == other.sort => Range {
            sort: then.sort,
            low: then.low.min(other.low),
            high: then.high.max(other.high),
        },
        _ => OPEN,
    }
}

fn operator_range(op: u8, x: Range, y: Range) -> Range {
    if op <= 12 && x.is_one_word() && (has_one_operand(op) || y.is_one_word()) {
        let number = operate(op, x.low, y.low);
        let sort = if op >= 11 { truth } else { word };
        return sort(number, number);
    }
    match (op, x.sort, y.sort) {
        (1, Some(Sort::Word), Some(Sort::Word)) => match x.high.checked_add(y.high) {
            Some(high) => word(x.low + y.low, high),
            None => ANY_WORD,
        },
        (2, Some(Sort::Word), Some(Sort::Word)) if x.low >= y.high => {
            word(x.low - y.high, x.high - y.low)
        }
        (9, Some(Sort::Word), _) => word(0, (Word::BITS - x.high.leading_zeros()) as Word),
        (10, Some(Sort::Word), _) => word(
            x.high.leading_zeros() as Word,
            x.low.leading_zeros() as Word,
        ),
        (9 | 10, _, _) => word(0, Word::BITS as Word),
        (..=10, _, _) => ANY_WORD,
        (11, Some(Sort::Word), Some(Sort::Word)) if x.high < y.low => truth(1, 1),
        (11, Some(Sort::Word), Some(Sort::Word)) if x.low >= y.high => truth(0, 0),
        (12, Some(Sort::Word), Some(Sort::Word)) if x.high < y.low || y.high < x.low => truth(0, 0),
        (14, Some(sort), _) => truth_of(sort == Sort::Word),
        (15, Some(_), _) => truth_of(false),
        (35, Some(Sort::Truth), _) => x,
        (35, Some(Sort::Word), _) => truth_of(true),
        (32, Some(Sort::Truth), _) => truth(1 - x.high, 1 - x.low),
        (33, Some(Sort::Truth), Some(Sort::Truth)) => truth(x.low.min(y.low), x.high.min(y.high)),
        (34, Some(Sort::Truth), Some(Sort::Truth)) => truth(x.low.max(y.low), x.high.max(y.high)),
        _ => EITHER,
    }
}

fn truth_of(holds: bool) -> Range {
    truth(Word::from(holds), Word::from(holds))
}

/// An operator on words; a truth is 0 or 1.
fn operate(op: u8, x: Word, y: Word) -> Word {
    match op {
        1 => x.wrapping_add(y),
        2 => x.wrapping_sub(y),
        3 => x.wrapping_mul(y),
        4 => x & y,
        5 => x | y,
        6 => x ^ y,
        7 => x.checked_shl(u32::from(y)).unwrap_or(0),
        8 => x.checked_shr(u32::from(y)).unwrap_or(0),
        9 => x.count_ones() as Word,
        10 => x.leading_zeros() as Word,
        11 => Word::from(x < y),
        _ => Word::from(x == y),
    }
}
