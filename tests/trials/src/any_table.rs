//! Tables of any terms that test 3 takes, over an opening: operators on what is no word, choices with constant guards or
//! equal sides, and whatever else no evaluation leaves.

use crate::made::Made;
use second::dice::{datum, record, Dice};
use second::{records, Input, Record, ResultOf, Session};
use std::collections::HashSet;

pub struct AnyTable {
    pub session: Session,
    pub table: Vec<u8>,
    truths: Vec<u16>,
    /// All terms but bindings.
    values: Vec<u16>,
    choices: Vec<u16>,
    bindings: Vec<u16>,
}

impl AnyTable {
    /// Any of its terms that 14 takes.
    pub fn result(&self, dice: &mut Dice) -> ResultOf {
        ResultOf {
            s: dice.pick(&self.truths),
            t: dice.pick(&self.truths),
            value: dice.pick(&self.values),
            halted: dice.below(8) == 0,
        }
    }
}

/// A table that has so many terms and no room for more, as if two rules had been accepted.
pub fn any_table(dice: &mut Dice, inputs: &[Input; 16], terms: usize) -> AnyTable {
    let mut any = AnyTable::open(inputs, terms);
    let mut there: HashSet<[u8; 8]> = records(&any.table).map(Record::to_bytes).collect();
    while usize::from(any.session.count) < terms {
        let term = any.term(dice);
        if there.insert(term.to_bytes()) {
            any.put(term);
        }
    }
    any
}

impl AnyTable {
    fn open(inputs: &[Input; 16], terms: usize) -> AnyTable {
        let Made { session, table } = Made::open(inputs, terms);
        let mut any = AnyTable {
            session: Session {
                count: 0,
                accepted: 2,
                ..session
            },
            table: vec![0; table.len()],
            truths: Vec::new(),
            values: Vec::new(),
            choices: Vec::new(),
            bindings: Vec::new(),
        };
        for term in records(&table).take(usize::from(session.count)) {
            any.put(term);
        }
        any
    }

    /// Writes a term behind the others, and notes what it may be an operand of.
    fn put(&mut self, term: Record) {
        let number = self.session.count;
        let at = 8 * usize::from(number);
        self.table[at..at + 8].copy_from_slice(&term.to_bytes());
        self.session.count += 1;
        match (term.kind, term.op) {
            (1 | 3, _) | (5, 11..) => self.truths.push(number),
            (6, _) => self.choices.push(number),
            _ => {}
        }
        match term.kind {
            8 => self.bindings.push(number),
            _ => self.values.push(number),
        }
    }

    /// A term over those that are there.
    fn term(&self, dice: &mut Dice) -> Record {
        let truth = |dice: &mut Dice| among(dice, &self.truths);
        let value = |dice: &mut Dice| among(dice, &self.values);
        match dice.below(12) {
            0 => word(dice),
            1..=4 => operator(dice, 1..=12, value),
            5 | 6 => operator(dice, 32..=34, truth),
            7 if !self.choices.is_empty() => {
                let op = dice.pick(&[14, 15, 35]);
                record(5, op, among(dice, &self.choices), 0, 0)
            }
            8 => {
                let (body, rule) = (dice.below(4_096) as u16, dice.below(2) as u16);
                record(7, 0, body, among(dice, &self.bindings), rule)
            }
            9 => {
                let next = [among(dice, &self.bindings), 65_535];
                record(8, 0, value(dice), dice.pick(&next), 0)
            }
            _ => record(6, 0, truth(dice), value(dice), value(dice)),
        }
    }
}

/// A word constant, which has its word in the fields of a datum's.
fn word(dice: &mut Dice) -> Record {
    let Record { a, b, .. } = datum(dice.word());
    record(2, 0, a, b, 0)
}

/// One of these codes, on one operand or two.
fn operator(
    dice: &mut Dice,
    codes: std::ops::RangeInclusive<u8>,
    operand: impl Fn(&mut Dice) -> u16,
) -> Record {
    let op = codes.start() + dice.below(codes.len() as u64) as u8;
    let (a, b) = (operand(dice), operand(dice));
    let one = matches!(op, 9 | 10 | 32);
    record(5, op, a, if one { 0 } else { b }, 0)
}

/// Any of them, or one of the newest, so that some terms stand on many others.
fn among(dice: &mut Dice, numbers: &[u16]) -> u16 {
    let newest = numbers.len().saturating_sub(4);
    match dice.below(2) {
        0 => dice.pick(numbers),
        _ => dice.pick(&numbers[newest..]),
    }
}
