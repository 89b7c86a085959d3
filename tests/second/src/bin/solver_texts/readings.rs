//! What all readings of a result give.

use second::{read_all, records, Goal, Input, Outcome, Record, ResultOf, Session, Word};
use std::collections::BTreeSet;

/// A bit of an input.
type Bit = (usize, u32);

/// Readings in one call.
const SAMPLES: usize = 4_096;

/// Every outcome that some reading has, but for truths and procedures.
#[derive(Default)]
pub struct Reached {
    pub errs: bool,
    pub aborts: bool,
    pub words: BTreeSet<Word>,
}

impl Reached {
    pub fn reaches(&self, goal: Goal) -> bool {
        match goal {
            Goal::Errs => self.errs,
            Goal::Aborts => self.aborts,
            Goal::Gives(word) => self.words.contains(&word),
        }
    }

    /// Nothing where more bits than these can make a difference.
    pub fn by_all(
        session: &Session,
        table: &[u8],
        result: &ResultOf,
        most_bits: usize,
    ) -> Option<Reached> {
        let bits = bits_that_count(session, table, result);
        if bits.len() > most_bits {
            return None;
        }
        let mut reached = Reached::default();
        let all: Vec<usize> = (0..1 << bits.len()).collect();
        for part in all.chunks(SAMPLES) {
            let numbers: Vec<Word> = part.iter().flat_map(|&n| sample(&bits, n)).collect();
            let work = usize::from(session.count);
            let outcomes = read_all(session, table, result, &numbers, work, part.len());
            for outcome in outcomes.ok()? {
                reached.add(outcome);
            }
        }
        Some(reached)
    }

    fn add(&mut self, outcome: Outcome) {
        match outcome {
            Outcome::Error => self.errs = true,
            Outcome::Abort => self.aborts = true,
            Outcome::Word(word) => {
                self.words.insert(word);
            }
            Outcome::Truth(_) | Outcome::Procedure(_) => {}
            Outcome::Refused(refusal) => panic!("a reading was refused by {refusal}"),
        }
    }
}

/// The sixteen numbers that have these bits as those of a number.
fn sample(bits: &[Bit], number: usize) -> [Word; 16] {
    let mut numbers = [0; 16];
    for (at, &(input, bit)) in bits.iter().enumerate() {
        numbers[input] |= ((number >> at & 1) as Word) << bit;
    }
    numbers
}

/// The bits of free inputs on which S, T and the value can depend: of a word that is only met under a mask those of the mask.
pub fn bits_that_count(session: &Session, table: &[u8], result: &ResultOf) -> Vec<Bit> {
    let terms: Vec<Record> = records(table).take(usize::from(session.count)).collect();
    let mut masks = [0; 16];
    for number in under(&terms, result) {
        let term = terms[number];
        match term.kind {
            3 => masks[usize::from(term.a)] = 1,
            4 => masks[usize::from(term.a)] = Word::MAX,
            _ => {}
        }
        if let Some((head, mask)) = masked(&terms, term) {
            masks[usize::from(head.a)] |= mask;
        }
    }
    let free = |&(at, _): &(usize, &Input)| session.inputs[at].kind >= 2;
    let inputs = session.inputs.iter().enumerate().filter(free);
    let bits = inputs.flat_map(|(at, _)| (0..Word::BITS).map(move |bit| (at, bit)));
    bits.filter(|&(at, bit)| masks[at] >> bit & 1 == 1)
        .collect()
}

/// The terms that S, T and the value stand on, a free word under a mask left out; the highest first.
pub fn under(terms: &[Record], result: &ResultOf) -> Vec<usize> {
    let mut marked = vec![false; terms.len()];
    for number in roots(result) {
        marked[usize::from(number)] = true;
    }
    // a term names only lower ones
    for number in (0..terms.len()).rev() {
        if marked[number] {
            for operand in operands(terms, terms[number]) {
                marked[usize::from(operand)] = true;
            }
        }
    }
    let numbers = (0..terms.len()).rev();
    numbers.filter(|&number| marked[number]).collect()
}

fn roots(result: &ResultOf) -> Vec<u16> {
    let mut roots = vec![result.s, result.t];
    if !result.halted {
        roots.push(result.value);
    }
    roots
}

/// The terms whose readings make a term's own. A procedure reads as its record.
fn operands(terms: &[Record], term: Record) -> Vec<u16> {
    match term.kind {
        5 if masked(terms, term).is_some() => vec![],
        5 if matches!(term.op, 9 | 10 | 14 | 15 | 32 | 35) => vec![term.a],
        5 => vec![term.a, term.b],
        6 => vec![term.a, term.b, term.c],
        _ => vec![],
    }
}

/// The free word of a bitwise and with a constant, and that constant.
fn masked(terms: &[Record], term: Record) -> Option<(Record, Word)> {
    if (term.kind, term.op) != (5, 4) {
        return None;
    }
    let [a, b] = [term.a, term.b].map(|operand| terms[usize::from(operand)]);
    match (a.kind, b.kind) {
        (4, 2) => Some((a, word(b))),
        (2, 4) => Some((b, word(a))),
        _ => None,
    }
}

/// A word constant's word.
fn word(term: Record) -> Word {
    (u64::from(term.b) << 16 | u64::from(term.a)) as Word
}
