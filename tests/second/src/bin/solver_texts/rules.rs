//! Random rules over inputs of few free bits. A writer that knows what to expect of a place errs less often.

use second::dice::{datum, record, rule, Dice};
use second::{Input, Record, Word};

const FREE_TRUTH: Input = Input { kind: 2, value: 0 };
const FREE_WORD: Input = Input { kind: 3, value: 0 };

/// What a place is likely to hold.
#[derive(Clone, Copy, PartialEq, Eq)]
enum Sort {
    Truth,
    Word,
    Procedure,
    Other,
}

/// Inputs, and a rule that reads some of them through a mask.
pub fn any_rule(dice: &mut Dice) -> ([Input; 16], Vec<u8>) {
    let mut inputs = [Input::default(); 16];
    for input in &mut inputs {
        *input = constant(dice);
    }
    let mut growth = Growth {
        dice,
        records: Vec::new(),
        scope: Vec::new(),
        inputs: Vec::new(),
    };
    let (masked, truths) = growth.dice.pick(&LAYOUTS);
    // free words, then their masks, then free truths: all but the words may be named anywhere
    for (at, &mask) in masked.iter().enumerate() {
        inputs[at] = FREE_WORD;
        inputs[masked.len() + at] = word(mask);
    }
    inputs[2 * masked.len()..][..truths].fill(FREE_TRUTH);
    growth.inputs = inputs.map(sort_of).to_vec();
    growth.masked(masked.len() as u16);
    (inputs, rule(&growth.records))
}

/// The masks of free words, and how many free truths there are.
const LAYOUTS: [(&[Word], usize); 8] = [
    (&[Word::MAX], 0),
    (&[0xff, 0x1f], 1),
    (&[0x3f, 0x3f], 0),
    (&[0x8421, 0x1f], 3),
    (&[0xf00f], 4),
    (&[0x7], 6),
    (&[0xf, 0xf, 0xf], 0),
    (&[], 9),
];

fn word(value: Word) -> Input {
    Input { kind: 1, value }
}

fn constant(dice: &mut Dice) -> Input {
    match dice.below(3) {
        0 => Input {
            kind: 0,
            value: dice.below(2) as Word,
        },
        1 => word(dice.below(20) as Word),
        _ => word(dice.word()),
    }
}

fn sort_of(input: Input) -> Sort {
    match input {
        Input { kind: 0 | 2, .. } => Sort::Truth,
        _ => Sort::Word,
    }
}

struct Growth<'a> {
    dice: &'a mut Dice,
    records: Vec<Record>,
    /// Of the bindings, the nearest last.
    scope: Vec<Sort>,
    inputs: Vec<Sort>,
}

impl Growth<'_> {
    /// Binds each of the first inputs under its mask; what comes then names none of them otherwise.
    fn masked(&mut self, words: u16) {
        for n in 0..words {
            let at = self.records.len() as u16;
            self.records.push(record(6, 0, at + 1, at + 2, 0));
            self.records.push(record(5, 4, 2 * n, n + words + n, 0));
            self.scope.push(Sort::Word);
        }
        self.inputs[..usize::from(words)].fill(Sort::Other);
        let lets = self.dice.below(7);
        self.chain(lets);
    }

    /// So many lets of something small, and under them something larger.
    fn chain(&mut self, lets: u64) {
        if lets == 0 {
            let size = self.dice.below(20) + 4;
            self.grow(size);
            return;
        }
        let number = self.records.len();
        self.records.push(record(0, 0, 0, 0, 0));
        let (first, sort) = match self.dice.below(3) {
            0 => self.grow(4),
            _ => self.small(),
        };
        let second = self.records.len() as u16;
        self.records[number] = record(6, 0, first, second, 0);
        self.scope.push(sort);
        self.chain(lets - 1);
    }

    /// An operator, or a test whose sides are operators or a procedure.
    fn small(&mut self) -> (u16, Sort) {
        let number = self.records.len();
        self.records.push(record(0, 0, 0, 0, 0));
        let (grown, sort) = match self.dice.below(8) {
            0 => {
                let test = self.place(Sort::Truth);
                let then = self.procedure(2);
                let (other, _) = self.grow(1);
                (record(7, 0, test, then, other), Sort::Procedure)
            }
            1 | 2 => {
                let test = self.place(Sort::Truth);
                let (then, sort) = self.grow(1);
                let (other, second) = self.grow(2);
                let sort = if sort == Sort::Other { second } else { sort };
                (record(7, 0, test, then, other), sort)
            }
            _ => self.operator(),
        };
        self.records[number] = grown;
        (number as u16, sort)
    }

    /// A place of a sort, or now and then any that may be named.
    fn place(&mut self, sort: Sort) -> u16 {
        let bindings = self.scope.len();
        let known = self.scope.iter().rev().chain(&self.inputs);
        let named = |at: usize| at < bindings || self.inputs[at - bindings] != Sort::Other;
        let places: Vec<(u16, Sort)> = (0..).zip(known.copied()).collect();
        let places = places.into_iter().filter(|&(at, _)| named(usize::from(at)));
        let (fitting, other): (Vec<_>, Vec<_>) = places.partition(|&(_, other)| other == sort);
        let any = self.dice.below(12) == 0 || fitting.is_empty();
        // bindings come first, and more often
        let list = if any && !other.is_empty() {
            other
        } else {
            fitting
        };
        let near = list.len().min(4);
        match self.dice.below(3) {
            0 => self.dice.pick(&list).0,
            _ => self.dice.pick(&list[..near]).0,
        }
    }

    /// The number of a new record, and what it is likely to give.
    fn grow(&mut self, size: u64) -> (u16, Sort) {
        let number = self.records.len();
        self.records.push(record(0, 0, 0, 0, 0));
        let (grown, sort) = match self.dice.below(if size > 1 { 18 } else { 8 }) {
            0 => (datum(self.dice.word()), Sort::Word),
            1 => (record(2, 0, self.place(Sort::Word), 0, 0), Sort::Word),
            2 => (
                record(8 + self.dice.below(2) as u8, 0, 0, 0, 0),
                Sort::Other,
            ),
            3 if self.scope.contains(&Sort::Procedure) => {
                let (p, q) = (self.place(Sort::Procedure), self.place(Sort::Word));
                (record(4, 0, p, q, 0), Sort::Word)
            }
            3..=7 => self.operator(),
            8 if self.dice.below(2) == 0 => {
                self.records.pop();
                return (self.procedure(size / 2), Sort::Procedure);
            }
            8..=13 => {
                let (first, sort) = self.grow(size / 2);
                self.scope.push(sort);
                let (second, sort) = self.grow(size - 1);
                self.scope.pop();
                (record(6, 0, first, second, 0), sort)
            }
            _ => {
                let test = self.place(Sort::Truth);
                let (then, sort) = self.branch(size);
                let (other, second) = self.branch(size);
                let sort = if sort == Sort::Other { second } else { sort };
                (record(7, 0, test, then, other), sort)
            }
        };
        self.records[number] = grown;
        (number as u16, sort)
    }

    /// A procedure of a word, whose body is not larger.
    fn procedure(&mut self, size: u64) -> u16 {
        let number = self.records.len() as u16;
        self.records.push(record(3, 0, number + 1, 0, 0));
        self.scope.push(Sort::Word);
        self.grow(size);
        self.scope.pop();
        number
    }

    /// Half of a test, which now and then stops.
    fn branch(&mut self, size: u64) -> (u16, Sort) {
        if self.dice.below(4) > 0 {
            return self.grow(size / 2);
        }
        let kind = self.dice.pick(&[8, 9]);
        self.records.push(record(kind, 0, 0, 0, 0));
        (self.records.len() as u16 - 1, Sort::Other)
    }

    fn operator(&mut self) -> (Record, Sort) {
        let op = self.dice.below(15) as u8 + 1;
        let of = match op {
            13 => Sort::Truth,
            14 | 15 => self.dice.pick(&[Sort::Word, Sort::Procedure]),
            _ => Sort::Word,
        };
        let p = self.place(of);
        let one = matches!(op, 9 | 10 | 13 | 14 | 15);
        let q = if one { 0 } else { self.place(of) };
        let sort = if op < 11 { Sort::Word } else { Sort::Truth };
        (record(5, op, p, q, 0), sort)
    }
}
