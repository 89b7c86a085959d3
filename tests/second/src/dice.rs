//! Rules, inputs and numbers at random, from a fixed seed.

use crate::records::Record;
use crate::session::Input;
use crate::spans::Spans;
use crate::words::{halves, Word, WIDTH};

pub fn record(kind: u8, op: u8, a: u16, b: u16, c: u16) -> Record {
    Record { kind, op, a, b, c }
}

/// A word's record.
pub fn datum(word: Word) -> Record {
    let (low, high) = halves(word);
    record(1, 2, low, high, 0)
}

pub fn rule(records: &[Record]) -> Vec<u8> {
    records
        .iter()
        .flat_map(|record| record.to_bytes())
        .collect()
}

/// Xorshift; the seed must not be zero.
pub struct Dice(pub u64);

impl Dice {
    fn next(&mut self) -> u64 {
        self.0 ^= self.0 << 13;
        self.0 ^= self.0 >> 7;
        self.0 ^= self.0 << 17;
        self.0
    }

    pub fn below(&mut self, bound: u64) -> u64 {
        (self.next() >> 11) % bound
    }

    pub fn pick<T: Copy>(&mut self, items: &[T]) -> T {
        items[self.below(items.len() as u64) as usize]
    }

    pub fn word(&mut self) -> Word {
        match self.below(3) {
            0 => self.below(1 << Word::BITS) as Word,
            _ => self.pick(&[
                0,
                1,
                2,
                3,
                WIDTH - 1,
                WIDTH,
                WIDTH + 1,
                1 << (WIDTH - 1),
                Word::MAX,
            ]),
        }
    }

    fn input(&mut self) -> Input {
        match self.below(4) {
            0 => Input {
                kind: 0,
                value: self.below(2) as Word,
            },
            1 => Input {
                kind: 1,
                value: self.word(),
            },
            2 => Input { kind: 2, value: 0 },
            _ => Input { kind: 3, value: 0 },
        }
    }

    /// Inputs that opening takes.
    pub fn inputs(&mut self) -> [Input; 16] {
        std::array::from_fn(|_| self.input())
    }

    /// Inputs of which a few are not taken.
    pub fn any_inputs(&mut self) -> [Input; 16] {
        let mut inputs = self.inputs();
        if self.below(4) == 0 {
            let at = self.below(16) as usize;
            inputs[at] = Input {
                kind: self.below(6) as u8,
                value: self.word(),
            };
        }
        inputs
    }

    /// Numbers that 13 lets pass.
    pub fn numbers(&mut self, inputs: &[Input; 16]) -> [Word; 16] {
        self.numbers_below(2, inputs)
    }

    /// Numbers of which a few are over 1 for a free truth.
    pub fn any_numbers(&mut self, inputs: &[Input; 16]) -> [Word; 16] {
        let bound = if self.below(10) == 0 { 3 } else { 2 };
        self.numbers_below(bound, inputs)
    }

    fn numbers_below(&mut self, bound: u64, inputs: &[Input; 16]) -> [Word; 16] {
        std::array::from_fn(|i| match inputs[i].kind {
            2 => self.below(bound) as Word,
            _ => self.word(),
        })
    }

    /// The numbers of so many samples in turn, all of which 13 lets pass.
    pub fn samples(&mut self, inputs: &[Input; 16], count: usize) -> Vec<Word> {
        (0..count).flat_map(|_| self.numbers(inputs)).collect()
    }

    /// The numbers of so many samples in turn, of which a few are refused by 13.
    pub fn any_samples(&mut self, inputs: &[Input; 16], count: usize) -> Vec<Word> {
        (0..count).flat_map(|_| self.any_numbers(inputs)).collect()
    }

    /// Lows and highs that 17 lets pass: those of an input that is no free word are any.
    pub fn spans(&mut self, inputs: &[Input; 16]) -> Spans {
        let widest = self.pick(&[0, 1, 8, 300, u64::from(Word::MAX)]);
        let mut spans = Spans {
            lows: std::array::from_fn(|_| self.word()),
            highs: std::array::from_fn(|_| self.word()),
        };
        for at in (0..16).filter(|&at| inputs[at].kind == 3) {
            let width = self.below(widest + 1) as Word;
            spans.highs[at] = spans.lows[at].saturating_add(width);
        }
        spans
    }

    /// Lows and highs of which a few are refused by 17.
    pub fn any_spans(&mut self, inputs: &[Input; 16]) -> Spans {
        let mut spans = self.spans(inputs);
        if self.below(10) == 0 {
            let at = self.below(16) as usize;
            spans.lows[at] = spans.highs[at].saturating_add(1);
        }
        spans
    }

    /// Numbers that 13 lets pass, each free word's in its span and often at an end of it.
    pub fn numbers_in(&mut self, inputs: &[Input; 16], spans: &Spans) -> [Word; 16] {
        let any = self.numbers(inputs);
        std::array::from_fn(|at| match inputs[at].kind {
            3 => self.word_in(spans.lows[at], spans.highs[at]),
            _ => any[at],
        })
    }

    fn word_in(&mut self, low: Word, high: Word) -> Word {
        let within = low + self.below(u64::from(high - low) + 1) as Word;
        self.pick(&[low, high, within])
    }

    fn place(&mut self, bindings: u16) -> u16 {
        match self.below(4) {
            0 => self.below(u64::from(bindings) + 16) as u16,
            _ => self.below(u64::from(bindings).min(3) + 2) as u16,
        }
    }

    /// A rule that passes tests 4 to 7.
    pub fn rule(&mut self, size: u64) -> Vec<u8> {
        let mut records = Vec::new();
        self.grow(&mut records, 0, size);
        rule(&records)
    }

    fn grow(&mut self, records: &mut Vec<Record>, bindings: u16, size: u64) -> u16 {
        let number = records.len();
        let (p, q) = (self.place(bindings), self.place(bindings));
        records.push(record(2, 0, p, 0, 0));
        let grown = match self.below(if size > 1 { 14 } else { 6 }) {
            0 => record(1, self.below(2) as u8, 0, 0, 0),
            1 => datum(self.word()),
            2 => record(2, 0, p, 0, 0),
            3 => self.operator(p, q),
            4 => record(4, 0, p, q, 0),
            5 if self.below(4) == 0 => record(8 + self.below(2) as u8, 0, 0, 0, 0),
            5 => self.operator(p, q),
            6 | 7 => record(3, 0, self.grow(records, bindings + 1, size - 1), 0, 0),
            8..=10 => {
                let half = self.below(size) + 1;
                let first = self.grow(records, bindings, half.min(size - 1));
                let second = self.grow(records, bindings + 1, size - 1);
                record(6, 0, first, second, 0)
            }
            _ => {
                let then = self.grow(records, bindings, size / 2);
                let other = self.grow(records, bindings, size / 2);
                record(7, 0, p, then, other)
            }
        };
        records[number] = grown;
        number as u16
    }

    fn operator(&mut self, p: u16, q: u16) -> Record {
        let op = self.below(15) as u8 + 1;
        let one = matches!(op, 9 | 10 | 13 | 14 | 15);
        record(5, op, p, if one { 0 } else { q }, 0)
    }

    /// Bytes of any length and kind, with a leaning to what a rule has.
    pub fn bytes(&mut self) -> Vec<u8> {
        let length = match self.below(3) {
            0 => self.below(100),
            _ => 8 * self.below(12),
        };
        (0..length)
            .map(|_| self.pick(&[0, 0, 0, 0, 1, 2, 3, 4, 5, 6, 7, 8, 9, 255]))
            .collect()
    }
}
