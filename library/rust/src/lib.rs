//! The desk for Rust: a session over a table, the rules that are evaluated in it, the readings of their results under
//! sixteen numbers and under those of many bales at a stroke, what they can be within spans, clauses for a solver, the first
//! numbers that bring about a reading, and plain runs. A shift by the width of a word or more gives 0 wherever it is worked out,
//! read or run. Byte forms stay inside; `exports` has the functions over them.

pub mod exports;
pub mod forms;

use forms::{Place, Word, ANSWER, ASSERTED, COUNT, INPUT};
use forms::{READING, REPORT, SAMPLE, SESSION, WITNESS, WORD};

/// The refusal of a text that is longer than the lent buffer.
const TEXT_LONG: u8 = 18;

/// The variables that a term owns: two for its kind, then its bits.
const VARIABLES: u64 = Word::BITS as u64 + 2;

/// The kinds of the terms of free inputs.
const FREE_TRUTH_TERM: u16 = 3;
const FREE_WORD_TERM: u16 = 4;

/// An input of a session.
#[derive(Clone, Copy, Debug, PartialEq, Eq)]
pub enum Input {
    ConstantTruth(bool),
    ConstantWord(Word),
    FreeTruth,
    FreeWord,
}

/// Refused, by the number of document 01 or 02. It is never 255, the library's own for a form of another length: every
/// form is lent with its length.
#[derive(Clone, Copy, Debug, PartialEq, Eq)]
pub struct Refusal(pub u8);

/// What evaluating a rule gave: S, T and the value are numbers of terms, and the depth is the smallest allowance that
/// gives this.
#[derive(Clone, Copy, Debug, PartialEq, Eq)]
pub enum Answer {
    Out {
        assumed: u16,
        asserted: u16,
        value: u16,
        depth: u16,
    },
    Halt {
        assumed: u16,
        asserted: u16,
        depth: u16,
    },
}

/// What a result reads as, or a rule comes to; a procedure is told by its record's number.
#[derive(Clone, Copy, Debug, PartialEq, Eq)]
pub enum Reading {
    Truth(bool),
    Word(Word),
    Procedure(Word),
    Abort,
    Error,
}

/// What is asked of a reading: that it is an error, an abort, or this word.
#[derive(Clone, Copy, Debug, PartialEq, Eq)]
pub enum Goal {
    Errs,
    Aborts,
    Gives(Word),
}

/// What a term may read as while every free word lies in its span: truths, a word from low to high, or, where its kind is
/// open, anything.
#[derive(Clone, Copy, Debug, PartialEq, Eq)]
pub enum Report {
    Open,
    Truth {
        may_be_false: bool,
        may_be_true: bool,
    },
    Word {
        low: Word,
        high: Word,
    },
}

/// A session and its table.
#[derive(Clone, Debug, PartialEq, Eq)]
pub struct Desk {
    session: [u8; SESSION],
    table: Vec<u8>,
}

impl Desk {
    /// Opens a session over a table of so many bytes.
    pub fn open(inputs: &[Input; 16], table_bytes: usize) -> Result<Desk, Refusal> {
        let (mut session, mut table) = ([0; SESSION], vec![0; table_bytes]);
        accepted(exports::open(
            &inputs_bytes(inputs),
            &mut table,
            &mut session,
        ))?;
        Ok(Desk { session, table })
    }

    /// Evaluates a rule; a refused one changes nothing.
    pub fn evaluate(&mut self, rule: &[u8], allowance: u16) -> Result<Answer, Refusal> {
        let mut form = [0; ANSWER];
        accepted(exports::evaluate(
            &mut self.session,
            &mut self.table,
            rule,
            allowance,
            &mut form,
        ))?;
        let [assumed, asserted, value, halted, depth] = [0, 2, 4, 6, 8].map(|at| two(&form, at));
        Ok(if halted == 1 {
            Answer::Halt {
                assumed,
                asserted,
                depth,
            }
        } else {
            Answer::Out {
                assumed,
                asserted,
                value,
                depth,
            }
        })
    }

    /// Reads an answer under sixteen numbers.
    pub fn read(&self, answer: Answer, numbers: &[Word; 16]) -> Result<Reading, Refusal> {
        let mut work = vec![0; usize::from(self.count())];
        let mut form = [0; READING];
        accepted(exports::read(
            &self.session,
            &self.table,
            &words(numbers),
            &result_bytes(answer),
            &mut work,
            &mut form,
        ))?;
        Ok(reading(form))
    }

    /// Reads an answer under many bales in one call, with a sample for each. In the bales' order, each gets just what `read`
    /// gives under its numbers: a bale that 13 refuses has its `Err` in the list and stops no other one. The table is tested
    /// once for all of them.
    pub fn read_all(
        &self,
        answer: Answer,
        samples: &[[Word; SAMPLE]],
    ) -> Result<Vec<Result<Reading, Refusal>>, Refusal> {
        let mut work = vec![0; usize::from(self.count())];
        let mut answers = vec![0; samples.len()];
        accepted(exports::read_all(
            &self.session,
            &self.table,
            &result_bytes(answer),
            samples.as_flattened(),
            &mut work,
            &mut answers,
        ))?;
        Ok(answers.into_iter().map(sample_reading).collect())
    }

    /// A report for each term, given the least and the most that each free word, a moisture head, can be; the lows and highs
    /// of other inputs are ignored. A low above its high is refused by 17.
    pub fn spans(&self, lows: &[Word; 16], highs: &[Word; 16]) -> Result<Vec<Report>, Refusal> {
        let mut list = vec![0; REPORT * usize::from(self.count())];
        accepted(exports::spans(
            &self.session,
            &self.table,
            &words(lows),
            &words(highs),
            &mut list,
        ))?;
        Ok(list.chunks_exact(REPORT).map(report).collect())
    }

    /// Whether the gin may be told that no reading within these spans errs: that under no numbers within them does reading
    /// the last accepted answer give an error, nor does running the accepted rules in turn. A desk keeps its session from
    /// the opening on, so that this follows where the report of T can only be true (theorem no_reading_errs in
    /// `include/desk.h`). Where it gives false, a reading may err, but none need to.
    pub fn never_errs(&self, lows: &[Word; 16], highs: &[Word; 16]) -> Result<bool, Refusal> {
        let reports = self.spans(lows, highs)?;
        let asserted = usize::from(two(&self.session, ASSERTED));
        let only_true = Report::Truth {
            may_be_false: false,
            may_be_true: true,
        };
        Ok(reports[asserted] == only_true)
    }

    /// Clauses that can be satisfied exactly where some sixteen numbers make reading an answer reach the goal, as DIMACS CNF
    /// text for a solver. The numbers that a solver's model stands for are `numbers_of`. Where the clauses for `Goal::Errs` of
    /// the last accepted answer can't be satisfied, no run of the accepted rules errs (theorem unsatisfied_never_errs in
    /// `include/desk.h`).
    pub fn clauses(&self, answer: Answer, goal: Goal) -> Result<String, Refusal> {
        let (result, goal) = (result_bytes(answer), goal_bytes(goal));
        let write = |text: &mut [u8]| {
            let mut length = [0];
            let refusal = exports::clauses(
                &self.session,
                &self.table,
                &result,
                &goal,
                text,
                &mut length,
            );
            (refusal, length[0] as usize)
        };
        // no text is empty, so that an empty buffer is told how long this one is
        let mut text = match write(&mut []) {
            (TEXT_LONG, length) => vec![0; length],
            (refusal, _) => return Err(Refusal(refusal)),
        };
        accepted(write(&mut text).0)?;
        Ok(String::from_utf8(text).expect("the text is ASCII"))
    }

    /// The sixteen numbers that the variables of a model stand for, where `holds` tells which of them are true: those of the
    /// free inputs' terms, and 0 for a constant input.
    pub fn numbers_of(&self, holds: impl Fn(u64) -> bool) -> [Word; SAMPLE] {
        let mut numbers = [0; SAMPLE];
        for i in 0..self.count() {
            let [kind, _, input, ..] = self.term(i).expect("a term below the count");
            if kind == FREE_TRUTH_TERM || kind == FREE_WORD_TERM {
                let first = u64::from(i) * VARIABLES + 3;
                let bit = |k: u32| Word::from(holds(first + u64::from(k))) << k;
                numbers[usize::from(input)] = (0..Word::BITS).map(bit).sum();
            }
        }
        numbers
    }

    /// The first sixteen numbers under which reading an answer reaches the goal, comparing inputs from 0 up as plain numbers, or
    /// nothing where no numbers do; a constant input has the number 0. With more than 24 free bits (a truth is one, a word
    /// sixteen) it is refused by 19. Where there is nothing for `Goal::Errs` of the last accepted answer, no run of the accepted
    /// rules errs (theorem none_never_errs in `include/desk.h`).
    pub fn witness(&self, answer: Answer, goal: Goal) -> Result<Option<[Word; SAMPLE]>, Refusal> {
        self.first(answer, goal, &[], &[])
    }

    /// The same of numbers within spans: the least and the most that each free word can be, as `spans` takes them. A low above
    /// its high is refused by 17. Spans do not lower the count of free bits.
    pub fn witness_within(
        &self,
        answer: Answer,
        goal: Goal,
        lows: &[Word; 16],
        highs: &[Word; 16],
    ) -> Result<Option<[Word; SAMPLE]>, Refusal> {
        self.first(answer, goal, &words(lows), &words(highs))
    }

    /// No lows and no highs are no spans.
    fn first(
        &self,
        answer: Answer,
        goal: Goal,
        lows: &[u8],
        highs: &[u8],
    ) -> Result<Option<[Word; SAMPLE]>, Refusal> {
        let mut work = vec![0; usize::from(self.count())];
        let mut form = [0; WITNESS];
        accepted(exports::witness(
            &self.session,
            &self.table,
            &result_bytes(answer),
            &goal_bytes(goal),
            lows,
            highs,
            &mut work,
            &mut form,
        ))?;
        let numbers = std::array::from_fn(|i| word(&form[WORD * (i + 1)..]));
        Ok((form[0] == 1).then_some(numbers))
    }

    /// How many terms the table holds.
    pub fn count(&self) -> u16 {
        two(&self.session, COUNT)
    }

    /// Term i: kind, op, a, b, c; nothing where there is none.
    pub fn term(&self, i: u16) -> Option<[u16; 5]> {
        if i >= self.count() {
            return None;
        }
        let record = &self.table[8 * usize::from(i)..];
        let [kind, op] = [record[0], record[1]].map(u16::from);
        Some([kind, op, two(record, 2), two(record, 4), two(record, 6)])
    }
}

/// The first of the tests of a rule alone that refuses it.
pub fn test_rule(rule: &[u8]) -> Result<(), Refusal> {
    accepted(exports::rule_refusal(rule))
}

/// How often the test of a rule's tree and places takes up a record: at most once for each. It is 0 where the rule's length
/// or a record alone is refused before that (4 and 5), and less than all only where the tree is bad (6).
pub fn rule_turns(rule: &[u8]) -> u16 {
    exports::rule_turns(rule)
}

/// Runs a rule plainly under sixteen numbers, with a store of so many places.
pub fn run(
    inputs: &[Input; 16],
    numbers: &[Word; 16],
    rule: &[u8],
    allowance: u16,
    places: usize,
) -> Result<Reading, Refusal> {
    let (mut store, mut form) = (vec![0; 8 * places], [0; READING]);
    accepted(exports::run(
        &inputs_bytes(inputs),
        &words(numbers),
        rule,
        allowance,
        &mut store,
        &mut form,
    ))?;
    Ok(reading(form))
}

fn accepted(answer: u8) -> Result<(), Refusal> {
    match answer {
        0 => Ok(()),
        refusal => Err(Refusal(refusal)),
    }
}

fn inputs_bytes(inputs: &[Input; 16]) -> Vec<u8> {
    let mut bytes = Vec::new();
    for input in inputs {
        let (kind, value) = match *input {
            Input::ConstantTruth(truth) => (0, Word::from(truth)),
            Input::ConstantWord(word) => (1, word),
            Input::FreeTruth => (2, 0),
            Input::FreeWord => (3, 0),
        };
        let mut form = [0; INPUT];
        form[0] = kind;
        form[WORD..].copy_from_slice(&value.to_le_bytes());
        bytes.extend(form);
    }
    bytes
}

/// What an answer says without its depth.
fn result_bytes(answer: Answer) -> Vec<u8> {
    let (assumed, asserted, value, halted) = match answer {
        Answer::Out {
            assumed,
            asserted,
            value,
            ..
        } => (assumed, asserted, value, 0),
        Answer::Halt {
            assumed, asserted, ..
        } => (assumed, asserted, 0, 1),
    };
    pairs(&[assumed, asserted, value, halted])
}

/// A goal has the form of the reading that it asks for.
fn goal_bytes(goal: Goal) -> Vec<u8> {
    words(&match goal {
        Goal::Gives(word) => [2, word],
        Goal::Aborts => [8, 0],
        Goal::Errs => [9, 0],
    })
}

fn pairs(numbers: &[u16]) -> Vec<u8> {
    numbers.iter().flat_map(|n| n.to_le_bytes()).collect()
}

fn words(numbers: &[Word]) -> Vec<u8> {
    numbers.iter().flat_map(|n| n.to_le_bytes()).collect()
}

fn two(bytes: &[u8], at: usize) -> u16 {
    u16::from_le_bytes([bytes[at], bytes[at + 1]])
}

/// The word that the bytes begin with.
fn word(bytes: &[u8]) -> Word {
    let mut word = [0; WORD];
    word.copy_from_slice(&bytes[..WORD]);
    Word::from_le_bytes(word)
}

fn reading(form: [u8; READING]) -> Reading {
    reading_of(Place::from(form[0]), word(&form[WORD..]))
}

/// A sample's answer has the kind above the bits of a word; no kind is 0, which is left to a refused sample.
fn sample_reading(answer: Place) -> Result<Reading, Refusal> {
    let (kind, number) = (answer >> Word::BITS, answer as Word);
    match kind {
        0 => Err(Refusal(number as u8)),
        _ => Ok(reading_of(kind, number)),
    }
}

fn reading_of(kind: Place, number: Word) -> Reading {
    match kind {
        1 => Reading::Truth(number == 1),
        2 => Reading::Word(number),
        7 => Reading::Procedure(number),
        8 => Reading::Abort,
        _ => Reading::Error,
    }
}

fn report(numbers: &[u32]) -> Report {
    let (low, high) = (numbers[1], numbers[2]);
    match numbers[0] {
        1 => Report::Truth {
            may_be_false: low == 0,
            may_be_true: high == 1,
        },
        2 => Report::Word {
            low: low as Word,
            high: high as Word,
        },
        _ => Report::Open,
    }
}
