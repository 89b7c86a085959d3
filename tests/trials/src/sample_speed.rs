//! The times of one result read under many bales in one call, beside as many single readings and the second evaluator's
//! call, as rows of a table. A row says how many of the terms S, T and the value stand on: a call need read no others.

use crate::desk::{self, Place};
use crate::grown::{grown, Grown};
use crate::rules::guarded_update;
use crate::speed::{in_turn_inputs, least_of, nested_inputs, nested_updates, TABLE};
use crate::stood_on::stood_on;
use second::dice::Dice;
use second::{read_all, records, Input, Record, ResultOf, Session, Word};
use std::hint::black_box;

const SAMPLES: usize = 500;
/// About how many terms the tables have, and in how many turns a call is timed.
const SIZES: [(u16, usize); 3] = [(200, 100), (1_000, 50), (8_000, 10)];

pub fn run() {
    println!("{SAMPLES} bales in one call, by single readings, and by the second evaluator:\n");
    println!(
        "| rules | terms | stood on | table, bytes | one call, ms | single readings, ms | ratio | second evaluator, ms | ratio |"
    );
    println!("|---|---|---|---|---|---|---|---|---|");
    for (terms, turns) in SIZES {
        for (what, cases) in [
            ("updates in turn", vec![in_turn(terms)]),
            ("nested updates", vec![nested(terms)]),
            ("random rules, mean of 4 sessions", random(terms)),
        ] {
            compare(what, turns, &cases);
            // a caller who lends the longest table pays for its tail in every single reading
            if terms <= 1_000 {
                let long: Vec<Case> = cases.iter().map(Case::over_the_longest).collect();
                compare(what, turns, &long);
            }
        }
    }
}

/// A session over a table that is no longer than its terms, the result of its last accepted rule, and samples.
#[derive(Clone)]
struct Case {
    session: Session,
    form: Vec<u8>,
    table: Vec<u8>,
    result: ResultOf,
    result_form: Vec<u8>,
    numbers: Vec<Word>,
    /// The same, as a single reading takes them.
    singles: Vec<Vec<u8>>,
}

/// Guarded updates, rule after rule.
fn in_turn(terms: u16) -> Case {
    let rules = (3..).map(guarded_update);
    Case::grown(&in_turn_inputs(), terms, rules)
}

/// Guarded updates inside one another, of which each makes 22 terms; a rule has at most 120, for its depth.
fn nested(terms: u16) -> Case {
    let updates = terms.saturating_sub(34) / 22;
    let rules = updates.div_ceil(120);
    let each = updates / rules;
    let rules = (0..rules).map(|rule| nested_updates(3 + rule * each, each));
    Case::grown(&nested_inputs(), terms, rules)
}

/// Random rules in turn that make some terms each, in sessions that none of them halts.
fn random(terms: u16) -> Vec<Case> {
    let mut dice = Dice(0xba1e5);
    let session = |dice: &mut Dice| {
        let inputs = dice.inputs();
        Case::grown(&inputs, terms, std::iter::repeat_with(|| dice.rule(120)))
    };
    std::iter::repeat_with(|| session(&mut dice))
        .take(4)
        .collect()
}

impl Case {
    fn grown(inputs: &[Input; 16], terms: u16, rules: impl Iterator<Item = Vec<u8>>) -> Case {
        let Grown {
            session,
            table,
            result,
        } = grown(inputs, terms, rules);
        Case::new(session, table, result)
    }

    fn new(session: Session, table: Vec<u8>, result: ResultOf) -> Case {
        let numbers = Dice(0xba1e).samples(&session.inputs, SAMPLES);
        let singles = numbers.as_chunks().0.iter().map(desk::numbers_bytes);
        Case {
            form: desk::session_bytes(&session),
            result_form: desk::result_bytes(&result),
            singles: singles.collect(),
            session,
            table,
            result,
            numbers,
        }
    }

    fn over_the_longest(&self) -> Case {
        let mut case = self.clone();
        case.table.resize(TABLE, 0);
        case
    }

    fn count(&self) -> usize {
        usize::from(self.session.count)
    }

    /// How many terms S, T and the value stand on, these three included.
    fn stood_on(&self) -> usize {
        let terms: Vec<Record> = records(&self.table).take(self.count()).collect();
        let stood_on = stood_on(&terms, &self.result);
        stood_on.into_iter().filter(|&on| on).count()
    }

    fn at_a_stroke(&self, work: &mut [Place], answers: &mut [Place]) {
        let refusal = desk::read_all(
            &self.form,
            &self.table,
            &self.result_form,
            &self.numbers,
            &mut work[..self.count()],
            answers,
        );
        assert_eq!(refusal, 0);
    }

    fn one_by_one(&self, work: &mut [Place]) {
        for numbers in &self.singles {
            let refusal = desk::read(
                &self.form,
                &self.table,
                numbers,
                &self.result_form,
                &mut work[..self.count()],
                black_box(&mut [0; desk::READING]),
            );
            assert_eq!(refusal, 0);
        }
    }

    fn second(&self) {
        let Case {
            session,
            table,
            result,
            numbers,
            ..
        } = self;
        let answers = read_all(session, table, result, numbers, self.count(), SAMPLES);
        assert!(black_box(answers).is_ok());
    }
}

/// The times for one session's samples, in the mean.
fn compare(what: &str, turns: usize, cases: &[Case]) {
    let longest = cases.iter().map(Case::count).max().unwrap_or(0);
    let lists: (Vec<Place>, Vec<Place>) = (vec![0; longest], vec![0; SAMPLES]);
    let [ours, singles, second] = least_of(
        turns,
        cases.len(),
        &lists,
        [
            &mut |(work, answers)| {
                cases
                    .iter()
                    .for_each(|case| case.at_a_stroke(work, answers))
            },
            &mut |(work, _)| cases.iter().for_each(|case| case.one_by_one(work)),
            &mut |_| cases.iter().for_each(Case::second),
        ],
    );
    let mean = |of: fn(&Case) -> usize| cases.iter().map(of).sum::<usize>() / cases.len();
    let (terms, stood_on) = (mean(Case::count), mean(Case::stood_on));
    let bytes = mean(|case| case.table.len());
    let (to_singles, to_second) = (ours / singles, ours / second);
    println!(
        "| {what} | {terms} | {stood_on} | {bytes} | {ours:.3} | {singles:.3} | {to_singles:.2} | {second:.3} | {to_second:.2} |"
    );
}
