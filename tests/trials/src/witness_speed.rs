//! The times of searches for a witness beside those of the second evaluator, which reads the result under every reading in
//! turn, as rows of a table. A row says how many terms there are, how many the result stands on, how many bits are free, and what
//! the desk's search visits.

use crate::desk;
use crate::speed::least_of;
use crate::stood_on::stood_on;
use crate::witness_boxes::{visited, Visited};
use crate::witness_cases::{others, thresholds, unpruned, Case};
use second::{records, witness, Goal, Record, ResultOf, Spans, Word};
use std::hint::black_box;

/// A plain search that would take longer, in milliseconds, is timed on so many of its readings.
const LONGEST: f64 = 60_000.0;
const PART: u64 = 1 << 16;

/// Works that are over in so many milliseconds are timed in so many turns, others in one.
const SHORT: f64 = 200.0;
const TURNS: usize = 20;

pub fn run() {
    println!(
        "| rule, goal | terms | stood on | free bits | boxes | asked | readings | desk, ms | plain search, ms | ratio |"
    );
    println!("|---|---|---|---|---|---|---|---|---|---|");
    for case in [thresholds(), others(), unpruned()].into_iter().flatten() {
        row(&case);
    }
}

fn row(case: &Case) {
    let Case {
        what,
        session,
        table,
        result,
        goal,
    } = case;
    let found = case.desk();
    let Visited {
        boxes,
        asked,
        readings,
    } = visited(session, table, result, *goal, found);
    let ours = least(|| {
        black_box(case.desk());
    });
    let (plain, part) = case.plain_time(found);
    let told = if part { " (of 65,536 readings)" } else { "" };
    let terms: Vec<Record> = records(table).take(usize::from(session.count)).collect();
    let stood_on = stood_on(&terms, result);
    let stood_on = stood_on.into_iter().filter(|&on| on).count();
    let (terms, bits, ratio) = (terms.len(), case.free_bits(), ours / plain);
    println!(
        "| {what} | {terms} | {stood_on} | {bits} | {boxes} | {asked} | {readings} | {ours:.4} | {plain:.1}{told} | {ratio:.6} |"
    );
}

impl Case {
    /// What the desk finds.
    fn desk(&self) -> Option<[Word; 16]> {
        let mut form = desk::UNFOUND;
        let refusal = desk::witness(
            &desk::session_bytes(&self.session),
            &self.table,
            &desk::result_bytes(&self.result),
            &desk::goal_bytes(self.goal),
            &[],
            &[],
            &mut vec![0; usize::from(self.session.count)],
            &mut form,
        );
        assert_eq!(refusal, 0);
        desk::witness_numbers(&form)
    }

    /// The time of the plain search, and whether it is that of a part times what the whole has more readings.
    fn plain_time(&self, found: Option<[Word; 16]>) -> (f64, bool) {
        let part = least(|| self.read_a_part());
        let whole = part * self.readings(found) as f64 / PART as f64;
        if whole > LONGEST {
            return (whole, true);
        }
        let whole = least(|| {
            let theirs = self.second(&self.result, self.goal, None);
            assert_eq!(theirs, found);
        });
        (whole, false)
    }

    fn second(&self, result: &ResultOf, goal: Goal, given: Option<&Spans>) -> Option<[Word; 16]> {
        let work = usize::from(self.session.count);
        let found = witness(&self.session, &self.table, result, goal, given, work);
        black_box(found).expect("a search")
    }

    /// The free word's low end; of a halt, which gives no word, every reading is read.
    fn read_a_part(&self) {
        let halt = ResultOf {
            halted: true,
            ..self.result
        };
        let truths = self.free_bits() - Word::BITS;
        let given = Spans {
            lows: [0; 16],
            highs: [((PART >> truths) - 1) as Word; 16],
        };
        let none = self.second(&halt, Goal::Gives(0), Some(&given));
        assert_eq!(none, None);
    }

    fn free_bits(&self) -> u32 {
        self.session.inputs.iter().map(bits).sum()
    }

    /// How many readings a plain search reads that finds these numbers, or none.
    fn readings(&self, found: Option<[Word; 16]>) -> u64 {
        let Some(numbers) = found else {
            return 1 << self.free_bits();
        };
        let inputs = self.session.inputs.iter().zip(numbers);
        let before = inputs.fold(0, |before: u64, (input, number)| {
            (before << bits(input)) + u64::from(number)
        });
        before + 1
    }
}

fn bits(input: &second::Input) -> u32 {
    match input.kind {
        2 => 1,
        3 => Word::BITS,
        _ => 0,
    }
}

fn least(mut work: impl FnMut()) -> f64 {
    let mut timed = |turns| {
        let [time] = least_of(turns, 1, &(), [&mut |_: &mut ()| work()]);
        time
    };
    let once = timed(1);
    if once > SHORT {
        once
    } else {
        timed(TURNS)
    }
}
