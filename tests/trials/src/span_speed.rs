//! The times of the reports beside those of a reading of the same table and the second evaluator's, as rows of a table.

use crate::bench::{operators, ors, procedures, updated};
use crate::desk;
use crate::speed::{least_times, random_rules, Randoms, Start};
use second::{spans, ResultOf, Session, Spans, Word};
use std::hint::black_box;

pub fn run() {
    println!("| tables | spans, ms | reading, ms | ratio | second evaluator's spans, ms | ratio |");
    println!("|---|---|---|---|---|---|");
    for Randoms {
        what,
        rules,
        mut starts,
    } in random_rules()
    {
        for (start, bytes) in starts.iter_mut().zip(&rules) {
            start.second(bytes);
        }
        let tables = starts
            .into_iter()
            .map(|Start { session, table, .. }| (session, table));
        compare(&what, tables.collect());
    }
    for (what, full) in [
        ("guarded updates", updated()),
        ("a chain of ors", ors()),
        ("operators on few words", operators()),
        ("procedures of one binding", procedures()),
    ] {
        let terms = full.0.count;
        compare(&format!("{terms} terms, {what}"), vec![full]);
    }
}

/// A session with all that the two calls are lent.
struct Case {
    session: Session,
    form: Vec<u8>,
    table: Vec<u8>,
    result: Vec<u8>,
}

impl Case {
    fn new((session, table): (Session, Vec<u8>)) -> Case {
        let result = ResultOf {
            s: session.s,
            t: session.t,
            value: 1,
            halted: false,
        };
        Case {
            form: desk::session_bytes(&session),
            result: desk::result_bytes(&result),
            session,
            table,
        }
    }

    fn count(&self) -> usize {
        usize::from(self.session.count)
    }
}

/// Each head from 10 to 20.
const GIVEN: Spans = Spans {
    lows: [10; 16],
    highs: [20; 16],
};

/// The times for one table, in the mean. Every work is lent lists for the longest table's reports and readings.
fn compare(what: &str, tables: Vec<(Session, Vec<u8>)>) {
    let cases: Vec<Case> = tables.into_iter().map(Case::new).collect();
    let longest = cases.iter().map(Case::count).max().unwrap_or(0);
    let lists = (vec![0; desk::REPORT * longest], vec![0; longest]);
    let [ours, reading, second] = least_times(
        cases.len(),
        &lists,
        [
            &mut |(list, _)| cases.iter().for_each(|case| report(case, list)),
            &mut |(_, work)| cases.iter().for_each(|case| read(case, work)),
            &mut |_| cases.iter().for_each(report_second),
        ],
    );
    let (to_reading, to_second) = (ours / reading, ours / second);
    println!(
        "| {what} | {ours:.4} | {reading:.4} | {to_reading:.2} | {second:.4} | {to_second:.2} |"
    );
}

fn report(case: &Case, list: &mut [u32]) {
    let [lows, highs] = [GIVEN.lows, GIVEN.highs].map(|words| desk::numbers_bytes(&words));
    let list = &mut list[..desk::REPORT * case.count()];
    let refusal = desk::spans(&case.form, &case.table, &lows, &highs, list);
    assert_eq!(refusal, 0);
}

fn read(case: &Case, work: &mut [desk::Place]) {
    let numbers: [Word; 16] = [1; 16];
    let refusal = desk::read(
        &case.form,
        &case.table,
        &desk::numbers_bytes(&numbers),
        &case.result,
        &mut work[..case.count()],
        &mut [0; desk::READING],
    );
    assert_eq!(refusal, 0);
}

fn report_second(case: &Case) {
    let reports = spans(&case.session, &case.table, &GIVEN, case.count());
    assert!(black_box(reports).is_ok());
}
