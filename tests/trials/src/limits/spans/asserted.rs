//! "If, in a session kept from its opening, the asserted formula can only be true, the gin may be told that no reading in
//! the spans errs."

use super::{reports, spans, Numbers, EITHER, FALSE, TRUE};
use crate::desk::report_numbers;
use crate::kept::Kept;
use crate::made::{word_input, Made, FREE_WORD};
use crate::tally::Tally;
use crate::tree::{abort, bind, call, error, operator, place, procedure, test, truth, word, Tree};
use ::desk::{Desk, Refusal, Report};
use second::{Input, Outcome, Spans, Word};

pub fn all(tally: &mut Tally) {
    for (what, trees, cases) in sessions() {
        for (high, wanted, errs) in cases {
            let mut kept = Kept::open(&inputs(), 8_192);
            for tree in &trees {
                kept.evaluate(&tree.rule(), 9);
            }
            asserted(tally, what, &kept, high, (wanted, errs));
        }
    }
    wrapped(tally);
}

/// Input 0 is a head, the others are the word 100.
fn inputs() -> [Input; 16] {
    let mut inputs = [word_input(100); 16];
    inputs[0] = FREE_WORD;
    inputs
}

/// A head's ceiling, what T's report is then, and whether a reading there errs.
type Case = (Word, Numbers, bool);

/// Rules in turn, with ceilings on both sides of the limit where there is one.
fn sessions() -> Vec<(&'static str, Vec<Tree>, [Case; 2])> {
    // place 0 is then "head < 100", place 1 the head
    let below = |rest| bind(operator(11, 0, 1), rest);
    let guarded = |other| below(test(0, word(7), other));
    let limit = [(99, TRUE, false), (100, EITHER, true)];
    let never = [(99, TRUE, false), (100, TRUE, false)];
    vec![
        ("no rule", vec![], never),
        ("a word", vec![word(7)], never),
        ("an error from 100 on", vec![guarded(error())], limit),
        ("an abort from 100 on", vec![guarded(abort())], never),
        (
            "an error up to 99",
            vec![below(test(0, error(), word(7)))],
            [(99, FALSE, true), (100, EITHER, false)],
        ),
        (
            "an error",
            vec![error()],
            [(99, FALSE, true), (100, FALSE, true)],
        ),
        // the error is never reached, which the reports do not show
        (
            "an error after an abort",
            vec![guarded(abort()), guarded(error())],
            [(99, TRUE, false), (100, EITHER, false)],
        ),
        (
            "an abort after an error",
            vec![guarded(error()), guarded(abort())],
            limit,
        ),
        (
            "a word after an error",
            vec![guarded(error()), word(7)],
            limit,
        ),
        (
            "a procedure, or no procedure from 100 on",
            vec![below(bind(
                test(0, procedure(place(0)), word(7)),
                call(0, 0),
            ))],
            limit,
        ),
        // whether a choice is a word is not known, so that T may be false; under 99 it never is
        (
            "a word, or no word from 100 on",
            vec![below(bind(
                test(0, word(7), truth(true)),
                operator(1, 0, 0),
            ))],
            [(99, EITHER, false), (100, EITHER, true)],
        ),
    ]
}

fn asserted(tally: &mut Tally, what: &str, kept: &Kept, high: Word, wanted: (Numbers, bool)) {
    let made = Made {
        session: kept.session,
        table: kept.table.clone(),
    };
    let reports = reports(tally, &made, &spans(&[(0, high)]));
    let report = reports[usize::from(made.session.t)];
    let mut numbers = [0; 16];
    numbers[0] = high;
    let read = kept.read(tally, &numbers);
    let ran = kept.run(&numbers);
    tally.same("a reading and a run", read, ran);
    let errs = read == Some(Outcome::Error);
    tally.same(what, (report, errs), wanted);
}

/// The library for Rust gives the same reports, tells a gin the same, and refuses by 17.
fn wrapped(tally: &mut Tally) {
    let mut wrapped_inputs = [::desk::Input::ConstantWord(100); 16];
    wrapped_inputs[0] = ::desk::Input::FreeWord;
    for (what, trees, cases) in sessions() {
        let mut desk = Desk::open(&wrapped_inputs, 8_192).expect("a good opening");
        let mut kept = Kept::open(&inputs(), 8_192);
        for tree in &trees {
            desk.evaluate(&tree.rule(), 9).expect("an accepted rule");
            kept.evaluate(&tree.rule(), 9);
        }
        for (high, wanted, _) in cases {
            let Spans { lows, highs } = spans(&[(0, high)]);
            let told = desk.never_errs(&lows, &highs);
            tally.same(what, told, Ok(wanted == TRUE));
            let reports = second::spans(&kept.session, &kept.table, &Spans { lows, highs }, 1_024);
            let ours = desk.spans(&lows, &highs).expect("reports");
            let ours: Vec<Numbers> = ours.into_iter().map(numbers).collect();
            let theirs = reports.unwrap_or_default().into_iter();
            let theirs: Vec<Numbers> = theirs.map(report_numbers).collect();
            tally.same_list("the wrapper's reports", &ours, &theirs);
        }
        let Spans { lows, highs } = spans(&[(8, 7)]);
        let refused = Err(Refusal(17));
        tally.same("the wrapper's 17", desk.never_errs(&lows, &highs), refused);
    }
}

fn numbers(report: Report) -> Numbers {
    match report {
        Report::Open => [0, 0, 0],
        Report::Truth {
            may_be_false,
            may_be_true,
        } => [1, u32::from(!may_be_false), u32::from(may_be_true)],
        Report::Word { low, high } => [2, u32::from(low), u32::from(high)],
    }
}
