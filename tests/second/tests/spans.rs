mod common;

use common::{free_inputs, opened, word, FREE_WORD};
use second::dice::{record, rule, Dice};
use second::{evaluate, spans, term_readings, Answer, Outcome, Report, Span, Spans, Truths, Word};

const WIDEST: Spans = Spans {
    lows: [0; 16],
    highs: [Word::MAX; 16],
};

/// Whether a term so reported may read so. An open report says nothing.
fn covers(report: Report, reading: Outcome) -> bool {
    match (report, reading) {
        (Report::Open, _) => true,
        (Report::Truth(truths), Outcome::Truth(false)) => truths.may_be_false,
        (Report::Truth(truths), Outcome::Truth(true)) => truths.may_be_true,
        (Report::Word(span), Outcome::Word(word)) => (span.low..=span.high).contains(&word),
        _ => false,
    }
}

/// What is said of every term of random sessions holds of its readings within the spans.
#[test]
fn readings_lie_in_their_reports() {
    let mut dice = Dice(0x5a45);
    let (mut narrow, mut decided) = (0, 0);
    for _ in 0..1_500 {
        // mostly heads, so that rules add and compare them
        let mut inputs = dice.inputs();
        inputs[..12].fill(FREE_WORD);
        let (mut session, mut table) = opened(&inputs, 4_096);
        for _ in 0..3 {
            let size = dice.below(24) + 1;
            let rule = dice.rule(size);
            evaluate(&mut session, &mut table, &rule, 24);
        }
        let given = dice.spans(&inputs);
        let reports = spans(&session, &table, &given, 512).expect("reports");
        for _ in 0..4 {
            let numbers = dice.numbers_in(&inputs, &given);
            let readings = term_readings(&session, &table, &numbers).expect("readings");
            for (&report, reading) in reports.iter().zip(readings) {
                assert!(covers(report, reading), "{report:?} {reading:?}");
            }
        }
        for report in &reports[34.min(reports.len())..] {
            match report {
                Report::Word(span) => narrow += u32::from(span.high - span.low < Word::MAX),
                Report::Truth(truths) => {
                    decided += u32::from(!truths.may_be_true || !truths.may_be_false)
                }
                Report::Open => {}
            }
        }
    }
    assert!(narrow > 100 && decided > 20, "{narrow} {decided}");
}

#[test]
fn spans_are_tested_in_their_order() {
    let inputs = free_inputs();
    let (session, table) = opened(&inputs, 272);
    let mut turned = WIDEST;
    (turned.lows[15], turned.highs[15]) = (8, 7);
    let count = usize::from(session.count);
    assert!(spans(&session, &table, &WIDEST, count).is_ok());
    assert_eq!(spans(&session, &table, &WIDEST, count - 1), Err(15));
    assert_eq!(spans(&session, &table, &turned, count - 1), Err(17));
    assert_eq!(spans(&session, &table[1..], &turned, count - 1), Err(3));
    // input 14 is a free truth
    turned = WIDEST;
    (turned.lows[14], turned.highs[14]) = (8, 7);
    assert!(spans(&session, &table, &turned, count).is_ok());
}

/// 65,000 more than a head of at most 535 does not wrap, of at most 536 it may.
#[test]
fn a_sum_at_the_edge() {
    let mut inputs = [word(65_000); 16];
    inputs[1] = FREE_WORD;
    let (mut session, mut table) = opened(&inputs, 4_096);
    let sum = rule(&[record(5, 1, 0, 1, 0)]);
    let Answer::Out { value, .. } = evaluate(&mut session, &mut table, &sum, 9) else {
        panic!("a sum");
    };
    for (high, expected) in [(535, (65_007, 65_535)), (536, (0, 65_535))] {
        let mut given = WIDEST;
        (given.lows[1], given.highs[1]) = (7, high);
        let reports = spans(&session, &table, &given, 512).expect("reports");
        let (low, high) = expected;
        assert_eq!(
            reports[usize::from(value)],
            Report::Word(Span { low, high })
        );
    }
}

/// A head below its limit: the asserted formula can only be true, or not.
#[test]
fn an_assertion_at_the_edge() {
    let mut inputs = [word(100); 16];
    inputs[0] = FREE_WORD;
    // let below = head < 100 in if below, word 100, else error
    let tested = rule(&[
        record(6, 0, 1, 2, 0),
        record(5, 11, 0, 1, 0),
        record(7, 0, 0, 3, 4),
        record(1, 2, 100, 0, 0),
        record(9, 0, 0, 0, 0),
    ]);
    let (mut session, mut table) = opened(&inputs, 4_096);
    evaluate(&mut session, &mut table, &tested, 9);
    for (high, may_be_false) in [(99, false), (100, true)] {
        let mut given = WIDEST;
        given.highs[0] = high;
        let reports = spans(&session, &table, &given, 512).expect("reports");
        let expected = Truths {
            may_be_false,
            may_be_true: true,
        };
        assert_eq!(reports[usize::from(session.t)], Report::Truth(expected));
    }
}
