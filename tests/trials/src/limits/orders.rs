//! "Tests are made in the order written.": arguments that several tests refuse.

use super::{evaluate, first};
use crate::compare::{compare_read, compare_run};
use crate::made::{Made, FALSE, FREE_TRUTH};
use crate::tally::Tally;
use second::dice::{record, rule};
use second::{Input, Record, ResultOf};

pub fn all(tally: &mut Tally) {
    evaluations(tally);
    readings(tally);
    runs(tally);
}

fn record_of(kind: u8, p: u16) -> Record {
    record(kind, 0, p, 0, 0)
}

/// Rules that several of the tests 4 to 7 refuse, with the first of them.
fn rules() -> Vec<(Vec<u8>, Option<u8>)> {
    let good = record(1, 1, 0, 0, 0);
    let no_kind = record_of(10, 0);
    let far = record_of(2, 65_535);
    let near = record_of(2, 16);
    let procedure = record_of(3, 1);
    let lost = record_of(3, 9);
    let too_long = vec![good; 4_097];
    let mut rules = vec![
        (rule(&[good]), None),
        (vec![], Some(4)),
        (rule(&[no_kind])[..7].to_vec(), Some(4)),
        (rule(&[no_kind, good])[..12].to_vec(), Some(4)),
        (rule(&[lost, good])[..12].to_vec(), Some(4)),
        (rule(&[near, good])[..12].to_vec(), Some(4)),
        (rule(&too_long), Some(4)),
    ];
    for (records, refusal) in [
        (vec![no_kind], 5),
        // a tree, and no kind
        (vec![lost, no_kind], 5),
        (vec![no_kind, good], 5),
        (vec![good, no_kind], 5),
        // a place, and no kind
        (vec![procedure, no_kind, far], 5),
        (vec![far, no_kind], 5),
        // all three
        (vec![far, lost, no_kind], 5),
        (vec![lost, far, no_kind], 5),
        (vec![good, good], 6),
        (vec![lost], 6),
        // a place, and a tree
        (vec![far, good], 6),
        (vec![near, good], 6),
        (vec![lost, far], 6),
        (vec![far, lost], 6),
        (vec![far], 7),
        (vec![near], 7),
    ] {
        rules.push((rule(&records), Some(refusal)));
    }
    rules
}

/// "Evaluate. 3 [..] 4 [..] 5 [..] 6 [..] 7 [..] 8 [..] 9 [..] A halted session then answers the same halt"
fn evaluations(tally: &mut Tally) {
    for (bytes, rule_refusal) in rules() {
        for allowance in [0, 1, 257] {
            let bad_allowance = (allowance != 1).then_some(8);
            for accepted in [0, 999, 1_000] {
                let all_accepted = (accepted == 1_000).then_some(9);
                for halted in [false, true] {
                    let made = Made::open(&[FALSE; 16], 40).but(|session| {
                        session.accepted = accepted;
                        session.halted = halted;
                    });
                    let refusal = evaluate(tally, &made, &bytes, allowance);
                    let expected = first(&[rule_refusal, bad_allowance, all_accepted]);
                    tally.same("the order of 4 to 9", refusal, expected);
                    let mut unfit = made;
                    unfit.table[319] = 1;
                    let refusal = evaluate(tally, &unfit, &bytes, allowance);
                    tally.same("3 before 4 to 9", refusal, 3);
                }
            }
        }
    }
}

/// "Read. 3 as above. 13 [..] 14 [..] 15"
fn readings(tally: &mut Tally) {
    let good = ResultOf {
        s: 1,
        t: 1,
        value: 1,
        halted: false,
    };
    let results = [
        (good, None),
        (ResultOf { s: 90, ..good }, Some(14)),
        (ResultOf { t: 90, ..good }, Some(14)),
        (ResultOf { value: 90, ..good }, Some(14)),
        (ResultOf { value: 18, ..good }, Some(14)),
    ];
    let mut inputs = [FALSE; 16];
    inputs[15] = FREE_TRUTH;
    for (result, bad_result) in results {
        for number in [1, 2] {
            let bad_number = (number > 1).then_some(13);
            for fits in [true, false] {
                let mut made = Made::open(&inputs, 40);
                made.table[319] = u8::from(!fits);
                let unfit = (!fits).then_some(3);
                let count = usize::from(made.session.count);
                for work in [0, count - 1, count] {
                    let short = (work < count).then_some(15);
                    let Made { session, table } = &made;
                    let refusal = compare_read(tally, session, table, &[number; 16], &result, work);
                    let expected = first(&[unfit, bad_number, bad_result, short]);
                    tally.same("the order of 3, 13, 14, 15", refusal, expected);
                }
            }
        }
    }
}

/// "Run plainly. 2, 13, 4 to 8 in that order, then whichever first: 16 [..]; 12."
fn runs(tally: &mut Tally) {
    for (bytes, rule_refusal) in rules() {
        for kind in [0, 4] {
            let mut inputs = [FALSE; 16];
            inputs[0] = FREE_TRUTH;
            inputs[15] = Input { kind, value: 0 };
            let bad_input = (kind == 4).then_some(2);
            for number in [1, 2] {
                let bad_number = (number > 1).then_some(13);
                for allowance in [0, 1, 257] {
                    let bad_allowance = (allowance != 1).then_some(8);
                    for store in [0, 127, 128] {
                        let full = (store < 128).then_some(16);
                        let refusal =
                            compare_run(tally, &inputs, &[number; 16], &bytes, allowance, store);
                        let expected =
                            first(&[bad_input, bad_number, rule_refusal, bad_allowance, full]);
                        tally.same("the order of 2, 13, 4 to 8, 16", refusal, expected);
                    }
                }
            }
        }
    }
}
