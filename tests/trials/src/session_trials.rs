//! Sessions of the second evaluator, whole and damaged: test 3 and readings.

use crate::compare::{compare_fits, compare_read};
use crate::made::{FALSE, FREE_TRUTH, FREE_WORD};
use crate::tally::Tally;
use second::dice::{record, rule, Dice};
use second::{evaluate, open, result_of, Answer, Input, ResultOf, Session};

pub fn all(tally: &mut Tally) {
    sessions(tally);
    damaged_tables(tally);
    damaged_sessions(tally);
}

/// Sessions of some rules, each result read under many numbers and with work lists about the count.
fn sessions(tally: &mut Tally) {
    let mut dice = Dice(0x5e55);
    for _ in 0..4_000 {
        let inputs = dice.inputs();
        let size = dice.pick(&[272, 512, 4_096, 16_384]);
        let mut table = vec![0; size];
        let mut session = open(&inputs, &mut table).expect("a good opening");
        for _ in 0..3 {
            let size = dice.below(20) + 1;
            let bytes = dice.rule(size);
            let answer = evaluate(&mut session, &mut table, &bytes, 24);
            compare_fits(tally, &session, &table);
            if let Some(result) = result_of(answer) {
                readings(tally, &mut dice, &session, &table, &result);
            }
        }
    }
}

pub fn readings(
    tally: &mut Tally,
    dice: &mut Dice,
    session: &Session,
    table: &[u8],
    result: &ResultOf,
) {
    let count = usize::from(session.count);
    for _ in 0..4 {
        let numbers = dice.any_numbers(&session.inputs);
        compare_read(tally, session, table, &numbers, result, count);
        compare_read(tally, session, table, &numbers, result, count - 1);
        compare_read(tally, session, table, &numbers, result, count + 3);
        let near = u64::from(session.count) + 2;
        let other = ResultOf {
            s: dice.below(near) as u16,
            t: dice.below(near) as u16,
            value: dice.pick(&[0, 65_535, session.count, result.value]),
            halted: false,
        };
        compare_read(tally, session, table, &numbers, &other, count);
        for value in [session.count - 1, session.count] {
            let other = ResultOf { value, ..*result };
            compare_read(tally, session, table, &numbers, &other, count);
        }
        let any = ResultOf {
            value: dice.below(near) as u16,
            ..*result
        };
        compare_read(tally, session, table, &numbers, &any, count);
    }
}

/// Sessions of some rules, of which each result is tried, then once more with damage.
pub fn random_sessions(
    dice: &mut Dice,
    sessions: usize,
    some_inputs: fn(&mut Dice) -> [Input; 16],
    mut each: impl FnMut(&mut Dice, &Session, &[u8], &ResultOf),
) {
    for _ in 0..sessions {
        let inputs = some_inputs(dice);
        let size = dice.pick(&[272, 512, 4_096, 16_384]);
        let mut table = vec![0; size];
        let mut session = open(&inputs, &mut table).expect("a good opening");
        let mut last = None;
        for _ in 0..3 {
            let size = dice.below(30) + 1;
            let answer = evaluate(&mut session, &mut table, &dice.rule(size), 24);
            last = result_of(answer).or(last);
            let Some(result) = last else { continue };
            each(dice, &session, &table, &result);
        }
        let Some(result) = last else { continue };
        damage(dice, &mut session, &mut table);
        each(dice, &session, &table, &result);
    }
}

/// A result, and others near the terms, of which some are refused.
pub fn results_near(dice: &mut Dice, session: &Session, result: &ResultOf) -> [ResultOf; 3] {
    let mut near = || dice.below(u64::from(session.count) + 2) as u16;
    let (s, t, value) = (near(), near(), near());
    let other = ResultOf {
        s: dice.pick(&[0, 1, 2, result.s, s]),
        t: dice.pick(&[0, 1, 2, result.t, t]),
        value: dice.pick(&[0, 65_535, session.count, value]),
        halted: dice.below(2) == 1,
    };
    [*result, ResultOf { value, ..*result }, other]
}

/// A session of one rule with terms of every kind, in a small table.
pub fn small_session() -> (Session, Vec<u8>) {
    let mut inputs = [FALSE; 16];
    inputs[0] = FREE_TRUTH;
    inputs[1] = FREE_WORD;
    let mut table = vec![0; 480];
    let mut session = open(&inputs, &mut table).expect("a good opening");
    // let f = if place 0 then a procedure else word 7, in f of place 2
    let bytes = rule(&[
        record(6, 0, 1, 5, 0),
        record(7, 0, 0, 2, 4),
        record(3, 0, 3, 0, 0),
        record(5, 1, 0, 2, 0),
        record(1, 2, 7, 0, 0),
        record(4, 0, 0, 2, 0),
    ]);
    let answer = evaluate(&mut session, &mut table, &bytes, 9);
    assert!(matches!(answer, Answer::Out { .. }), "{answer:?}");
    (session, table)
}

/// Every other value of every byte of a small table.
fn damaged_tables(tally: &mut Tally) {
    let (session, good) = small_session();
    let numbers = [1; 16];
    let result = ResultOf {
        s: session.s,
        t: session.t,
        value: 2,
        halted: session.halted,
    };
    for at in 0..good.len() {
        let mut table = good.clone();
        for other in 0..=255 {
            table[at] = other;
            compare_fits(tally, &session, &table);
            if other < 10 {
                compare_read(tally, &session, &table, &numbers, &result, 60);
            }
        }
    }
    for length in (0..good.len()).chain([65_544]) {
        let mut table = good.clone();
        table.resize(length, 0);
        compare_fits(tally, &session, &table);
    }
}

fn damaged_sessions(tally: &mut Tally) {
    let (good, table) = small_session();
    for session in other_sessions(good) {
        compare_fits(tally, &session, &table);
    }
}

/// Every field of a session set to numbers about its bounds.
pub fn other_sessions(good: Session) -> Vec<Session> {
    let halted = !good.halted;
    let mut sessions = vec![Session { halted, ..good }];
    for n in (0..=70).chain([999, 1_000, 1_001, 8_192, 65_535]) {
        sessions.extend([
            Session { count: n, ..good },
            Session { s: n, ..good },
            Session { t: n, ..good },
            Session {
                accepted: n,
                ..good
            },
        ]);
    }
    for at in 0..16 {
        for kind in 0..6 {
            for value in [0, 1, 2, 7] {
                let mut session = good;
                session.inputs[at] = Input { kind, value };
                sessions.push(session);
            }
        }
    }
    sessions
}

/// Other values of every byte of a table, which is cut short too.
pub fn other_tables(good: &[u8]) -> impl Iterator<Item = Vec<u8>> + '_ {
    let others = || (0..=9).chain([11, 32, 33, 255]);
    let changed = (0..good.len()).flat_map(move |at| {
        others().map(move |other| {
            let mut table = good.to_vec();
            table[at] = other;
            table
        })
    });
    let short = (0..good.len()).step_by(4);
    changed.chain(short.map(|length| good[..length].to_vec()))
}

/// Every S, T and value up to some past the count, of a result that is out and of a halt.
pub fn other_results(session: &Session, good: ResultOf) -> Vec<ResultOf> {
    let mut results = Vec::new();
    for n in (0..session.count + 3).chain([8_191, 8_192, 32_768, 65_535]) {
        for halted in [false, true] {
            let good = ResultOf { halted, ..good };
            results.extend([
                ResultOf { s: n, ..good },
                ResultOf { t: n, ..good },
                ResultOf { value: n, ..good },
            ]);
        }
    }
    results
}

/// Another byte of the table or another number of the session.
pub fn damage(dice: &mut Dice, session: &mut Session, table: &mut [u8]) {
    let number = dice.below(u64::from(session.count) + 2) as u16;
    match dice.below(8) {
        0 => session.count = number,
        1 => session.s = number,
        2 => session.t = number,
        3 => session.accepted = dice.pick(&[0, 1, 999, 1_000, 1_001]),
        _ => {
            let used = 8 * u64::from(session.count) + 8;
            let at = dice.below(used.min(table.len() as u64)) as usize;
            table[at] = dice.pick(&[0, 1, 2, 3, 5, 6, 8, 17, 34, 255]);
        }
    }
}
