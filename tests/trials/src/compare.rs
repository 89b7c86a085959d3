//! One comparison of each operation, which gives back the desk's refusal or 0, and the second evaluator's tests, through
//! its operations.

use crate::desk;
use crate::made::FALSE;
use crate::tally::Tally;
use second::{clauses, evaluate, open, read, read_all, run, spans, witness};
use second::{Answer, Goal, Input, NoText, Outcome, ResultOf, Session, Spans, Word};

/// Tests 4 to 7: a run on good inputs with an allowance of 0 goes no further than 8.
pub fn second_rule_refusal(bytes: &[u8]) -> u8 {
    match run(&[FALSE; 16], &[0; 16], bytes, 0, 0) {
        Outcome::Refused(8) => 0,
        Outcome::Refused(refusal) => refusal,
        other => panic!("an allowance of 0 gave {other:?}"),
    }
}

/// Test 3: an evaluation of no bytes goes no further than 4.
pub fn second_fits(session: &Session, table: &[u8]) -> u8 {
    let (mut session, mut table) = (*session, table.to_vec());
    match evaluate(&mut session, &mut table, &[], 1) {
        Answer::Refused(4) => 0,
        Answer::Refused(refusal) => refusal,
        other => panic!("no rule gave {other:?}"),
    }
}

/// A refusal's number, or 100 and what the reading's first byte says.
fn answer_number(outcome: Outcome) -> u8 {
    match desk::outcome_bytes(outcome) {
        (0, [tag, ..]) => 100 + tag,
        (refusal, _) => refusal,
    }
}

pub fn compare_open(tally: &mut Tally, inputs: &[Input; 16], bytes: usize) -> u8 {
    let (mut ours, mut theirs) = (vec![0x5a; bytes], vec![0x5a; bytes]);
    let mut session = vec![0xa5; desk::SESSION];
    let refusal = desk::open(&desk::inputs_bytes(inputs), &mut ours, &mut session);
    let (expected, form) = match open(inputs, &mut theirs) {
        Ok(session) => (0, desk::session_bytes(&session)),
        Err(refusal) => (refusal, vec![0xa5; desk::SESSION]),
    };
    tally.saw("open", expected);
    tally.same("open", refusal, expected);
    tally.same_list("open's table", &ours, &theirs);
    tally.same_list("open's session", &session, &form);
    refusal
}

pub fn compare_rule(tally: &mut Tally, bytes: &[u8]) -> u8 {
    let (ours, theirs) = (desk::rule_refusal(bytes), second_rule_refusal(bytes));
    tally.saw("rule", theirs);
    tally.same("rule refusal", ours, theirs);
    check_turns(tally, bytes, theirs);
    ours
}

/// The pass for 6 and 7 takes up no record twice: it has no turn where 4 or 5 refuses, one for each record where 6 does not,
/// and ends with one of them where 6 does.
fn check_turns(tally: &mut Tally, bytes: &[u8], refusal: u8) {
    let turns = usize::from(desk::rule_turns(bytes));
    let records = bytes.len() / 8;
    let (least, most) = match refusal {
        4 | 5 => (0, 0),
        6 => (1, records),
        _ => (records, records),
    };
    tally.same("turns", turns, turns.clamp(least, most));
}

pub fn compare_fits(tally: &mut Tally, session: &Session, table: &[u8]) -> u8 {
    let ours = desk::fits(&desk::session_bytes(session), table);
    let theirs = second_fits(session, table);
    tally.saw("fits", theirs);
    tally.same("fits", ours, theirs);
    ours
}

pub fn compare_run(
    tally: &mut Tally,
    inputs: &[Input; 16],
    numbers: &[Word; 16],
    bytes: &[u8],
    allowance: u16,
    store: usize,
) -> u8 {
    let mut ours = vec![0x5a; store];
    let mut reading = desk::UNREAD;
    let refusal = desk::run(
        &desk::inputs_bytes(inputs),
        &desk::numbers_bytes(numbers),
        bytes,
        allowance,
        &mut ours,
        &mut reading,
    );
    let outcome = run(inputs, numbers, bytes, allowance, store);
    tally.saw("run", answer_number(outcome));
    tally.same("run", (refusal, reading), desk::outcome_bytes(outcome));
    tally.same(
        "run's store is zero",
        ours.iter().all(|&byte| byte == 0),
        true,
    );
    refusal
}

pub fn compare_read(
    tally: &mut Tally,
    session: &Session,
    table: &[u8],
    numbers: &[Word; 16],
    result: &ResultOf,
    work: usize,
) -> u8 {
    let mut ours = vec![0x5a5a_5a5a; work];
    let mut reading = desk::UNREAD;
    let refusal = desk::read(
        &desk::session_bytes(session),
        table,
        &desk::numbers_bytes(numbers),
        &desk::result_bytes(result),
        &mut ours,
        &mut reading,
    );
    let outcome = read(session, table, numbers, result, work);
    tally.saw("read", answer_number(outcome));
    tally.same("read", (refusal, reading), desk::outcome_bytes(outcome));
    tally.same("read's work is zero", ours.iter().all(|&n| n == 0), true);
    refusal
}

/// With a work list and an answers list of so many places; a refused call leaves the answers. Gives the desk's answers too.
pub fn compare_samples(
    tally: &mut Tally,
    session: &Session,
    table: &[u8],
    result: &ResultOf,
    numbers: &[Word],
    work: usize,
    answers: usize,
) -> (u8, Vec<desk::Place>) {
    let mut places = vec![0x5a5a_5a5a; work];
    let mut ours = desk::unread_samples(answers);
    let refusal = desk::read_all(
        &desk::session_bytes(session),
        table,
        &desk::result_bytes(result),
        numbers,
        &mut places,
        &mut ours,
    );
    let (expected, theirs) = match read_all(session, table, result, numbers, work, answers) {
        Ok(outcomes) => {
            for &outcome in &outcomes {
                tally.saw("sample", answer_number(outcome));
            }
            (0, outcomes.into_iter().map(desk::sample_answer).collect())
        }
        Err(refusal) => (refusal, desk::unread_samples(answers)),
    };
    tally.saw("read_all", expected);
    tally.same("read_all", refusal, expected);
    tally.same_list("read_all's answers", &ours, &theirs);
    let zero = places.iter().all(|&n| n == 0);
    tally.same("read_all's work is zero", zero, true);
    (refusal, ours)
}

/// With a list of so many numbers; what is not written in it stays. Gives the desk's list too.
pub fn compare_spans(
    tally: &mut Tally,
    session: &Session,
    table: &[u8],
    given: &Spans,
    numbers: usize,
) -> (u8, Vec<u32>) {
    let mut ours = desk::unreported(numbers);
    let refusal = desk::spans(
        &desk::session_bytes(session),
        table,
        &desk::numbers_bytes(&given.lows),
        &desk::numbers_bytes(&given.highs),
        &mut ours,
    );
    let mut theirs = desk::unreported(numbers);
    let expected = match spans(session, table, given, numbers / desk::REPORT) {
        Ok(reports) => {
            let reported = reports.into_iter().flat_map(desk::report_numbers);
            for (place, number) in theirs.iter_mut().zip(reported) {
                *place = number;
            }
            0
        }
        Err(refusal) => refusal,
    };
    tally.saw("spans", expected);
    tally.same("spans", refusal, expected);
    tally.same_list("spans' list", &ours, &theirs);
    (refusal, ours)
}

/// What the desk answered to a call for a text, with the buffer and the place of its length afterwards.
pub struct Written {
    pub refusal: u8,
    pub buffer: Vec<u8>,
    pub length: u64,
}

/// With a buffer of so many bytes; a refused call leaves them all, and the bytes past a text stay. Where the buffer is too
/// short, the text's length is told all the same.
pub fn compare_clauses(
    tally: &mut Tally,
    session: &Session,
    table: &[u8],
    result: &ResultOf,
    goal: Goal,
    bytes: usize,
) -> Written {
    let mut ours = desk::unwritten(bytes);
    let mut length = [desk::UNTOLD];
    let refusal = desk::clauses(
        &desk::session_bytes(session),
        table,
        &desk::result_bytes(result),
        &desk::goal_bytes(goal),
        &mut ours,
        &mut length,
    );
    let mut theirs = desk::unwritten(bytes);
    let (expected, told) = match clauses(session, table, result, goal, bytes) {
        Ok(text) => {
            // a faulty second evaluator's may be longer than the buffer
            let held = text.len().min(bytes);
            theirs[..held].copy_from_slice(&text[..held]);
            (0, Some(text.len()))
        }
        Err(NoText { refusal, length }) => (refusal, length),
    };
    let told = told.map_or(desk::UNTOLD, |length| length as u64);
    tally.saw("clauses", expected);
    tally.same("clauses", (refusal, length[0]), (expected, told));
    tally.same_list("clauses' text", &ours, &theirs);
    Written {
        refusal,
        buffer: ours,
        length: length[0],
    }
}

/// With a work list of so many places; a refused call leaves the witness's. Gives the desk's numbers too, where it found some.
pub fn compare_witness(
    tally: &mut Tally,
    session: &Session,
    table: &[u8],
    result: &ResultOf,
    goal: Goal,
    given: Option<&Spans>,
    work: usize,
) -> (u8, Option<[Word; desk::SAMPLE]>) {
    let mut places = vec![0x5a5a_5a5a; work];
    let mut ours = desk::UNFOUND;
    let [lows, highs] = desk::spans_bytes(given);
    let refusal = desk::witness(
        &desk::session_bytes(session),
        table,
        &desk::result_bytes(result),
        &desk::goal_bytes(goal),
        &lows,
        &highs,
        &mut places,
        &mut ours,
    );
    let (expected, theirs) = match witness(session, table, result, goal, given, work) {
        Ok(found) => {
            tally.saw("found", u8::from(found.is_some()));
            (0, desk::witness_bytes(found))
        }
        Err(refusal) => (refusal, desk::UNFOUND),
    };
    tally.saw("witness", expected);
    tally.same("witness", (refusal, ours), (expected, theirs));
    let zero = places.iter().all(|&n| n == 0);
    tally.same("witness's work is zero", zero, true);
    (refusal, desk::witness_numbers(&ours))
}
