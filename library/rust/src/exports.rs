//! The library's functions over slices, as `include/desk.h` documents them: each answers 0 or the number of a refusal, but
//! for `rule_turns`, which answers a count.

use crate::forms::{Place, Word};

mod c {
    use super::{Place, Word};

    extern "C" {
        pub fn desk_open(
            inputs: *const u8,
            inputs_len: usize,
            table: *mut u8,
            table_len: usize,
            session: *mut u8,
            session_len: usize,
        ) -> u8;
        pub fn desk_rule_refusal(rule: *const u8, rule_len: usize) -> u8;
        pub fn desk_rule_turns(rule: *const u8, rule_len: usize) -> u16;
        pub fn desk_fits(
            session: *const u8,
            session_len: usize,
            table: *const u8,
            table_len: usize,
        ) -> u8;
        pub fn desk_evaluate(
            session: *mut u8,
            session_len: usize,
            table: *mut u8,
            table_len: usize,
            rule: *const u8,
            rule_len: usize,
            allowance: u16,
            answer: *mut u8,
            answer_len: usize,
        ) -> u8;
        pub fn desk_read(
            session: *const u8,
            session_len: usize,
            table: *const u8,
            table_len: usize,
            numbers: *const u8,
            numbers_len: usize,
            result: *const u8,
            result_len: usize,
            work: *mut Place,
            work_len: usize,
            reading: *mut u8,
            reading_len: usize,
        ) -> u8;
        pub fn desk_read_all(
            session: *const u8,
            session_len: usize,
            table: *const u8,
            table_len: usize,
            result: *const u8,
            result_len: usize,
            numbers: *const Word,
            numbers_len: usize,
            work: *mut Place,
            work_len: usize,
            answers: *mut Place,
            answers_len: usize,
        ) -> u8;
        pub fn desk_clauses(
            session: *const u8,
            session_len: usize,
            table: *const u8,
            table_len: usize,
            result: *const u8,
            result_len: usize,
            goal: *const u8,
            goal_len: usize,
            text: *mut u8,
            text_len: usize,
            length: *mut u64,
            length_len: usize,
        ) -> u8;
        pub fn desk_witness(
            session: *const u8,
            session_len: usize,
            table: *const u8,
            table_len: usize,
            result: *const u8,
            result_len: usize,
            goal: *const u8,
            goal_len: usize,
            lows: *const u8,
            lows_len: usize,
            highs: *const u8,
            highs_len: usize,
            work: *mut Place,
            work_len: usize,
            witness: *mut u8,
            witness_len: usize,
        ) -> u8;
        pub fn desk_run(
            inputs: *const u8,
            inputs_len: usize,
            numbers: *const u8,
            numbers_len: usize,
            rule: *const u8,
            rule_len: usize,
            allowance: u16,
            store: *mut u8,
            store_len: usize,
            reading: *mut u8,
            reading_len: usize,
        ) -> u8;
        pub fn desk_spans(
            session: *const u8,
            session_len: usize,
            table: *const u8,
            table_len: usize,
            lows: *const u8,
            lows_len: usize,
            highs: *const u8,
            highs_len: usize,
            reports: *mut u32,
            reports_len: usize,
        ) -> u8;
    }
}

// Each call below is safe: the library asks only for slices that are there, are aligned for what they hold and do not
// overlap where it writes, which is what `&[T]` and `&mut [T]` are.

pub fn open(inputs: &[u8], table: &mut [u8], session: &mut [u8]) -> u8 {
    unsafe {
        c::desk_open(
            inputs.as_ptr(),
            inputs.len(),
            table.as_mut_ptr(),
            table.len(),
            session.as_mut_ptr(),
            session.len(),
        )
    }
}

pub fn rule_refusal(rule: &[u8]) -> u8 {
    unsafe { c::desk_rule_refusal(rule.as_ptr(), rule.len()) }
}

pub fn rule_turns(rule: &[u8]) -> u16 {
    unsafe { c::desk_rule_turns(rule.as_ptr(), rule.len()) }
}

pub fn fits(session: &[u8], table: &[u8]) -> u8 {
    unsafe { c::desk_fits(session.as_ptr(), session.len(), table.as_ptr(), table.len()) }
}

pub fn evaluate(
    session: &mut [u8],
    table: &mut [u8],
    rule: &[u8],
    allowance: u16,
    answer: &mut [u8],
) -> u8 {
    unsafe {
        c::desk_evaluate(
            session.as_mut_ptr(),
            session.len(),
            table.as_mut_ptr(),
            table.len(),
            rule.as_ptr(),
            rule.len(),
            allowance,
            answer.as_mut_ptr(),
            answer.len(),
        )
    }
}

pub fn read(
    session: &[u8],
    table: &[u8],
    numbers: &[u8],
    result: &[u8],
    work: &mut [Place],
    reading: &mut [u8],
) -> u8 {
    unsafe {
        c::desk_read(
            session.as_ptr(),
            session.len(),
            table.as_ptr(),
            table.len(),
            numbers.as_ptr(),
            numbers.len(),
            result.as_ptr(),
            result.len(),
            work.as_mut_ptr(),
            work.len(),
            reading.as_mut_ptr(),
            reading.len(),
        )
    }
}

pub fn read_all(
    session: &[u8],
    table: &[u8],
    result: &[u8],
    numbers: &[Word],
    work: &mut [Place],
    answers: &mut [Place],
) -> u8 {
    unsafe {
        c::desk_read_all(
            session.as_ptr(),
            session.len(),
            table.as_ptr(),
            table.len(),
            result.as_ptr(),
            result.len(),
            numbers.as_ptr(),
            numbers.len(),
            work.as_mut_ptr(),
            work.len(),
            answers.as_mut_ptr(),
            answers.len(),
        )
    }
}

pub fn run(
    inputs: &[u8],
    numbers: &[u8],
    rule: &[u8],
    allowance: u16,
    store: &mut [u8],
    reading: &mut [u8],
) -> u8 {
    unsafe {
        c::desk_run(
            inputs.as_ptr(),
            inputs.len(),
            numbers.as_ptr(),
            numbers.len(),
            rule.as_ptr(),
            rule.len(),
            allowance,
            store.as_mut_ptr(),
            store.len(),
            reading.as_mut_ptr(),
            reading.len(),
        )
    }
}

pub fn spans(session: &[u8], table: &[u8], lows: &[u8], highs: &[u8], reports: &mut [u32]) -> u8 {
    unsafe {
        c::desk_spans(
            session.as_ptr(),
            session.len(),
            table.as_ptr(),
            table.len(),
            lows.as_ptr(),
            lows.len(),
            highs.as_ptr(),
            highs.len(),
            reports.as_mut_ptr(),
            reports.len(),
        )
    }
}

pub fn clauses(
    session: &[u8],
    table: &[u8],
    result: &[u8],
    goal: &[u8],
    text: &mut [u8],
    length: &mut [u64],
) -> u8 {
    unsafe {
        c::desk_clauses(
            session.as_ptr(),
            session.len(),
            table.as_ptr(),
            table.len(),
            result.as_ptr(),
            result.len(),
            goal.as_ptr(),
            goal.len(),
            text.as_mut_ptr(),
            text.len(),
            length.as_mut_ptr(),
            length.len(),
        )
    }
}

// A slice for each place of `desk_witness`.
#[allow(clippy::too_many_arguments)]
pub fn witness(
    session: &[u8],
    table: &[u8],
    result: &[u8],
    goal: &[u8],
    lows: &[u8],
    highs: &[u8],
    work: &mut [Place],
    witness: &mut [u8],
) -> u8 {
    unsafe {
        c::desk_witness(
            session.as_ptr(),
            session.len(),
            table.as_ptr(),
            table.len(),
            result.as_ptr(),
            result.len(),
            goal.as_ptr(),
            goal.len(),
            lows.as_ptr(),
            lows.len(),
            highs.as_ptr(),
            highs.len(),
            work.as_mut_ptr(),
            work.len(),
            witness.as_mut_ptr(),
            witness.len(),
        )
    }
}
