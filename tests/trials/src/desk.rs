//! The desk's exports, with the byte forms of what they take and give.

pub use ::desk::exports::{
    clauses, evaluate, fits, open, read, read_all, rule_refusal, rule_turns, run, spans, witness,
};
pub use ::desk::forms::{
    Place, ANSWER, HALTED, INPUT, INPUTS, NUMBERS, READING, REPORT, SAMPLE, SESSION, WITNESS, WORD,
};
use second::{Answer, Goal, Input, Outcome, Report, ResultOf, Session, Spans, Word};

pub fn inputs_bytes(inputs: &[Input; 16]) -> Vec<u8> {
    let mut bytes = Vec::new();
    for input in inputs {
        let mut form = [0; INPUT];
        form[0] = input.kind;
        form[WORD..].copy_from_slice(&input.value.to_le_bytes());
        bytes.extend(form);
    }
    bytes
}

pub fn session_bytes(session: &Session) -> Vec<u8> {
    let mut bytes = inputs_bytes(&session.inputs);
    for number in [session.count, session.s, session.t, session.accepted] {
        bytes.extend(number.to_le_bytes());
    }
    bytes.extend([u8::from(session.halted), 0]);
    bytes
}

/// The word of its bytes.
pub fn word(bytes: &[u8]) -> Word {
    Word::from_le_bytes(bytes.try_into().expect("the bytes of a word"))
}

pub fn numbers_bytes(numbers: &[Word; 16]) -> Vec<u8> {
    numbers.iter().flat_map(|n| n.to_le_bytes()).collect()
}

pub fn result_bytes(result: &ResultOf) -> Vec<u8> {
    let mut bytes = Vec::new();
    for number in [result.s, result.t, result.value] {
        bytes.extend(number.to_le_bytes());
    }
    bytes.extend([u8::from(result.halted), 0]);
    bytes
}

/// What a refused evaluation leaves at an answer's place: these bytes, as they were.
pub const UNANSWERED: [u8; ANSWER] = [0xa5; ANSWER];

/// The refusal or 0, and the answer's bytes then.
pub fn answer_bytes(answer: Answer) -> (u8, [u8; ANSWER]) {
    let values = match answer {
        Answer::Out { s, t, value, depth } => [s, t, value, 0, depth],
        Answer::Halt { s, t, depth } => [s, t, 0, 1, depth],
        Answer::Refused(refusal) => return (refusal, UNANSWERED),
    };
    let mut bytes = [0; ANSWER];
    for (place, number) in bytes.chunks_exact_mut(2).zip(values) {
        place.copy_from_slice(&number.to_le_bytes());
    }
    (0, bytes)
}

/// What a refused operation leaves at a reading's place: these bytes, as they were.
pub const UNREAD: [u8; READING] = [0xa5; READING];

/// The kind and the number of what was read, or the refusal.
fn kind_and_number(outcome: Outcome) -> Result<(u8, Word), u8> {
    Ok(match outcome {
        Outcome::Truth(truth) => (1, Word::from(truth)),
        Outcome::Word(word) => (2, word),
        Outcome::Procedure(record) => (7, record as Word),
        Outcome::Abort => (8, 0),
        Outcome::Error => (9, 0),
        Outcome::Refused(refusal) => return Err(refusal),
    })
}

/// The refusal or 0, and the reading's bytes then: two words.
pub fn outcome_bytes(outcome: Outcome) -> (u8, [u8; READING]) {
    let (kind, number) = match kind_and_number(outcome) {
        Ok(read) => read,
        Err(refusal) => return (refusal, UNREAD),
    };
    let mut bytes = [0; READING];
    bytes[0] = kind;
    bytes[WORD..].copy_from_slice(&number.to_le_bytes());
    (0, bytes)
}

/// The bytes of the reading that is to be reached.
pub fn goal_bytes(goal: Goal) -> [u8; READING] {
    let reached = match goal {
        Goal::Errs => Outcome::Error,
        Goal::Aborts => Outcome::Abort,
        Goal::Gives(word) => Outcome::Word(word),
    };
    outcome_bytes(reached).1
}

/// A buffer for a text before a call: no text has such bytes, and no two places next to each other hold the same.
pub fn unwritten(bytes: usize) -> Vec<u8> {
    (0..bytes).map(|at| 0x80 | at as u8).collect()
}

/// The place of a text's length before a call: no text is so long.
pub const UNTOLD: u64 = 0xa5a5_a5a5_a5a5_a5a5;

/// A list of answers for samples before a call: no sample has such an answer, and no two places hold the same.
pub fn unread_samples(answers: usize) -> Vec<Place> {
    (0xa5a5_0000..).take(answers).collect()
}

/// The kind and the number in one; a refusal is of kind 0.
pub fn sample_answer(outcome: Outcome) -> Place {
    match kind_and_number(outcome) {
        Ok((kind, number)) => joined(kind, number),
        Err(refusal) => Place::from(refusal),
    }
}

/// The answer of a sample that is read singly, by the reading's bytes.
pub fn reading_answer(reading: &[u8; READING]) -> Place {
    joined(reading[0], word(&reading[WORD..]))
}

/// The kind times two to the power of a word's bits, and the number.
fn joined(kind: u8, number: Word) -> Place {
    Place::from(kind) << Word::BITS | Place::from(number)
}

/// The lows and the highs; both are empty where there are no spans.
pub fn spans_bytes(spans: Option<&Spans>) -> [Vec<u8>; 2] {
    let ends = spans.map(|spans| [spans.lows, spans.highs]);
    ends.map_or_else(Default::default, |ends| ends.map(|n| numbers_bytes(&n)))
}

/// What a refused call leaves at a witness's place: these bytes, as they were.
pub const UNFOUND: [u8; WITNESS] = [0xa5; WITNESS];

/// A mark, what is zero, and the numbers; all of it is zero where no reading is found.
pub fn witness_bytes(found: Option<[Word; SAMPLE]>) -> [u8; WITNESS] {
    let mut bytes = [0; WITNESS];
    if let Some(numbers) = found {
        bytes[0] = 1;
        bytes[WORD..].copy_from_slice(&numbers_bytes(&numbers));
    }
    bytes
}

/// The numbers of a witness's bytes.
pub fn witness_numbers(bytes: &[u8; WITNESS]) -> Option<[Word; SAMPLE]> {
    let number = |at: usize| word(&bytes[WORD * (at + 1)..WORD * (at + 2)]);
    (bytes[0] == 1).then(|| std::array::from_fn(number))
}

/// A list of reports before a call: no report has such numbers, and no two places the same.
pub fn unreported(numbers: usize) -> Vec<u32> {
    (0xa5a5_0000..).take(numbers).collect()
}

/// Sort, low and high.
pub fn report_numbers(report: Report) -> [u32; REPORT] {
    match report {
        Report::Open => [0, 0, 0],
        Report::Truth(truths) => [
            1,
            u32::from(!truths.may_be_false),
            u32::from(truths.may_be_true),
        ],
        Report::Word(span) => [2, u32::from(span.low), u32::from(span.high)],
    }
}
