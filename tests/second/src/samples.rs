//! One result read under many samples. A sample is the sixteen numbers of a bale.

use crate::read::{read_result, result_fits, ResultOf};
use crate::session::{fit, test_numbers, Input, Session};
use crate::terms::Term;
use crate::words::Word;
use crate::Outcome;

/// An answer for each sample, in the samples' order, where 3, 14 and 15 let the whole call pass.
pub fn read_all(
    session: &Session,
    table: &[u8],
    result: &ResultOf,
    numbers: &[Word],
    work_len: usize,
    answers_len: usize,
) -> Result<Vec<Outcome>, u8> {
    let factory = fit(session, table)?.factory;
    if !result_fits(&factory, result) {
        return Err(14);
    }
    let terms = factory.terms();
    let (samples, rest) = numbers.as_chunks::<16>();
    if work_len < terms.len() || !rest.is_empty() || answers_len != samples.len() {
        return Err(15);
    }
    let answer = |sample| read_sample(&session.inputs, terms, sample, result);
    Ok(samples.iter().map(answer).collect())
}

/// What a single reading gives where its other tests let it pass: a refusal by 13 is the sample's own.
fn read_sample(
    inputs: &[Input; 16],
    terms: &[Term],
    numbers: &[Word; 16],
    result: &ResultOf,
) -> Outcome {
    match test_numbers(inputs, numbers) {
        Ok(()) => read_result(terms, numbers, result),
        Err(refusal) => Outcome::Refused(refusal),
    }
}
