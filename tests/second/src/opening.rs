use crate::session::{Input, Session};
use crate::terms::{constant, Factory, Term, NO_BINDING, TRUE};

/// Records enough for every opening.
const OPENING_TERMS: usize = 34;

pub fn length_fits(bytes: usize) -> bool {
    bytes.is_multiple_of(8) && (272..=65_536).contains(&bytes)
}

pub fn inputs_fit(inputs: &[Input; 16]) -> bool {
    inputs.iter().all(|input| match input.kind {
        0 => input.value <= 1,
        1 => true,
        2 | 3 => input.value == 0,
        _ => false,
    })
}

/// A refused opening leaves the table untouched.
pub fn open(inputs: &[Input; 16], table: &mut [u8]) -> Result<Session, u8> {
    if !length_fits(table.len()) {
        return Err(1);
    }
    if !inputs_fit(inputs) {
        return Err(2);
    }
    let factory = opening(inputs)?;
    table.fill(0);
    write_terms(table, factory.terms(), 0);
    Ok(Session {
        inputs: *inputs,
        count: factory.count(),
        s: TRUE,
        t: TRUE,
        halted: false,
        accepted: 0,
    })
}

/// The terms opening makes; equal inputs share one, so the count varies.
pub fn opening(inputs: &[Input; 16]) -> Result<Factory, u8> {
    let mut factory = Factory::new(OPENING_TERMS);
    factory.make(Term::Truth(false))?;
    factory.make(Term::Truth(true))?;
    let mut values = [0; 16];
    for (number, input) in inputs.iter().enumerate() {
        values[number] = match input.kind {
            0 => constant(input.value == 1),
            1 => factory.make(Term::Word(input.value))?,
            2 => factory.make(Term::FreeTruth(number as u16))?,
            _ => factory.make(Term::FreeWord(number as u16))?,
        };
    }
    let mut next = NO_BINDING;
    for value in values.into_iter().rev() {
        next = factory.bind(value, next)?;
    }
    Ok(factory)
}

/// Writes the terms from a number on to their records of the table.
pub fn write_terms(table: &mut [u8], terms: &[Term], from: usize) {
    let places = table.chunks_exact_mut(8);
    for (place, term) in places.zip(terms).skip(from) {
        place.copy_from_slice(&term.encode().to_bytes());
    }
}
