use crate::opening::{inputs_fit, length_fits, opening};
use crate::records::records;
use crate::terms::{Factory, Sort, Term};
use crate::words::Word;

/// Kind 0 constant truth, 1 constant word, 2 free truth, 3 free word.
#[derive(Clone, Copy, PartialEq, Eq, Debug, Default)]
pub struct Input {
    pub kind: u8,
    pub value: Word,
}

#[derive(Clone, Copy, PartialEq, Eq, Debug)]
pub struct Session {
    pub inputs: [Input; 16],
    pub count: u16,
    pub s: u16,
    pub t: u16,
    pub halted: bool,
    pub accepted: u16,
}

/// The terms of a table that fits its session, and the binding of input 0.
pub struct Fitted {
    pub factory: Factory,
    pub environment: u16,
}

/// Test 3. The halted mark is not looked at.
pub fn fit(session: &Session, table: &[u8]) -> Result<Fitted, u8> {
    load(session, table).ok_or(3)
}

fn load(session: &Session, table: &[u8]) -> Option<Fitted> {
    if !length_fits(table.len()) || !inputs_fit(&session.inputs) || session.accepted > 1_000 {
        return None;
    }
    let (used, tail) = table.split_at_checked(usize::from(session.count) * 8)?;
    if tail.iter().any(|&byte| byte != 0) {
        return None;
    }
    let factory = load_terms(session, used, table.len() / 8)?;
    let opened = opening(&session.inputs).ok()?;
    if !factory.terms().starts_with(opened.terms()) {
        return None;
    }
    if factory.terms()[opened.terms().len()..].iter().any(is_free) {
        return None;
    }
    if !is_truth(&factory, session.s) || !is_truth(&factory, session.t) {
        return None;
    }
    Some(Fitted {
        factory,
        environment: opened.count() - 1,
    })
}

fn load_terms(session: &Session, used: &[u8], capacity: usize) -> Option<Factory> {
    let mut factory = Factory::new(capacity);
    for record in records(used) {
        let term = Term::decode(record)?;
        let fits = term.names_fit(factory.terms(), session.accepted);
        if !fits || !factory.make_new(term) {
            return None;
        }
    }
    Some(factory)
}

fn is_free(term: &Term) -> bool {
    matches!(term, Term::FreeTruth(_) | Term::FreeWord(_))
}

/// Whether a number is that of a truth below the count.
pub fn is_truth(factory: &Factory, number: u16) -> bool {
    number < factory.count() && factory.sort(number) == Sort::Truth
}

/// Test 13: a free truth takes 0 or 1; constants ignore their numbers.
pub fn test_numbers(inputs: &[Input; 16], numbers: &[Word; 16]) -> Result<(), u8> {
    let over = |(input, &number): (&Input, &Word)| input.kind == 2 && number > 1;
    if inputs.iter().zip(numbers).any(over) {
        Err(13)
    } else {
        Ok(())
    }
}
