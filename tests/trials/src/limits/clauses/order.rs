//! "helper variables follow all of these" "After the p cnf line clauses stand in term order, the goal's last": several terms
//! with helpers, and the variables of the first term and of the last.

use super::{clauses, helpers, operated, text, word_term};
use crate::bench::{operators, ors};
use crate::limits::every_kind::every_kind;
use crate::limits::GOOD;
use crate::made::{free_inputs, word_input, Made, FALSE, FREE_WORD};
use crate::tally::Tally;
use second::cnf::{Cnf, WIRES};
use second::{Goal, Record};

pub fn all(tally: &mut Tally) {
    a_text_in_full(tally);
    first_and_last(tally);
    several_terms(tally);
    terms_in_order(tally);
    many_terms(tally);
}

/// The shortest text: false, true and sixteen bindings.
fn a_text_in_full(tally: &mut Tally) {
    let made = Made::open(&[FALSE; 16], 34);
    let (wires, true_variable) = (WIRES, WIRES + 3);
    let mut lines = vec![format!("p cnf {} {}", 18 * wires, 2 * wires + 32 + 1)];
    for variable in 1..=2 * wires {
        let sign = if variable == true_variable { "" } else { "-" };
        lines.push(format!("{sign}{variable} 0"));
    }
    for term in 2..18 {
        lines.extend([1, 2].map(|wire| format!("{} 0", wires * term + wire)));
    }
    lines.push(format!("-{true_variable} 0"));
    let expected = lines.join("\n") + "\n";
    let told = text(tally, &made, &GOOD, Goal::Errs);
    tally.same_list("a text in full", &told, expected.as_bytes());
    // a halt has a clause without literals
    let halt = second::ResultOf {
        halted: true,
        ..GOOD
    };
    let told = text(tally, &made, &halt, Goal::Gives(5));
    let ends = told.ends_with(b" 0\n0\n");
    tally.same("an empty clause", ends, true);
}

/// "Term n owns 18 variables, from 18n + 1": the kind of the first term and of the last, by their first two variables
fn first_and_last(tally: &mut Tally) {
    for made in [every_kind(), Made::open(&free_inputs(), 34), words()] {
        let count = i64::from(made.session.count);
        let wires = WIRES as i64;
        let cnf = clauses(tally, &made);
        let kinds = cnf.map_or(Vec::new(), |cnf| cnf.clauses);
        let kinds = kinds.into_iter().filter(|clause| clause.len() == 1);
        let kinds: Vec<i64> = kinds.map(|clause| clause[0].abs()).collect();
        tally.same("the first variables", kinds.get(..2), Some(&[1, 2][..]));
        let last = wires * (count - 1) + 1;
        let told = kinds.contains(&last) && kinds.contains(&(last + 1));
        tally.same("the last term's first variables", told, true);
        let past = kinds.iter().any(|&variable| variable > wires * count);
        tally.same("a helper is fixed", past, false);
    }
}

/// Two free words and constants about them.
fn words() -> Made {
    let mut inputs = [FALSE; 16];
    inputs[..3].copy_from_slice(&[FREE_WORD, FREE_WORD, word_input(3)]);
    Made::open(&inputs, 64)
}

/// The helpers of a term come behind those of the term before, whatever that is: each two operators in turn, also with a term
/// without helpers between.
fn several_terms(tally: &mut Tally) {
    let with = |terms: &[Record]| {
        let more = |made: Made, &term: &Record| made.more(term);
        terms.iter().fold(words(), more)
    };
    for first in 1..=12 {
        for second in (1..=12).filter(|&second| second != first) {
            let terms = [operated(first, 2, 3), operated(second, 3, 2)];
            let between = [terms[0], word_term(77), terms[1]];
            for made in [with(&terms), with(&between)] {
                let cnf = clauses(tally, &made);
                let met = cnf.as_ref().map(|cnf| helpers_in_turn(&made, cnf));
                let expected = helpers(&made, cnf.as_ref());
                tally.same("helpers that run on", met, Some(expected));
            }
        }
    }
}

/// How many helpers come up, each for the first time after the one before it.
fn helpers_in_turn(made: &Made, cnf: &Cnf) -> usize {
    let wires = WIRES * usize::from(made.session.count);
    let mut met = 0;
    for literal in cnf.clauses.iter().flatten() {
        let variable = literal.unsigned_abs() as usize;
        if variable == wires + met + 1 {
            met += 1;
        }
    }
    met
}

/// "clauses stand in term order": those of one literal do, which every term but a choice has
fn terms_in_order(tally: &mut Tally) {
    for made in [every_kind(), Made::open(&free_inputs(), 34), words()] {
        let cnf = clauses(tally, &made);
        let terms = cnf.map_or(Vec::new(), |cnf| cnf.clauses);
        let fixed = terms.iter().filter(|clause| clause.len() == 1);
        let fixed = fixed.map(|clause| clause[0].unsigned_abs() as usize);
        let numbers: Vec<usize> = fixed.map(|variable| (variable - 1) / WIRES).collect();
        tally.same("terms in order", numbers.is_sorted(), true);
        // a choice fixes no wire
        let choices = (0..made.session.count).filter(|&number| made.term(number).kind == 6);
        let mut met = numbers.clone();
        met.dedup();
        let expected = usize::from(made.session.count) - choices.count();
        tally.same("terms that have clauses", met.len(), expected);
    }
}

/// Numbers of up to six digits: the most terms that there can be, and a thousand, most of which have helpers.
fn many_terms(tally: &mut Tally) {
    let (session, table) = ors();
    text(tally, &Made { session, table }, &GOOD, Goal::Errs);
    let (session, mut table) = operators();
    table.truncate(8 * 1_000);
    let made = Made { session, table };
    let made = made.but(|session| session.count = 1_000);
    text(tally, &made, &GOOD, Goal::Errs);
}
