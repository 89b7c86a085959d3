//! What each term may read as while every free word lies in its span.

use crate::session::{fit, Input, Session};
use crate::terms::Term;
use crate::words::{shape, Word, ADD, AND, LESS, NOT, OR, SUBTRACT};

/// A low and a high for every input; those of an input that is no free word are not looked at.
#[derive(Clone, Copy, PartialEq, Eq, Debug)]
pub struct Spans {
    pub lows: [Word; 16],
    pub highs: [Word; 16],
}

#[derive(Clone, Copy, PartialEq, Eq, Debug)]
pub struct Truths {
    pub may_be_false: bool,
    pub may_be_true: bool,
}

#[derive(Clone, Copy, PartialEq, Eq, Debug)]
pub struct Span {
    pub low: Word,
    pub high: Word,
}

#[derive(Clone, Copy, PartialEq, Eq, Debug)]
pub enum Report {
    Open,
    Truth(Truths),
    Word(Span),
}

const EITHER: Truths = Truths {
    may_be_false: true,
    may_be_true: true,
};

const ANY_WORD: Span = Span {
    low: 0,
    high: Word::MAX,
};

/// A report for each term, where the list has a place for each.
pub fn spans(
    session: &Session,
    table: &[u8],
    spans: &Spans,
    list_len: usize,
) -> Result<Vec<Report>, u8> {
    let factory = fit(session, table)?.factory;
    test_spans(&session.inputs, spans)?;
    if list_len < factory.terms().len() {
        return Err(15);
    }
    Ok(report_terms(factory.terms(), spans))
}

/// Test 17: no free word's low exceeds its high.
pub fn test_spans(inputs: &[Input; 16], spans: &Spans) -> Result<(), u8> {
    let exceeds = |at: usize| inputs[at].kind == 3 && spans.lows[at] > spans.highs[at];
    if (0..16).any(exceeds) {
        Err(17)
    } else {
        Ok(())
    }
}

/// Every term names only lower ones, so one pass from below reports them all.
fn report_terms(terms: &[Term], spans: &Spans) -> Vec<Report> {
    let mut reports = Vec::with_capacity(terms.len());
    for &term in terms {
        let report = report_term(term, &reports, spans);
        reports.push(report);
    }
    reports
}

fn report_term(term: Term, reports: &[Report], spans: &Spans) -> Report {
    let at = |number: u16| reports[usize::from(number)];
    match term {
        Term::Truth(truth) => Report::Truth(only(truth)),
        Term::Word(word) => Report::Word(Span {
            low: word,
            high: word,
        }),
        Term::FreeTruth(_) => Report::Truth(EITHER),
        Term::FreeWord(input) => Report::Word(Span {
            low: spans.lows[usize::from(input)],
            high: spans.highs[usize::from(input)],
        }),
        Term::Operator { op, a, b } => report_operator(op, at(a), at(b)),
        Term::Choice { guard, then, other } => report_choice(at(guard), at(then), at(other)),
        Term::Procedure { .. } => Report::Open,
        Term::Binding { .. } => Report::Open,
    }
}

/// Of an operator that is not named here, or on other operands, only its result kind is known.
fn report_operator(op: u8, a: Report, b: Report) -> Report {
    match (op, a, b) {
        (ADD, Report::Word(a), Report::Word(b)) => Report::Word(sum(a, b)),
        (SUBTRACT, Report::Word(a), Report::Word(b)) => Report::Word(difference(a, b)),
        (LESS, Report::Word(a), Report::Word(b)) => Report::Truth(less(a, b)),
        (NOT, Report::Truth(a), _) => Report::Truth(not(a)),
        (AND, Report::Truth(a), Report::Truth(b)) => Report::Truth(and(a, b)),
        (OR, Report::Truth(a), Report::Truth(b)) => Report::Truth(or(a, b)),
        _ if shape(op).truth => Report::Truth(EITHER),
        _ => Report::Word(ANY_WORD),
    }
}

/// The ends' sums, where even the highs' does not wrap.
fn sum(a: Span, b: Span) -> Span {
    match a.high.checked_add(b.high) {
        Some(high) => Span {
            low: a.low + b.low,
            high,
        },
        None => ANY_WORD,
    }
}

/// The ends' differences, where even the least from the most does not wrap.
fn difference(a: Span, b: Span) -> Span {
    if a.low >= b.high {
        Span {
            low: a.low - b.high,
            high: a.high - b.low,
        }
    } else {
        ANY_WORD
    }
}

fn less(a: Span, b: Span) -> Truths {
    if a.high < b.low {
        only(true)
    } else if a.low >= b.high {
        only(false)
    } else {
        EITHER
    }
}

fn only(truth: bool) -> Truths {
    Truths {
        may_be_false: !truth,
        may_be_true: truth,
    }
}

fn not(a: Truths) -> Truths {
    Truths {
        may_be_false: a.may_be_true,
        may_be_true: a.may_be_false,
    }
}

fn and(a: Truths, b: Truths) -> Truths {
    Truths {
        may_be_false: a.may_be_false || b.may_be_false,
        may_be_true: a.may_be_true && b.may_be_true,
    }
}

fn or(a: Truths, b: Truths) -> Truths {
    Truths {
        may_be_false: a.may_be_false && b.may_be_false,
        may_be_true: a.may_be_true || b.may_be_true,
    }
}

/// The side that the guard decides for, or what covers both.
fn report_choice(guard: Report, then: Report, other: Report) -> Report {
    if guard == Report::Truth(only(true)) {
        then
    } else if guard == Report::Truth(only(false)) {
        other
    } else {
        cover(then, other)
    }
}

/// The smallest report that covers both: open, where they are of different sorts.
fn cover(a: Report, b: Report) -> Report {
    match (a, b) {
        (Report::Truth(a), Report::Truth(b)) => Report::Truth(Truths {
            may_be_false: a.may_be_false || b.may_be_false,
            may_be_true: a.may_be_true || b.may_be_true,
        }),
        (Report::Word(a), Report::Word(b)) => Report::Word(Span {
            low: a.low.min(b.low),
            high: a.high.max(b.high),
        }),
        _ => Report::Open,
    }
}
