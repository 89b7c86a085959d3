//! A second evaluator for the yard rule desk, for comparing answers.

mod clauses;
pub mod cnf;
pub mod dice;
mod evaluate;
mod gates;
mod opening;
mod print;
mod read;
mod records;
mod rules;
mod run;
mod samples;
mod session;
pub mod solver;
mod spans;
mod state;
mod terms;
pub mod text;
mod witness;
mod words;

pub use clauses::{clauses, Goal, NoText};
pub use evaluate::{evaluate, Answer};
pub use opening::open;
pub use print::print;
pub use read::{read, result_of, term_readings, ResultOf};
pub use records::{records, Record};
pub use run::run;
pub use samples::read_all;
pub use session::{Input, Session};
pub use spans::{spans, Report, Span, Spans, Truths};
pub use witness::witness;
pub use words::{Word, WIDTH, WORD_BYTES};

/// What reading or a plain run answers. A procedure is its record number.
#[derive(Clone, Copy, PartialEq, Eq, Debug)]
pub enum Outcome {
    Truth(bool),
    Word(Word),
    Procedure(u16),
    Abort,
    Error,
    Refused(u8),
}
