//! A session of the second evaluator that is kept from its opening, with the rules that it accepted.

use crate::compare::compare_read;
use crate::tally::Tally;
use second::{
    evaluate, open, read, result_of, run, Answer, Input, Outcome, ResultOf, Session, Word,
};

pub struct Kept {
    pub session: Session,
    pub table: Vec<u8>,
    /// Each with its reported depth.
    accepted: Vec<(Vec<u8>, u16)>,
    last: Option<ResultOf>,
}

impl Kept {
    pub fn open(inputs: &[Input; 16], bytes: usize) -> Kept {
        let mut table = vec![0; bytes];
        let session = open(inputs, &mut table).expect("a good opening");
        Kept {
            session,
            table,
            accepted: Vec::new(),
            last: None,
        }
    }

    pub fn evaluate(&mut self, rule: &[u8], allowance: u16) {
        let answer = evaluate(&mut self.session, &mut self.table, rule, allowance);
        if let Answer::Out { depth, .. } | Answer::Halt { depth, .. } = answer {
            self.accepted.push((rule.to_vec(), depth));
            self.last = result_of(answer);
        }
    }

    /// The last accepted result under these numbers, read by the desk too; nothing where no rule was accepted.
    pub fn read(&self, tally: &mut Tally, numbers: &[Word; 16]) -> Option<Outcome> {
        let Kept { session, table, .. } = self;
        let work = usize::from(session.count);
        let last = self.last.as_ref()?;
        compare_read(tally, session, table, numbers, last, work);
        Some(read(session, table, numbers, last, work))
    }

    /// The run of the accepted rules in turn, to the first that stops.
    pub fn run(&self, numbers: &[Word; 16]) -> Option<Outcome> {
        let mut ran = None;
        for (rule, depth) in &self.accepted {
            let outcome = run(&self.session.inputs, numbers, rule, *depth, 65_536);
            ran = Some(outcome);
            if matches!(outcome, Outcome::Abort | Outcome::Error) {
                break;
            }
        }
        ran
    }
}
