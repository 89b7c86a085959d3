//! Sessions of many rules, for the benchmarks.

use second::{evaluate, open, result_of, Answer, Input, ResultOf, Session};

/// A session over a table that is no longer than its terms, and the result of its last accepted rule.
pub struct Grown {
    pub session: Session,
    pub table: Vec<u8>,
    pub result: ResultOf,
}

/// A rule that makes fewer terms is passed over.
const FEW: u16 = 9;

/// Rules in turn until one finds no room for its terms, or all rules are accepted that can be; those that are refused
/// otherwise, halt or make few terms are passed over.
pub fn grown(inputs: &[Input; 16], terms: u16, rules: impl Iterator<Item = Vec<u8>>) -> Grown {
    let mut table = vec![0; 8 * usize::from(terms)];
    let mut session = open(inputs, &mut table).expect("a good opening");
    let mut last = None;
    for bytes in rules {
        let (mut next, mut after) = (session, table.clone());
        let answer = evaluate(&mut next, &mut after, &bytes, 256);
        if matches!(answer, Answer::Refused(9 | 11)) {
            break;
        }
        let result = result_of(answer).filter(|result| !result.halted);
        if result.is_some() && next.count >= session.count + FEW {
            (session, table, last) = (next, after, result);
        }
    }
    table.truncate(8 * usize::from(session.count));
    Grown {
        session,
        table,
        result: last.expect("an accepted rule"),
    }
}
