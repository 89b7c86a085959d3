//! The vectors' cases through the desk. What they expect is checked on the second evaluator, by its program `vectors`.

use crate::compare::{compare_open, compare_read, compare_run, compare_spans, compare_witness};
use crate::desk::{word, INPUT, INPUTS, REPORT, WORD};
use crate::evaluations::Pair;
use crate::tally::Tally;
use second::text::{asked, hex, input, sixteen, spans};
use second::{result_of, Answer, Input, ResultOf};

const SESSIONS: &str = include_str!("../../vectors/sessions.txt");
const SPANS: &str = include_str!("../../vectors/spans.txt");
const WITNESSES: &str = include_str!("../../vectors/witness.txt");
const PRINTS: &str = include_str!("../../vectors/print.txt");

pub fn all(tally: &mut Tally) {
    let cases = [SESSIONS, SPANS, WITNESSES].into_iter().flat_map(cases_of);
    for case in cases {
        let replayed = session(tally, case);
        tally.same("a session is understood", replayed, Some(()));
    }
    for line in PRINTS.lines().filter_map(|line| line.strip_prefix("in ")) {
        let bytes = hex(line.trim()).expect("hexadecimal digits");
        print(tally, &bytes);
    }
}

fn cases_of(text: &str) -> impl Iterator<Item = &str> {
    text.split("\n.\n").filter(|case| !case.is_empty())
}

/// A session's commands; the lines between them are what the vectors expect.
fn session(tally: &mut Tally, case: &str) -> Option<()> {
    let mut inputs = [Input::default(); 16];
    let mut pair = None;
    let mut last: Option<ResultOf> = None;
    for line in case.lines() {
        let fields: Vec<&str> = line.split_whitespace().collect();
        let (command, fields) = fields.split_first()?;
        match *command {
            "open" => {
                let (bytes, rest) = fields.split_first()?;
                let bytes = bytes.parse().ok()?;
                inputs = sixteen(rest, input)?;
                compare_open(tally, &inputs, bytes);
                pair = Pair::open(&inputs, bytes);
            }
            "eval" => {
                let (allowance, rule) = fields.split_first()?;
                let rule = hex(&rule.concat())?;
                let answer = pair
                    .as_mut()?
                    .evaluate(tally, &rule, allowance.parse().ok()?);
                last = result_of(answer).or(last);
            }
            "read" => {
                let numbers = sixteen(fields, |field| field.parse().ok())?;
                let Pair {
                    session, theirs, ..
                } = pair.as_ref()?;
                let count = usize::from(session.count);
                compare_read(tally, session, theirs, &numbers, &last?, count);
            }
            "run" => {
                let (first, numbers) = fields.split_at_checked(fields.len().checked_sub(16)?)?;
                let (&[allowance, store], rule) = first.split_first_chunk()?;
                let numbers = sixteen(numbers, |field| field.parse().ok())?;
                let rule = hex(&rule.concat())?;
                let (allowance, store) = (allowance.parse().ok()?, store.parse().ok()?);
                compare_run(tally, &inputs, &numbers, &rule, allowance, store);
            }
            "spans" => {
                let (list, ends) = fields.split_first()?;
                let Pair {
                    session, theirs, ..
                } = pair.as_ref()?;
                let numbers = REPORT * list.parse::<usize>().ok()?;
                compare_spans(tally, session, theirs, &spans(ends)?, numbers);
            }
            "witness" => {
                let asked = asked(fields)?;
                let Pair {
                    session, theirs, ..
                } = pair.as_ref()?;
                let (goal, given) = (asked.goal, asked.spans.as_ref());
                compare_witness(tally, session, theirs, &last?, goal, given, asked.work);
            }
            _ => continue,
        }
    }
    Some(())
}

/// A printing program's input: the rule as given, and again with every smaller table and allowance.
fn print(tally: &mut Tally, bytes: &[u8]) {
    let Some((head, rule)) = bytes.split_at_checked(INPUTS) else {
        return;
    };
    let inputs = std::array::from_fn(|i| Input {
        kind: head[INPUT * i],
        value: word(&head[INPUT * i + WORD..INPUT * (i + 1)]),
    });
    compare_open(tally, &inputs, 65_536);
    let Some(mut pair) = Pair::open(&inputs, 65_536) else {
        return;
    };
    let depth = match pair.evaluate(tally, rule, 100) {
        Answer::Out { depth, .. } | Answer::Halt { depth, .. } => depth,
        Answer::Refused(_) => return,
    };
    for terms in 34..usize::from(pair.session.count).min(300) {
        let mut smaller = Pair::open(&inputs, 8 * terms).expect("a good opening");
        smaller.evaluate(tally, rule, 100);
    }
    for allowance in 0..=depth {
        let mut shallower = Pair::open(&inputs, 65_536).expect("a good opening");
        shallower.evaluate(tally, rule, allowance);
    }
}
