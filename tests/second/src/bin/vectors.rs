//! Checks every answer of the vector files.

use second::text::{self, asked, hex, input, sixteen};
use second::{evaluate, open, print, read, records, run, spans, witness};
use second::{Answer, Input, Outcome, Report, ResultOf, Session};
use std::path::{Path, PathBuf};
use std::process::ExitCode;

/// Differences told in full; the rest are only counted.
const SHOWN: usize = 5;

fn main() -> ExitCode {
    match check(&folder()) {
        Ok(true) => ExitCode::SUCCESS,
        Ok(false) => ExitCode::FAILURE,
        Err(message) => {
            eprintln!("vectors: {message}");
            ExitCode::FAILURE
        }
    }
}

fn folder() -> PathBuf {
    match std::env::args_os().nth(1) {
        Some(argument) => PathBuf::from(argument),
        None => Path::new(env!("CARGO_MANIFEST_DIR")).join("../vectors"),
    }
}

fn check(folder: &Path) -> Result<bool, String> {
    let sessions = cases(&folder.join("sessions.txt"))?;
    let prints = cases(&folder.join("print.txt"))?;
    let spans = cases(&folder.join("spans.txt"))?;
    let witnesses = cases(&folder.join("witness.txt"))?;
    let mut wrong = Vec::new();
    for case in &sessions {
        wrong.extend(difference(case, replay_session(case)));
    }
    for case in spans.iter().chain(&witnesses) {
        wrong.extend(difference(case, replay_answers(case)));
    }
    for case in &prints {
        wrong.extend(difference(case, replay_print(case)));
    }
    for text in wrong.iter().take(SHOWN) {
        println!("{text}");
    }
    println!(
        "vectors: {} sessions, {} prints, {} sessions with spans, {} with witnesses, {} wrong",
        sessions.len(),
        prints.len(),
        spans.len(),
        witnesses.len(),
        wrong.len()
    );
    Ok(wrong.is_empty())
}

/// The lines of one case, with the number of the first.
struct Case {
    line: usize,
    lines: Vec<String>,
}

/// A line with a dot ends each case; a file that stops short of one is broken.
fn cases(path: &Path) -> Result<Vec<Case>, String> {
    let name = path.display();
    let text = std::fs::read_to_string(path).map_err(|error| format!("{name}: {error}"))?;
    let mut cases = Vec::new();
    let mut lines = Vec::new();
    for (number, line) in text.lines().enumerate() {
        if line == "." {
            let lines = std::mem::take(&mut lines);
            let line = number + 1 - lines.len();
            cases.push(Case { line, lines });
        } else {
            lines.push(line.to_string());
        }
    }
    if lines.is_empty() && !cases.is_empty() {
        Ok(cases)
    } else {
        Err(format!("{name}: no whole cases"))
    }
}

/// The first line in which a case and its replay differ.
fn difference(case: &Case, replayed: Option<Vec<String>>) -> Option<String> {
    let Some(replayed) = replayed else {
        return Some(format!("line {}: not understood", case.line));
    };
    let lines = case.lines.len().max(replayed.len());
    let at = (0..lines).find(|&at| case.lines.get(at) != replayed.get(at))?;
    let show = |lines: &[String]| lines.get(at).map_or("nothing", String::as_str).to_string();
    Some(format!(
        "line {}: expected {}, got {}",
        case.line + at,
        show(&case.lines),
        show(&replayed)
    ))
}

fn replay_print(case: &Case) -> Option<Vec<String>> {
    let name = case.lines.first()?;
    let input = case.lines.get(1)?;
    let bytes = hex(input.strip_prefix("in")?.trim())?;
    let mut lines = vec![name.clone(), input.clone()];
    lines.extend(print(&bytes).lines().map(String::from));
    Some(lines)
}

/// A session under replay; without one opened it has no count.
struct Replay {
    inputs: [Input; 16],
    table: Vec<u8>,
    session: Option<Session>,
    last: Option<ResultOf>,
}

/// The case again, each answer and the table's terms worked out anew.
fn replay_session(case: &Case) -> Option<Vec<String>> {
    let mut replay = Replay::new();
    let mut lines = replay.answers(case)?;
    lines.extend(replay.terms());
    Some(lines)
}

/// The same of a case with spans or witnesses, which ends without the terms.
fn replay_answers(case: &Case) -> Option<Vec<String>> {
    Replay::new().answers(case)
}

impl Replay {
    fn new() -> Replay {
        Replay {
            inputs: [Input::default(); 16],
            table: Vec::new(),
            session: None,
            last: None,
        }
    }

    /// Each command with its answer, which takes a line, or of spans one for each term.
    fn answers(&mut self, case: &Case) -> Option<Vec<String>> {
        let mut lines = Vec::new();
        for line in &case.lines {
            let mut fields = line.split_whitespace();
            let command = fields.next()?;
            let fields: Vec<&str> = fields.collect();
            let answer = match command {
                "open" => vec![self.open(&fields)?],
                "eval" => vec![self.evaluate(&fields)?],
                "read" => vec![self.read(&fields)?],
                "run" => vec![self.run(&fields)?],
                "spans" => self.spans(&fields)?,
                "witness" => vec![self.witness(&fields)?],
                _ => continue,
            };
            lines.push(line.clone());
            lines.extend(answer);
        }
        Some(lines)
    }

    fn open(&mut self, fields: &[&str]) -> Option<String> {
        let (bytes, inputs) = fields.split_first()?;
        self.table = vec![0; bytes.parse().ok()?];
        self.inputs = sixteen(inputs, input)?;
        Some(match open(&self.inputs, &mut self.table) {
            Ok(session) => {
                self.session = Some(session);
                format!("opened {}", session.count)
            }
            Err(refusal) => format!("refused {refusal}"),
        })
    }

    fn evaluate(&mut self, fields: &[&str]) -> Option<String> {
        let (allowance, rule) = fields.split_first()?;
        let rule = hex(&rule.concat())?;
        let session = self.session.as_mut()?;
        let answer = evaluate(session, &mut self.table, &rule, allowance.parse().ok()?);
        let (s, t, value, depth) = match answer {
            Answer::Out { s, t, value, depth } => (s, t, Some(value), depth),
            Answer::Halt { s, t, depth } => (s, t, None, depth),
            Answer::Refused(refusal) => return Some(format!("refused {refusal}")),
        };
        self.last = Some(ResultOf {
            s,
            t,
            value: value.unwrap_or(0),
            halted: value.is_none(),
        });
        let ended = match value {
            Some(value) => format!("out {s} {t} {value}"),
            None => format!("halt {s} {t} none"),
        };
        let (count, accepted) = (session.count, session.accepted);
        Some(format!(
            "answer {ended} depth {depth} count {count} accepted {accepted}"
        ))
    }

    fn read(&self, fields: &[&str]) -> Option<String> {
        let numbers = sixteen(fields, |field| field.parse().ok())?;
        let session = self.session?;
        let work = usize::from(session.count);
        let outcome = read(&session, &self.table, &numbers, &self.last?, work);
        Some(told("reads", outcome))
    }

    fn run(&self, fields: &[&str]) -> Option<String> {
        let (first, numbers) = fields.split_at_checked(fields.len().checked_sub(16)?)?;
        let (&[allowance, store], rule) = first.split_first_chunk()?;
        let numbers = sixteen(numbers, |field| field.parse().ok())?;
        let rule = hex(&rule.concat())?;
        let (allowance, store) = (allowance.parse().ok()?, store.parse().ok()?);
        let outcome = run(&self.inputs, &numbers, &rule, allowance, store);
        Some(told("ran", outcome))
    }

    fn spans(&self, fields: &[&str]) -> Option<Vec<String>> {
        let (list, ends) = fields.split_first()?;
        let given = text::spans(ends)?;
        let answer = spans(&self.session?, &self.table, &given, list.parse().ok()?);
        Some(match answer {
            Ok(reports) => (0..).zip(reports).map(reported).collect(),
            Err(refusal) => vec![format!("refused {refusal}")],
        })
    }

    fn witness(&self, fields: &[&str]) -> Option<String> {
        let asked = asked(fields)?;
        let (session, last) = (self.session?, self.last?);
        let spans = asked.spans.as_ref();
        let answer = witness(&session, &self.table, &last, asked.goal, spans, asked.work);
        Some(match answer {
            Ok(Some(numbers)) => format!("found {}", numbers.map(|n| n.to_string()).join(" ")),
            Ok(None) => "none".to_string(),
            Err(refusal) => format!("refused {refusal}"),
        })
    }

    fn terms(&self) -> Vec<String> {
        let count = self.session.map_or(0, |session| session.count);
        records(&self.table)
            .take(usize::from(count))
            .enumerate()
            .map(|(number, r)| format!("{number} {} {} {} {} {}", r.kind, r.op, r.a, r.b, r.c))
            .collect()
    }
}

fn reported((number, report): (usize, Report)) -> String {
    match report {
        Report::Open => format!("{number} open"),
        Report::Truth(truths) => {
            let [no, yes] = [truths.may_be_false, truths.may_be_true].map(u8::from);
            format!("{number} truth {no} {yes}")
        }
        Report::Word(span) => format!("{number} word {} {}", span.low, span.high),
    }
}

fn told(verb: &str, outcome: Outcome) -> String {
    match outcome {
        Outcome::Truth(truth) => format!("{verb} truth {}", u8::from(truth)),
        Outcome::Word(word) => format!("{verb} word {word}"),
        Outcome::Procedure(record) => format!("{verb} procedure {record}"),
        Outcome::Abort => format!("{verb} abort"),
        Outcome::Error => format!("{verb} error"),
        Outcome::Refused(refusal) => format!("refused {refusal}"),
    }
}
