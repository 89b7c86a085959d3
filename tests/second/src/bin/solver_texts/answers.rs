//! A solver's answers held against the readings.

use crate::trial::Evaluated;
use second::solver::{Entry, SolverAnswer};
use second::{read, Goal, Outcome};
use std::path::Path;

pub fn check(folder: &Path) -> Result<String, String> {
    let entries = Entry::all(folder)?;
    let mut satisfied = 0;
    for entry in &entries {
        let reached = check_entry(folder, entry);
        let reached = reached.map_err(|what| format!("{}: {what}", entry.name))?;
        satisfied += usize::from(reached);
    }
    let texts = entries.len();
    Ok(format!(
        "{texts} texts, verdicts and answers, of which {satisfied} are readings that reach the goal"
    ))
}

/// Whether some reading reaches the goal.
fn check_entry(folder: &Path, entry: &Entry) -> Result<bool, String> {
    let evaluated = Evaluated::new(&entry.inputs, &entry.rule).ok_or("a rule that is refused")?;
    if entry.text(folder)?.as_bytes() != evaluated.text(entry.goal) {
        return Err("another text".to_string());
    }
    let reached = evaluated.reached().ok_or("too many readings")?;
    if reached.reaches(entry.goal) != entry.reached {
        return Err("another verdict".to_string());
    }
    let answer = entry.answer(folder)?;
    if answer.satisfied != entry.reached {
        return Err("the solver says otherwise".to_string());
    }
    if answer.satisfied {
        reaches(entry, &evaluated, &answer)?;
    }
    Ok(answer.satisfied)
}

/// "the input variables of any satisfying assignment are such a reading"
fn reaches(entry: &Entry, evaluated: &Evaluated, answer: &SolverAnswer) -> Result<(), String> {
    let numbers = answer.numbers(&evaluated.terms());
    let numbers = numbers.ok_or("an input variable is missing")?;
    let Evaluated {
        session,
        table,
        result,
    } = evaluated;
    let outcome = read(session, table, &numbers, result, usize::from(session.count));
    let wanted = match entry.goal {
        Goal::Errs => Outcome::Error,
        Goal::Aborts => Outcome::Abort,
        Goal::Gives(word) => Outcome::Word(word),
    };
    if outcome == wanted {
        Ok(())
    } else {
        Err(format!("{numbers:?} reads as {outcome:?}"))
    }
}
