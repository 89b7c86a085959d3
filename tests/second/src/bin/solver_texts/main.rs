//! Texts for a solver, and whether some reading reaches the goal of each, which all readings together tell.
//!
//! `solver_texts DIR` makes random rules of few free bits and writes the text of each goal as NAME.cnf, with an index of what
//! they were made of; `--keep N` after it writes N of them alone, short ones that still have every operator, goal and verdict.
//! `solver_texts --check DIR` makes each text of an index anew and holds it, its verdict and the solver's answer in NAME.answer
//! against what is read: of a text that can be satisfied the input variables must be a reading that reaches the goal.

mod answers;
mod keep;
mod readings;
mod rules;
mod trial;

use second::dice::Dice;
use second::solver::INDEX;
use std::path::Path;
use std::process::ExitCode;
use trial::Trial;

/// How many rules are made whose readings can all be read.
const RULES: usize = 160;

fn main() -> ExitCode {
    let words: Vec<String> = std::env::args().skip(1).collect();
    let done = match words.iter().map(String::as_str).collect::<Vec<_>>()[..] {
        ["--check", folder] => answers::check(Path::new(folder)),
        [folder] => write(Path::new(folder), None),
        [folder, "--keep", count] => match count.parse() {
            Ok(count) => write(Path::new(folder), Some(count)),
            Err(error) => Err(format!("{count}: {error}")),
        },
        _ => Err("expected DIR, DIR --keep N or --check DIR".to_string()),
    };
    match done {
        Ok(told) => {
            println!("{told}");
            ExitCode::SUCCESS
        }
        Err(message) => {
            eprintln!("solver_texts: {message}");
            ExitCode::FAILURE
        }
    }
}

fn write(folder: &Path, keep: Option<usize>) -> Result<String, String> {
    let mut dice = Dice(0x501fe2);
    let rules = std::iter::repeat_with(|| Trial::of_a_rule(&mut dice)).flatten();
    let mut trials: Vec<Trial> = rules.take(RULES).flatten().collect();
    if let Some(count) = keep {
        trials = keep::keep(trials, count);
    }
    write_all(folder, &trials).map_err(|error| format!("{}: {error}", folder.display()))?;
    let satisfied = trials.iter().filter(|trial| trial.reached).count();
    let bytes: usize = trials.iter().map(|trial| trial.text.len()).sum();
    let texts = trials.len();
    Ok(format!(
        "{texts} texts of {bytes} bytes, of which {satisfied} can be satisfied"
    ))
}

fn write_all(folder: &Path, trials: &[Trial]) -> std::io::Result<()> {
    std::fs::create_dir_all(folder)?;
    let mut index = String::new();
    for (number, trial) in trials.iter().enumerate() {
        let entry = trial.entry(format!("{number:03}"));
        std::fs::write(entry.text_path(folder), &trial.text)?;
        index.push_str(&entry.lines());
    }
    std::fs::write(folder.join(INDEX), index)
}
