//! The texts of a folder that a solver was asked about: an index of what each was made of, and the solver's answers.

use crate::clauses::Goal;
use crate::cnf::wire;
use crate::records::Record;
use crate::session::Input;
use crate::text::{goal, hex, input, sixteen};
use crate::words::Word;
use std::collections::HashSet;
use std::fs;
use std::path::{Path, PathBuf};

/// The index has the lines of an entry as the vectors have them, and a line with a dot after each.
pub const INDEX: &str = "index.txt";

/// What a text was made of, and whether some reading reaches the goal.
pub struct Entry {
    pub name: String,
    pub table: usize,
    pub inputs: [Input; 16],
    pub allowance: u16,
    pub rule: Vec<u8>,
    pub goal: Goal,
    pub reached: bool,
}

impl Entry {
    /// All of a folder; an index that lost its entries would have nothing to hold against.
    pub fn all(folder: &Path) -> Result<Vec<Entry>, String> {
        let index = file(&folder.join(INDEX))?;
        let entries = index.split("\n.\n").filter(|lines| !lines.is_empty());
        let entries: Vec<Entry> = entries
            .map(|lines| Entry::parse(lines).ok_or_else(|| format!("not understood: {lines}")))
            .collect::<Result<_, _>>()?;
        if entries.is_empty() {
            return Err(format!("{}: no entries", folder.display()));
        }
        Ok(entries)
    }

    fn parse(lines: &str) -> Option<Entry> {
        let lines: Vec<Vec<&str>> = lines
            .lines()
            .map(|line| line.split(' ').collect())
            .collect();
        let [name, open, eval, asked, verdict] = &lines[..] else {
            return None;
        };
        Some(Entry {
            name: name.get(1)?.to_string(),
            table: open.get(1)?.parse().ok()?,
            inputs: sixteen(open.get(2..)?, input)?,
            allowance: eval.get(1)?.parse().ok()?,
            rule: hex(eval.get(2)?)?,
            goal: goal(asked.get(1..)?)?,
            reached: match verdict[..] {
                [_, "sat"] => true,
                [_, "unsat"] => false,
                _ => return None,
            },
        })
    }

    /// As the index has it.
    pub fn lines(&self) -> String {
        let Entry {
            name,
            table,
            allowance,
            ..
        } = self;
        let inputs = self
            .inputs
            .map(|input| format!("{}:{}", input.kind, input.value))
            .join(" ");
        let rule: String = self.rule.iter().map(|byte| format!("{byte:02x}")).collect();
        let goal = match self.goal {
            Goal::Errs => "errs".to_string(),
            Goal::Aborts => "aborts".to_string(),
            Goal::Gives(word) => format!("gives {word}"),
        };
        let verdict = if self.reached { "sat" } else { "unsat" };
        format!("text {name}\nopen {table} {inputs}\neval {allowance} {rule}\ngoal {goal}\nverdict {verdict}\n.\n")
    }

    fn path(&self, folder: &Path, extension: &str) -> PathBuf {
        folder.join(&self.name).with_extension(extension)
    }

    pub fn text_path(&self, folder: &Path) -> PathBuf {
        self.path(folder, "cnf")
    }

    pub fn text(&self, folder: &Path) -> Result<String, String> {
        file(&self.text_path(folder))
    }

    pub fn answer(&self, folder: &Path) -> Result<SolverAnswer, String> {
        let lines = file(&self.path(folder, "answer"))?;
        SolverAnswer::parse(&lines).ok_or_else(|| format!("not understood: {lines}"))
    }
}

fn file(path: &Path) -> Result<String, String> {
    fs::read_to_string(path).map_err(|error| format!("{}: {error}", path.display()))
}

/// Whether a solver says that a text can be satisfied, and the literals that do it.
pub struct SolverAnswer {
    pub satisfied: bool,
    literals: HashSet<i64>,
}

impl SolverAnswer {
    /// As solvers print it: `s` and the verdict, `v` and literals; other lines are passed over.
    fn parse(lines: &str) -> Option<SolverAnswer> {
        let mut satisfied = None;
        let mut literals = HashSet::new();
        for line in lines.lines() {
            match line.split_once(' ') {
                Some(("s", "SATISFIABLE")) => satisfied = Some(true),
                Some(("s", "UNSATISFIABLE")) => satisfied = Some(false),
                Some(("v", some)) => {
                    let numbers: Result<Vec<i64>, _> =
                        some.split_whitespace().map(str::parse).collect();
                    literals.extend(numbers.ok()?);
                }
                _ => {}
            }
        }
        Some(SolverAnswer {
            satisfied: satisfied?,
            literals,
        })
    }

    /// The reading that the input variables are; nothing where the answer has none of a variable and its opposite.
    pub fn numbers(&self, terms: &[Record]) -> Option<[Word; 16]> {
        let mut numbers = [0; 16];
        for (number, term) in terms.iter().enumerate() {
            let bits = match term.kind {
                3 => 1,
                4 => Word::BITS as usize,
                _ => 0,
            };
            for bit in 0..bits {
                let variable = wire(number, 2 + bit);
                let holds = self.literals.contains(&variable);
                if !holds && !self.literals.contains(&-variable) {
                    return None;
                }
                numbers[usize::from(term.a)] |= Word::from(holds) << bit;
            }
        }
        Some(numbers)
    }
}
