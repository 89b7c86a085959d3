//! What a solver is asked of a rule: input 0 is a free word, the head, and the others are the word 100; the rule is "let below
//! be head < 100; if below, word 7, else error". For each of three goals, an error, an abort and the word 7, prints the problem
//! line of the clauses, how many bytes their text has, and its last line.

use desk::{Desk, Goal, Input, Refusal};

const RULE: [[u8; 8]; 5] = [
    [6, 0, 1, 0, 2, 0, 0, 0],
    [5, 11, 0, 0, 1, 0, 0, 0],
    [7, 0, 0, 0, 3, 0, 4, 0],
    [1, 2, 7, 0, 0, 0, 0, 0],
    [9, 0, 0, 0, 0, 0, 0, 0],
];

const GOALS: [(&str, Goal); 3] = [
    ("error", Goal::Errs),
    ("abort", Goal::Aborts),
    ("word 7", Goal::Gives(7)),
];

fn main() -> Result<(), Refusal> {
    let mut inputs = [Input::ConstantWord(100); 16];
    inputs[0] = Input::FreeWord;
    let mut desk = Desk::open(&inputs, 65_536)?;
    let answer = desk.evaluate(&RULE.concat(), 100)?;
    for (name, goal) in GOALS {
        let text = desk.clauses(answer, goal)?;
        let (first, last) = (text.lines().next(), text.lines().last());
        println!("{name}: {} bytes", text.len());
        println!("{}", first.expect("the problem line"));
        println!("{}", last.expect("the goal's clause"));
    }
    Ok(())
}
