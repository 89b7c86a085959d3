//! A bale that does it: input 0 is a free truth, the gate, input 1 a free word, the head, and the others are the word 100; the
//! rule is "if gate, let below be head < 100; if below, head + 100, else error; else abort". For an error, an abort and two words,
//! prints the gate and the head of the first bale that brings them about, or that there is none; then the same of an error with a
//! head that never reads above 99.

use desk::forms::{Word, SAMPLE};
use desk::{Desk, Goal, Input, Refusal};

const RULE: [[u8; 8]; 7] = [
    [7, 0, 0, 0, 1, 0, 6, 0],
    [6, 0, 2, 0, 3, 0, 0, 0],
    [5, 11, 1, 0, 2, 0, 0, 0],
    [7, 0, 0, 0, 4, 0, 5, 0],
    [5, 1, 2, 0, 3, 0, 0, 0],
    [9, 0, 0, 0, 0, 0, 0, 0],
    [8, 0, 0, 0, 0, 0, 0, 0],
];

const GOALS: [(&str, Goal); 4] = [
    ("error", Goal::Errs),
    ("abort", Goal::Aborts),
    ("word 142", Goal::Gives(142)),
    ("word 200", Goal::Gives(200)),
];

fn main() -> Result<(), Refusal> {
    let mut inputs = [Input::ConstantWord(100); 16];
    inputs[0] = Input::FreeTruth;
    inputs[1] = Input::FreeWord;
    let mut desk = Desk::open(&inputs, 65_536)?;
    let answer = desk.evaluate(&RULE.concat(), 100)?;
    for (name, goal) in GOALS {
        println!("{name}: {}", told(desk.witness(answer, goal)?));
    }
    let below = desk.witness_within(answer, Goal::Errs, &[0; 16], &[99; 16])?;
    println!("error, head 0 to 99: {}", told(below));
    Ok(())
}

fn told(witness: Option<[Word; SAMPLE]>) -> String {
    match witness {
        Some([gate, head, ..]) => format!("gate {gate}, head {head}"),
        None => "none".to_string(),
    }
}
