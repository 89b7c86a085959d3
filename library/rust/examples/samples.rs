//! A day's bales at a stroke: input 0 is a free truth, the gate, input 1 a free word, the head, and the others are the word
//! 100; the rule is "if gate, let below be head < 100; if below, head + 100, else error; else abort". Prints what its result
//! reads as under each of five bales, one of them with a gate that is neither 0 nor 1, all read in one call.

use desk::forms::{Word, SAMPLE};
use desk::{Desk, Input, Reading, Refusal};

const RULE: [[u8; 8]; 7] = [
    [7, 0, 0, 0, 1, 0, 6, 0],
    [6, 0, 2, 0, 3, 0, 0, 0],
    [5, 11, 1, 0, 2, 0, 0, 0],
    [7, 0, 0, 0, 4, 0, 5, 0],
    [5, 1, 2, 0, 3, 0, 0, 0],
    [9, 0, 0, 0, 0, 0, 0, 0],
    [8, 0, 0, 0, 0, 0, 0, 0],
];

/// The gate and the head of each bale's sample; the numbers of the constants are ignored.
const SAMPLES: [(Word, Word); 5] = [(1, 42), (1, 100), (0, 42), (2, 42), (1, 99)];

fn main() -> Result<(), Refusal> {
    let mut inputs = [Input::ConstantWord(100); 16];
    inputs[0] = Input::FreeTruth;
    inputs[1] = Input::FreeWord;
    let mut desk = Desk::open(&inputs, 65_536)?;
    let answer = desk.evaluate(&RULE.concat(), 100)?;
    let samples = SAMPLES.map(|(gate, head)| {
        let mut numbers = [0; SAMPLE];
        (numbers[0], numbers[1]) = (gate, head);
        numbers
    });
    for (number, reading) in desk.read_all(answer, &samples)?.into_iter().enumerate() {
        println!("bale {number}: {}", told(reading));
    }
    Ok(())
}

fn told(reading: Result<Reading, Refusal>) -> String {
    match reading {
        Ok(Reading::Truth(truth)) => format!("truth {}", u8::from(truth)),
        Ok(Reading::Word(word)) => format!("word {word}"),
        Ok(Reading::Procedure(record)) => format!("procedure {record}"),
        Ok(Reading::Abort) => "abort".to_string(),
        Ok(Reading::Error) => "error".to_string(),
        Err(Refusal(number)) => format!("refused {number}"),
    }
}
