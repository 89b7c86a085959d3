//! Document 01's printed case: input 0 a free truth, the others constant false; the rule is "if place 0, word 7, else
//! error". Prints what the printing program prints, then the readings and the plain runs under true and under false.

use desk::{run, Answer, Desk, Input, Reading, Refusal};

const RULE: [[u8; 8]; 3] = [
    [7, 0, 0, 0, 1, 0, 2, 0],
    [1, 2, 7, 0, 0, 0, 0, 0],
    [9, 0, 0, 0, 0, 0, 0, 0],
];

fn main() -> Result<(), Refusal> {
    let mut inputs = [Input::ConstantTruth(false); 16];
    inputs[0] = Input::FreeTruth;
    let rule = RULE.concat();
    let mut desk = Desk::open(&inputs, 65_536)?;
    let opened = desk.count();
    let answer = desk.evaluate(&rule, 100)?;
    let count = desk.count();
    let depth = match answer {
        Answer::Out {
            assumed,
            asserted,
            value,
            depth,
        } => {
            println!("out {assumed} {asserted} {value} {count}");
            depth
        }
        Answer::Halt {
            assumed,
            asserted,
            depth,
        } => {
            println!("halt {assumed} {asserted} {count}");
            depth
        }
    };
    for i in opened..count {
        let [kind, op, a, b, c] = desk.term(i).expect("a term below the count");
        println!("{i} {kind} {op} {a} {b} {c}");
    }
    for truth in [1, 0] {
        let mut numbers = [0; 16];
        numbers[0] = truth;
        println!("read {truth}: {}", told(desk.read(answer, &numbers)?));
        let ran = run(&inputs, &numbers, &rule, depth, 16)?;
        println!("run {truth}: {}", told(ran));
    }
    Ok(())
}

fn told(reading: Reading) -> String {
    match reading {
        Reading::Truth(truth) => format!("truth {}", u8::from(truth)),
        Reading::Word(word) => format!("word {word}"),
        Reading::Procedure(record) => format!("procedure {record}"),
        Reading::Abort => "abort".to_string(),
        Reading::Error => "error".to_string(),
    }
}
