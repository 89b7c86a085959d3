//! A moisture head that never reads above its ceiling: input 0 is a free word, the others are the word 100; the rule is
//! "let below be head < 100; if below, word 7, else error". For a ceiling of 99 and for one of 100, prints what the rule's
//! terms may read as, and whether a reading within the span can err.

use desk::{Desk, Input, Refusal, Report};

const RULE: [[u8; 8]; 5] = [
    [6, 0, 1, 0, 2, 0, 0, 0],
    [5, 11, 0, 0, 1, 0, 0, 0],
    [7, 0, 0, 0, 3, 0, 4, 0],
    [1, 2, 7, 0, 0, 0, 0, 0],
    [9, 0, 0, 0, 0, 0, 0, 0],
];

fn main() -> Result<(), Refusal> {
    let mut inputs = [Input::ConstantWord(100); 16];
    inputs[0] = Input::FreeWord;
    let mut desk = Desk::open(&inputs, 65_536)?;
    let opened = desk.count();
    desk.evaluate(&RULE.concat(), 100)?;
    let lows = [0; 16];
    for ceiling in [99, 100] {
        let highs = [ceiling; 16];
        println!("head 0 to {ceiling}");
        let reports = desk.spans(&lows, &highs)?;
        for (number, report) in reports.iter().enumerate().skip(usize::from(opened)) {
            println!("{number} {}", told(*report));
        }
        let errs = if desk.never_errs(&lows, &highs)? {
            "no reading errs"
        } else {
            "a reading may err"
        };
        println!("{errs}");
    }
    Ok(())
}

fn told(report: Report) -> String {
    match report {
        Report::Open => "open".to_string(),
        Report::Truth {
            may_be_false: false,
            ..
        } => "true".to_string(),
        Report::Truth {
            may_be_true: false, ..
        } => "false".to_string(),
        Report::Truth { .. } => "false or true".to_string(),
        Report::Word { low, high } => format!("{low} to {high}"),
    }
}
