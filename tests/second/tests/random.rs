mod common;

use common::opened;
use second::dice::Dice;
use second::{evaluate, print, read, run, Answer, Input, Outcome, ResultOf, Session, Word};

/// What the accepted rules give when run in turn, each with its reported depth.
fn run_list(inputs: &[Input; 16], numbers: &[Word; 16], rules: &[(Vec<u8>, u16)]) -> Outcome {
    let mut last = Outcome::Refused(0);
    for (rule, depth) in rules {
        last = run(inputs, numbers, rule, *depth, 65_536);
        if matches!(last, Outcome::Abort | Outcome::Error | Outcome::Refused(_)) {
            break;
        }
    }
    last
}

fn depth_and_result(answer: Answer) -> Option<(u16, ResultOf)> {
    let (s, t, value, halted, depth) = match answer {
        Answer::Out { s, t, value, depth } => (s, t, value, false, depth),
        Answer::Halt { s, t, depth } => (s, t, 0, true, depth),
        Answer::Refused(_) => return None,
    };
    let result = ResultOf {
        s,
        t,
        value,
        halted,
    };
    Some((depth, result))
}

/// The reported depth gives the same answer, and one less runs out.
fn check_depth(session: &Session, table: &[u8], rule: &[u8], answer: Answer, depth: u16) {
    let again = |allowance| {
        let (mut session, mut table) = (*session, table.to_vec());
        evaluate(&mut session, &mut table, rule, allowance)
    };
    assert_eq!(again(depth), answer);
    let less = if depth == 1 { 8 } else { 12 };
    assert_eq!(again(depth - 1), Answer::Refused(less));
}

#[test]
fn readings_agree_with_plain_runs() {
    let mut dice = Dice(0x5eed);
    let (mut outs, mut halts) = (0, 0);
    for _ in 0..1_500 {
        let inputs = dice.inputs();
        let (mut session, mut table) = opened(&inputs, 4_096);
        let mut accepted = Vec::new();
        for _ in 0..3 {
            let size = dice.below(24) + 1;
            let rule = dice.rule(size);
            let before = (session, table.clone());
            let answer = evaluate(&mut session, &mut table, &rule, 24);
            let Some((depth, result)) = depth_and_result(answer) else {
                assert!((session, table.clone()) == before);
                continue;
            };
            check_depth(&before.0, &before.1, &rule, answer, depth);
            accepted.push((rule, depth));
            if result.halted {
                halts += 1;
            } else {
                outs += 1;
            }
            for _ in 0..4 {
                let numbers = dice.numbers(&inputs);
                let outcome = read(&session, &table, &numbers, &result, 512);
                assert_eq!(outcome, run_list(&inputs, &numbers, &accepted));
            }
        }
    }
    assert!(outs > 1_000 && halts > 100, "{outs} {halts}");
}

#[test]
fn stray_bytes_never_panic() {
    let mut dice = Dice(0xb17e);
    for _ in 0..3_000 {
        let length = dice.below(160) as usize;
        let mut bytes: Vec<u8> = (0..length)
            .map(|_| dice.pick(&[0, 0, 0, 1, 2, 3, 4, 5, 6, 7, 8, 9, 255]))
            .collect();
        let text = print(&bytes);
        assert!(text.ends_with('\n'));
        let inputs = dice.inputs();
        run(&inputs, &[1; 16], &bytes, 9, length * 8);
        let (mut session, mut table) = opened(&inputs, 320);
        evaluate(&mut session, &mut table, &bytes, 9);
        session.count = dice.below(60) as u16;
        bytes.truncate(40);
        let at = dice.below(280) as usize;
        table[at..at + bytes.len()].copy_from_slice(&bytes);
        evaluate(&mut session, &mut table, &bytes, 9);
    }
}
