mod common;

use common::{free_inputs, opened, FALSE};
use second::cnf::{input_literals, wire, Cnf};
use second::dice::Dice;
use second::{clauses, evaluate, read, records, result_of, term_readings};
use second::{Goal, NoText, Outcome, Record, ResultOf, Session, Word};

const GOOD: ResultOf = ResultOf {
    s: 1,
    t: 1,
    value: 1,
    halted: false,
};

fn text(session: &Session, table: &[u8], result: &ResultOf, goal: Goal) -> Vec<u8> {
    clauses(session, table, result, goal, usize::MAX).expect("a text")
}

fn taken_apart(text: &[u8]) -> Cnf {
    Cnf::parse(text).expect("a text of clauses")
}

/// With the variables of a reading's inputs given, those of every term follow, and the goal stands exactly where the reading
/// reaches it.
#[test]
fn texts_say_what_is_read() {
    let mut dice = Dice(0xc1a5);
    let (mut reached, mut missed) = (0, 0);
    for _ in 0..400 {
        let inputs = dice.inputs();
        let (mut session, mut table) = opened(&inputs, 4_096);
        let size = dice.below(24) + 1;
        let rule = dice.rule(size);
        let Some(result) = result_of(evaluate(&mut session, &mut table, &rule, 24)) else {
            continue;
        };
        let terms: Vec<Record> = records(&table).collect();
        let errs = taken_apart(&text(&session, &table, &result, Goal::Errs));
        for _ in 0..3 {
            let numbers = dice.numbers(&inputs);
            let given = input_literals(&terms, &numbers);
            check_terms(&errs, &session, &table, &numbers, &given);
            let outcome = read(&session, &table, &numbers, &result, 512);
            let other = dice.word();
            for (goal, reaches) in goals(outcome, other) {
                let cnf = taken_apart(&text(&session, &table, &result, goal));
                assert_eq!(
                    cnf.follow(&given).is_some(),
                    reaches,
                    "{goal:?} {outcome:?}"
                );
                reached += u32::from(reaches);
                missed += u32::from(!reaches);
            }
        }
    }
    assert!(reached > 500 && missed > 500, "{reached} {missed}");
}

/// Goals, and whether what was read reaches them.
fn goals(outcome: Outcome, other: Word) -> Vec<(Goal, bool)> {
    let mut goals = vec![
        (Goal::Errs, outcome == Outcome::Error),
        (Goal::Aborts, outcome == Outcome::Abort),
        (Goal::Gives(other), outcome == Outcome::Word(other)),
    ];
    if let Outcome::Word(word) = outcome {
        goals.push((Goal::Gives(word), true));
        goals.push((Goal::Gives(word ^ 1), false));
    }
    goals
}

/// Without the goal, kind and value of each term but a binding follow from the inputs.
fn check_terms(cnf: &Cnf, session: &Session, table: &[u8], numbers: &[Word; 16], given: &[i64]) {
    let without = cnf.first(cnf.clauses.len() - 1);
    let values = without.follow(given).expect("a table has readings");
    let readings = term_readings(session, table, numbers).expect("readings");
    for (number, term) in records(table).take(readings.len()).enumerate() {
        let at = |i: usize| values[wire(number, i) as usize];
        let (kind, bits, read) = match readings[number] {
            _ if term.kind == 8 => ((true, true), 0, 0),
            Outcome::Truth(truth) => ((false, false), 1, Word::from(truth)),
            Outcome::Word(word) => ((true, false), Word::BITS as usize, word),
            Outcome::Procedure(record) => ((false, true), Word::BITS as usize, record as Word),
            other => panic!("{other:?}"),
        };
        assert_eq!((at(0), at(1)), (Some(kind.0), Some(kind.1)), "{term:?}");
        for bit in 0..bits {
            let holds = read >> bit & 1 == 1;
            assert_eq!(at(2 + bit), Some(holds), "{term:?} at {bit}");
        }
    }
}

#[test]
fn texts_are_tested_in_their_order() {
    let (session, table) = opened(&free_inputs(), 272);
    let bad = ResultOf { s: 34, ..GOOD };
    let refused = |refusal, length| Err(NoText { refusal, length });
    let goal = Goal::Aborts;
    assert_eq!(
        clauses(&session, &table[1..], &bad, goal, 0),
        refused(3, None)
    );
    assert_eq!(clauses(&session, &table, &bad, goal, 0), refused(14, None));
    let text = text(&session, &table, &GOOD, goal);
    let length = text.len();
    for short in [0, 1, length - 1] {
        let answer = clauses(&session, &table, &GOOD, goal, short);
        assert_eq!(answer, refused(18, Some(length)));
    }
    assert_eq!(clauses(&session, &table, &GOOD, goal, length), Ok(text));
}

/// The shortest text that there is: all inputs are false, so the terms are false, true and the bindings.
#[test]
fn a_text_in_full() {
    let (session, table) = opened(&[FALSE; 16], 272);
    let text = text(&session, &table, &GOOD, Goal::Errs);
    let text = String::from_utf8(text).expect("a text");
    let mut expected = vec!["p cnf 324 69".to_string()];
    // false and true, bit by bit
    expected.extend((1..=36).map(|v| {
        if v == 21 {
            "21 0".into()
        } else {
            format!("-{v} 0")
        }
    }));
    // sixteen bindings
    for term in 2..18 {
        expected.extend([
            format!("{} 0", 18 * term + 1),
            format!("{} 0", 18 * term + 2),
        ]);
    }
    expected.push("-21 0".to_string());
    assert_eq!(text, expected.join("\n") + "\n");
}
