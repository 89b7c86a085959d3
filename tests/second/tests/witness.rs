mod common;

use common::{opened, word, FALSE, FREE_TRUTH, FREE_WORD};
use second::dice::{record, rule, Dice};
use second::{evaluate, read, result_of, witness, Goal, Input, Outcome, ResultOf, Spans, Word};

const TRUE: ResultOf = ResultOf {
    s: 1,
    t: 1,
    value: 1,
    halted: false,
};

/// A free word, some free truths and constants, in any places, with a narrow span for the word.
fn narrow(dice: &mut Dice) -> ([Input; 16], Spans) {
    let mut inputs: [Input; 16] = std::array::from_fn(|_| match dice.below(4) {
        0 => FREE_TRUTH,
        1 => word(dice.word()),
        _ => FALSE,
    });
    let at = dice.below(3) as usize;
    inputs[at] = FREE_WORD;
    let mut truths = 0;
    for input in &mut inputs {
        truths += u32::from(*input == FREE_TRUTH);
        if truths > 5 {
            *input = FALSE;
        }
    }
    let mut spans = dice.spans(&inputs);
    spans.highs[at] = spans.lows[at].saturating_add(dice.below(6) as Word);
    (inputs, spans)
}

/// Every reading inside the spans, sorted: arrays are compared from their first number on.
fn sorted_readings(inputs: &[Input; 16], spans: &Spans) -> Vec<[Word; 16]> {
    let mut readings = vec![[0; 16]];
    for (at, input) in inputs.iter().enumerate() {
        let numbers = match input.kind {
            2 => 0..=1,
            3 => spans.lows[at]..=spans.highs[at],
            _ => 0..=0,
        };
        let with = |reading: [Word; 16], number| {
            let mut reading = reading;
            reading[at] = number;
            reading
        };
        readings = numbers
            .flat_map(|number| readings.iter().map(move |&reading| with(reading, number)))
            .collect();
    }
    readings.sort();
    readings
}

#[test]
fn the_first_of_the_sorted_readings() {
    let mut dice = Dice(0x5e7e);
    let (mut found, mut none) = (0, 0);
    for _ in 0..600 {
        let (inputs, spans) = narrow(&mut dice);
        let (mut session, mut table) = opened(&inputs, 4_096);
        let size = dice.below(24) + 1;
        let Some(result) = result_of(evaluate(&mut session, &mut table, &dice.rule(size), 24))
        else {
            continue;
        };
        let outcomes: Vec<([Word; 16], Outcome)> = sorted_readings(&inputs, &spans)
            .into_iter()
            .map(|numbers| (numbers, read(&session, &table, &numbers, &result, 512)))
            .collect();
        let words = outcomes.iter().filter_map(|(_, outcome)| match outcome {
            Outcome::Word(word) => Some(*word),
            _ => None,
        });
        let goals = words.chain([dice.word()]).map(Goal::Gives);
        for goal in goals.chain([Goal::Errs, Goal::Aborts]) {
            let wanted = match goal {
                Goal::Errs => Outcome::Error,
                Goal::Aborts => Outcome::Abort,
                Goal::Gives(word) => Outcome::Word(word),
            };
            let first = outcomes.iter().find(|(_, outcome)| *outcome == wanted);
            let expected = first.map(|(numbers, _)| *numbers);
            let answer = witness(&session, &table, &result, goal, Some(&spans), 512);
            assert_eq!(answer, Ok(expected), "{goal:?}");
            found += u32::from(expected.is_some());
            none += u32::from(expected.is_none());
        }
    }
    assert!(found > 500 && none > 500, "{found} {none}");
}

#[test]
fn witnesses_are_tested_in_their_order() {
    let mut inputs = [FREE_TRUTH; 16];
    inputs[..6].fill(FALSE);
    inputs[6] = FREE_WORD;
    let turned = Spans {
        lows: [8; 16],
        highs: [7; 16],
    };
    let bad = ResultOf { s: 34, ..TRUE };
    let (session, table) = opened(&inputs, 272);
    let short = usize::from(session.count) - 1;
    let asks = |table: &[u8], result, spans: Option<&Spans>| {
        witness(&session, table, &result, Goal::Errs, spans, short)
    };
    assert_eq!(asks(&table[1..], bad, Some(&turned)), Err(3));
    assert_eq!(asks(&table, bad, Some(&turned)), Err(14));
    assert_eq!(asks(&table, TRUE, Some(&turned)), Err(17));
    // 25 bits
    assert_eq!(asks(&table, TRUE, None), Err(19));
    inputs[15] = FALSE;
    let (session, table) = opened(&inputs, 272);
    let asks = |work| witness(&session, &table, &TRUE, Goal::Gives(7), None, work);
    let count = usize::from(session.count);
    assert_eq!(asks(count - 1), Err(15));
}

/// Input 1 is a head, input 2 a gate; the rule errs from 100 on.
#[test]
fn a_head_at_its_limit() {
    let mut inputs = [word(100); 16];
    (inputs[1], inputs[2]) = (FREE_WORD, FREE_TRUTH);
    let (mut session, mut table) = opened(&inputs, 4_096);
    // let below = head < 100 in if below, word 7, else error
    let tested = rule(&[
        record(6, 0, 1, 2, 0),
        record(5, 11, 1, 0, 0),
        record(7, 0, 0, 3, 4),
        record(1, 2, 7, 0, 0),
        record(9, 0, 0, 0, 0),
    ]);
    let answer = evaluate(&mut session, &mut table, &tested, 9);
    let result = result_of(answer).expect("an accepted rule");
    let asks = |goal, spans: Option<&Spans>| witness(&session, &table, &result, goal, spans, 512);
    let reading = |head| {
        let mut numbers = [0; 16];
        numbers[1] = head;
        Ok(Some(numbers))
    };
    assert_eq!(asks(Goal::Errs, None), reading(100));
    assert_eq!(asks(Goal::Gives(7), None), reading(0));
    assert_eq!(asks(Goal::Aborts, None), Ok(None));
    for (low, high, errs) in [
        (0, 99, Ok(None)),
        (0, 100, reading(100)),
        (300, 400, reading(300)),
    ] {
        let spans = Spans {
            lows: [low; 16],
            highs: [high; 16],
        };
        assert_eq!(asks(Goal::Errs, Some(&spans)), errs);
    }
}
