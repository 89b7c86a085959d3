mod common;

use common::{free_inputs, opened};
use second::dice::Dice;
use second::{evaluate, read, read_all, Answer, Outcome, ResultOf, Word};

const TRUE: ResultOf = ResultOf {
    s: 1,
    t: 1,
    value: 1,
    halted: false,
};

/// Every sample in random sessions is answered as a single reading answers it.
#[test]
fn answers_are_single_readings() {
    let mut dice = Dice(0xba1e);
    let (mut read_samples, mut refused) = (0, 0);
    for _ in 0..1_500 {
        let inputs = dice.inputs();
        let (mut session, mut table) = opened(&inputs, 4_096);
        let size = dice.below(24) + 1;
        let rule = dice.rule(size);
        let result = match evaluate(&mut session, &mut table, &rule, 24) {
            Answer::Out { s, t, value, .. } => ResultOf {
                s,
                t,
                value,
                halted: false,
            },
            Answer::Halt { s, t, .. } => ResultOf {
                s,
                t,
                value: 0,
                halted: true,
            },
            Answer::Refused(_) => continue,
        };
        let count = dice.below(12) as usize;
        let numbers = dice.any_samples(&inputs, count);
        let answers = read_all(&session, &table, &result, &numbers, 512, count);
        let answers = answers.expect("answers");
        assert_eq!(answers.len(), count);
        for (numbers, answer) in numbers.as_chunks().0.iter().zip(answers) {
            assert_eq!(answer, read(&session, &table, numbers, &result, 512));
            read_samples += 1;
            refused += u32::from(answer == Outcome::Refused(13));
        }
    }
    assert!(
        read_samples > 5_000 && refused > 100,
        "{read_samples} {refused}"
    );
}

#[test]
fn samples_are_tested_in_their_order() {
    let (session, table) = opened(&free_inputs(), 272);
    let bad = ResultOf { s: 34, ..TRUE };
    // a free truth's number is over 1 in every sample
    let over = [2; 48];
    let reads = |table: &[u8], result, numbers: &[Word], work, answers| {
        read_all(&session, table, &result, numbers, work, answers)
    };
    assert_eq!(reads(&table[1..], bad, &over[1..], 33, 2), Err(3));
    assert_eq!(reads(&table, bad, &over[1..], 33, 2), Err(14));
    assert_eq!(reads(&table, TRUE, &over, 33, 3), Err(15));
    for numbers in 33..=47 {
        for answers in [2, 3] {
            assert_eq!(
                reads(&table, TRUE, &over[..numbers], 34, answers),
                Err(15),
                "{numbers} {answers}"
            );
        }
    }
    for answers in [0, 2, 4, 48] {
        assert_eq!(reads(&table, TRUE, &over, 34, answers), Err(15));
    }
    let refused = vec![Outcome::Refused(13); 3];
    assert_eq!(reads(&table, TRUE, &over, 34, 3), Ok(refused));
}

#[test]
fn no_samples_are_no_refusal() {
    let (session, table) = opened(&free_inputs(), 272);
    let reads = |result, work| read_all(&session, &table, &result, &[], work, 0);
    assert_eq!(reads(TRUE, 34), Ok(vec![]));
    assert_eq!(reads(TRUE, 33), Err(15));
    assert_eq!(reads(ResultOf { t: 3, ..TRUE }, 34), Err(14));
}

/// Input 0 is a free truth, 1 a free word: the sample in the middle is refused, those about it are read.
#[test]
fn a_refused_sample_stands_in_its_place() {
    let (session, table) = opened(&free_inputs(), 272);
    let head = ResultOf { value: 3, ..TRUE };
    let mut numbers = [0; 48];
    (numbers[1], numbers[16], numbers[33]) = (70, 2, 90);
    let expected = [Outcome::Word(70), Outcome::Refused(13), Outcome::Word(90)];
    assert_eq!(
        read_all(&session, &table, &head, &numbers, 34, 3),
        Ok(expected.to_vec())
    );
}
