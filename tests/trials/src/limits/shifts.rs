//! Shifts as document 02's request Five has them: worked out by the factory, read off terms, under many bales at a stroke,
//! and in a plain run. What a shift gives is said here one bit at a time.

use super::damaged_at_times;
use super::operators::WORDS;
use crate::compare::{compare_fits, compare_read, compare_run, compare_samples};
use crate::desk;
use crate::evaluations::Pair;
use crate::made::{word_input, FALSE, FREE_TRUTH, FREE_WORD};
use crate::session_trials::readings;
use crate::tally::Tally;
use crate::tree::{bind, operator, test, word, Tree};
use second::dice::{datum, Dice};
use second::{read, result_of, run, Input, Outcome, Record, ResultOf, Word, WIDTH};

pub fn all(tally: &mut Tally) {
    every_amount(tally);
    chosen_amounts(tally);
    one_after_another(tally);
    random_rules(tally);
}

const LEFT: u8 = 7;
const RIGHT: u8 = 8;

/// About 0, the width and twice it, a byte, and the bits of a word.
const AMOUNTS: [Word; 16] = [
    0,
    1,
    2,
    WIDTH - 1,
    WIDTH,
    WIDTH + 1,
    2 * WIDTH - 1,
    2 * WIDTH,
    2 * WIDTH + 1,
    255,
    256,
    257,
    Word::MAX / 2 + 1,
    Word::MAX / 2 + 2,
    Word::MAX - WIDTH + 1,
    Word::MAX,
];

/// What is left of a word, moved by one bit so many times.
fn moved(op: u8, x: Word, amount: Word) -> Word {
    let mut x = x;
    for _ in 0..amount {
        if x == 0 {
            break;
        }
        x = if op == LEFT { x.wrapping_mul(2) } else { x / 2 };
    }
    x
}

fn each_shift() -> impl Iterator<Item = (u8, Word, Word)> {
    let words = || WORDS.into_iter().chain([0x5a5a, 0xa5a5]);
    let of = move |op| words().flat_map(move |x| AMOUNTS.map(move |amount| (op, x, amount)));
    [LEFT, RIGHT].into_iter().flat_map(of)
}

/// "give zero once the amount reaches the width [..] in terms, in readings and in plain runs alike": of a word and an
/// amount that are each a constant input or a free one
fn every_amount(tally: &mut Tally) {
    for (op, x, amount) in each_shift() {
        let rule = operator(op, 0, 1).rule();
        let wanted = moved(op, x, amount);
        for first in [word_input(x), FREE_WORD] {
            for second in [word_input(amount), FREE_WORD] {
                let mut inputs = [FALSE; 16];
                (inputs[0], inputs[1]) = (first, second);
                let mut numbers = [0; 16];
                (numbers[0], numbers[1]) = (x, amount);
                let term = evaluated(tally, &inputs, &numbers, &rule, wanted);
                let folded = first != FREE_WORD && second != FREE_WORD;
                let constant = term == word_term(wanted);
                tally.same("a shift that is worked out", constant, folded);
            }
        }
    }
}

fn word_term(word: Word) -> Record {
    let (kind, op) = (2, 0);
    Record {
        kind,
        op,
        ..datum(word)
    }
}

/// The value's term, after it was read, singly and among bales, and run, and gave the word each time.
fn evaluated(
    tally: &mut Tally,
    inputs: &[Input; 16],
    numbers: &[Word; 16],
    rule: &[u8],
    wanted: Word,
) -> Record {
    let wanted = Outcome::Word(wanted);
    let mut pair = Pair::open(inputs, 512).expect("a good opening");
    let answer = pair.evaluate(tally, rule, 9);
    let result = result_of(answer).expect("a result");
    let (session, table) = (&pair.session, &pair.theirs);
    compare_read(tally, session, table, numbers, &result, 64);
    let outcome = read(session, table, numbers, &result, 64);
    tally.same("a shift that is read", outcome, wanted);
    among_bales(tally, &pair, numbers, &result, wanted);
    compare_run(tally, inputs, numbers, rule, 9, 200);
    let outcome = run(inputs, numbers, rule, 9, 200);
    tally.same("a shift that is run", outcome, wanted);
    let at = 8 * usize::from(result.value);
    let mut terms = second::records(&pair.theirs[at..]);
    terms.next().expect("a term")
}

/// The second of three bales, between two of zeros.
fn among_bales(
    tally: &mut Tally,
    pair: &Pair,
    numbers: &[Word; 16],
    result: &ResultOf,
    wanted: Outcome,
) {
    let bales = [[0; 16], *numbers, [0; 16]].concat();
    let (session, table) = (&pair.session, &pair.theirs);
    let (_, answers) = compare_samples(tally, session, table, result, &bales, 64, 3);
    tally.same("a bale's shift", answers[1], desk::sample_answer(wanted));
}

/// The same of an amount that is a choice between two, and of a word that is.
fn chosen_amounts(tally: &mut Tally) {
    for (op, x, amount) in each_shift() {
        // place 0 is what is bound first, and place 1 then the input
        let amounts = test(1, word(amount), word(WIDTH - 1));
        let amounts = bind(word(x), bind(amounts, operator(op, 1, 0)));
        let words = test(1, word(x), word(1));
        let words = bind(word(amount), bind(words, operator(op, 0, 1)));
        for taken in [0, 1] {
            let mut inputs = [FALSE; 16];
            inputs[0] = FREE_TRUTH;
            let mut numbers = [0; 16];
            numbers[0] = taken;
            let by = if taken == 1 { amount } else { WIDTH - 1 };
            evaluated(tally, &inputs, &numbers, &amounts.rule(), moved(op, x, by));
            let word = if taken == 1 { x } else { 1 };
            let wanted = moved(op, word, amount);
            evaluated(tally, &inputs, &numbers, &words.rule(), wanted);
        }
    }
}

/// By one amount, then by another; and by their sum, which is the same where it does not wrap.
fn one_after_another(tally: &mut Tally) {
    for (op, x, first) in each_shift() {
        for second in AMOUNTS {
            let mut inputs = [FALSE; 16];
            for input in &mut inputs[..3] {
                *input = FREE_WORD;
            }
            let mut numbers = [0; 16];
            (numbers[0], numbers[1], numbers[2]) = (x, first, second);
            let wanted = moved(op, moved(op, x, first), second);
            let twice = bind(operator(op, 0, 1), operator(op, 0, 3)).rule();
            evaluated(tally, &inputs, &numbers, &twice, wanted);
            let sum = first.wrapping_add(second);
            let once = bind(operator(1, 1, 2), operator(op, 1, 0)).rule();
            evaluated(tally, &inputs, &numbers, &once, moved(op, x, sum));
            if first.checked_add(second).is_some() {
                tally.same("a sum of amounts", moved(op, x, sum), wanted);
            }
        }
    }
}

/// Rules with many shifts by amounts about the width, some damaged.
fn random_rules(tally: &mut Tally) {
    let mut dice = Dice(0x51f7);
    for _ in 0..3_000 {
        let mut inputs = dice.inputs();
        for input in &mut inputs[..4] {
            *input = match dice.below(2) {
                0 => FREE_WORD,
                _ => word_input(dice.pick(&AMOUNTS)),
            };
        }
        let mut pair = Pair::open(&inputs, 2_048).expect("a good opening");
        for _ in 0..3 {
            let tree = shifting(&mut dice, 0, 10);
            let bytes = damaged_at_times(&mut dice, &tree);
            let answer = pair.evaluate(tally, &bytes, 24);
            compare_fits(tally, &pair.session, &pair.theirs);
            if let Some(result) = result_of(answer) {
                readings(tally, &mut dice, &pair.session, &pair.theirs, &result);
            }
            let numbers = dice.numbers(&inputs);
            compare_run(tally, &inputs, &numbers, &bytes, 24, 400);
        }
    }
}

fn shifting(dice: &mut Dice, bindings: u16, size: u64) -> Tree {
    let near = |dice: &mut Dice| dice.below(u64::from(bindings) + 4) as u16;
    let (p, q) = (near(dice), near(dice));
    match dice.below(if size > 1 { 8 } else { 4 }) {
        0 => word(dice.pick(&AMOUNTS)),
        1 => operator(dice.pick(&[1, 2, 6, 9]), p, q),
        2 | 3 => operator(dice.pick(&[LEFT, RIGHT]), p, q),
        4 => {
            let then = shifting(dice, bindings, size / 2);
            test(near(dice), then, shifting(dice, bindings, size / 2))
        }
        _ => {
            let first = shifting(dice, bindings, size / 2);
            bind(first, shifting(dice, bindings + 1, size - 1))
        }
    }
}
