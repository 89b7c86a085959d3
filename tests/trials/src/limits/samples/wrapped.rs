//! The library for Rust: many samples in one call, and each by itself.

use super::Sample;
use crate::tally::Tally;
use crate::tree::{abort, bind, error, operator, place, procedure, test, truth, word, Tree};
use ::desk::{Answer, Desk, Input, Refusal};

pub fn all(tally: &mut Tally) {
    let mut inputs = [Input::ConstantWord(100); 16];
    (inputs[0], inputs[1]) = (Input::FreeTruth, Input::FreeWord);
    let mut desk = Desk::open(&inputs, 8_192).expect("a good opening");
    for tree in rules() {
        let answer = desk.evaluate(&tree.rule(), 9).expect("an accepted rule");
        each(tally, &desk, answer);
    }
    other_desks(tally, &desk);
}

/// Their readings have every kind; a halt is left for the last.
fn rules() -> [Tree; 7] {
    // place 0 is then "head < 100"
    let below = |then, other| bind(operator(11, 1, 2), test(0, then, other));
    [
        truth(true),
        operator(1, 1, 2),
        procedure(place(0)),
        test(0, place(0), place(1)),
        below(word(13), abort()),
        test(0, below(word(7), error()), procedure(word(5))),
        error(),
    ]
}

/// One call gives what as many calls give.
fn each(tally: &mut Tally, desk: &Desk, answer: Answer) {
    let samples = samples();
    for count in 0..=samples.len() {
        let samples = &samples[..count];
        let singles = samples.iter().map(|numbers| desk.read(answer, numbers));
        let singles: Vec<_> = singles.collect();
        let together = desk.read_all(answer, samples);
        tally.same("the wrapper's samples", together, Ok(singles));
    }
}

/// On both sides of the head's limit and of what 13 refuses.
fn samples() -> Vec<Sample> {
    let mut samples = Vec::new();
    for gate in [0, 1, 2] {
        for head in [0, 99, 100, 65_535] {
            let mut numbers = [0; 16];
            (numbers[0], numbers[1]) = (gate, head);
            samples.push(numbers);
        }
    }
    samples
}

/// An answer of a desk with more terms names what this one does not have.
fn other_desks(tally: &mut Tally, desk: &Desk) {
    let (assumed, asserted, depth) = (1, 1, 1);
    for samples in [&samples()[..], &[]] {
        for value in [1, desk.count(), 65_535] {
            let answer = Answer::Out {
                assumed,
                asserted,
                value,
                depth,
            };
            let refused = value >= desk.count();
            let refusal = desk.read_all(answer, samples).err();
            let expected = refused.then_some(Refusal(14));
            tally.same("an answer of another desk", refusal, expected);
        }
    }
}
