//! Calls of a choice of leaves. Every input is a free truth; one binding stands before them, so that they are at places 1
//! to 16.

use crate::tree::{bind, call, error, procedure, test, truth, word, Tree};

pub fn procedures(count: u16) -> Vec<Tree> {
    (0..count).map(|n| procedure(word(n.into()))).collect()
}

/// The first leaf, or else the others, and so on, by the truths at places 1 to 15 in turn.
pub fn chain(mut leaves: Vec<Tree>) -> Tree {
    let mut rest = leaves.pop().expect("a leaf");
    while let Some(leaf) = leaves.pop() {
        rest = test(1 + leaves.len() as u16 % 15, leaf, rest);
    }
    rest
}

/// The first half, or else the second, and so on, by the truth at each level's place.
pub fn halves(leaves: &[Tree]) -> Tree {
    halves_from(1, leaves)
}

fn halves_from(level: u16, leaves: &[Tree]) -> Tree {
    let [leaf] = leaves else {
        let (left, right) = leaves.split_at(leaves.len() / 2);
        let then = halves_from(level + 1, left);
        return test(level, then, halves_from(level + 1, right));
    };
    leaf.clone()
}

pub fn called(chosen: Tree) -> Vec<u8> {
    bind(truth(true), bind(chosen, call(0, 1))).rule()
}

/// With something asserted before, so that a guard of the walk is none of the states in which the choice was made, but a
/// new term.
pub fn called_asserted(chosen: Tree) -> Vec<u8> {
    bind(test(0, word(5), error()), bind(chosen, call(0, 1))).rule()
}
