//! Trees of so many records, in every shape. Their places are all 0: they are put when the records are laid out.

use crate::tree::{bind, call, operator, place, procedure, test, Tree};
use second::dice::Dice;

pub type Shape = (&'static str, fn(u16) -> Tree);

pub const SHAPES: [Shape; 10] = [
    ("a chain of lets", |records| chain(records, bind)),
    ("lets in the first part", |records| {
        chain(records, |leaf, inner| bind(inner, leaf))
    }),
    ("a comb of ifs", |records| {
        chain(records, |leaf, inner| test(0, leaf, inner))
    }),
    ("ifs in the then", |records| {
        chain(records, |leaf, inner| test(0, inner, leaf))
    }),
    ("procedures", procedures),
    ("a chain of all", mixed_chain),
    ("level lets", |records| level(records, |_, p, q| bind(p, q))),
    ("level ifs", |records| {
        level(records, |_, q, r| test(0, q, r))
    }),
    ("level lets and ifs", |records| level(records, let_or_if)),
    ("random", |records| random(&mut Dice(0x7ee5), records)),
];

/// A record without children: each kind that has places, in turn.
fn leaf(number: u16) -> Tree {
    match number % 4 {
        0 => place(0),
        1 => call(0, 0),
        2 => operator(1, 0, 0),
        _ => operator(9, 0, 0),
    }
}

fn let_or_if(number: u16, left: Tree, right: Tree) -> Tree {
    if number.is_multiple_of(2) {
        bind(left, right)
    } else {
        test(0, left, right)
    }
}

/// Links inside one another, each with a leaf of its own; an even number of records takes a procedure at the end.
fn chain(records: u16, link: fn(Tree, Tree) -> Tree) -> Tree {
    let end = match records % 2 {
        0 => procedure(leaf(records)),
        _ => leaf(records),
    };
    (0..(records - 1) / 2).fold(end, |inner, number| link(leaf(number), inner))
}

fn procedures(records: u16) -> Tree {
    (1..records).fold(leaf(0), |inner, _| procedure(inner))
}

/// Procedures, lets by either part and ifs by either branch inside one another.
fn mixed_chain(records: u16) -> Tree {
    let (mut tree, mut grown) = (leaf(0), 1);
    while grown < records {
        let kind = if grown + 1 == records { 0 } else { grown % 7 };
        tree = match kind {
            0 => procedure(tree),
            1 | 2 => bind(leaf(grown), tree),
            3 => bind(tree, leaf(grown)),
            4 | 5 => test(0, leaf(grown), tree),
            _ => test(0, tree, leaf(grown)),
        };
        grown += if kind == 0 { 1 } else { 2 };
    }
    tree
}

/// Each node has half of the records under it on either side; a node is made of its number of records and its children.
fn level(records: u16, node: fn(u16, Tree, Tree) -> Tree) -> Tree {
    match records {
        1 => leaf(records),
        2 => procedure(leaf(records)),
        _ => {
            let half = (records - 1) / 2;
            let (left, right) = (level(half, node), level(records - 1 - half, node));
            node(records, left, right)
        }
    }
}

pub fn random(dice: &mut Dice, records: u16) -> Tree {
    match (records, dice.below(5)) {
        (1, _) => leaf(dice.below(4) as u16),
        (2, _) | (_, 0) => procedure(random(dice, records - 1)),
        (_, kind) => {
            let most = records - 2;
            let left = 1 + dice.below(u64::from(most)) as u16;
            let left = dice.pick(&[1, most, left, left]);
            let (left, right) = (random(dice, left), random(dice, records - 1 - left));
            let_or_if(kind as u16, left, right)
        }
    }
}
