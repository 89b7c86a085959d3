//! Rules that need exactly so much: places of a store, terms of a table, or depth.

use crate::tree::{bind, call, operator, place, procedure, test, truth, Tree};

/// A chain of procedures, the first doubling a word and each other one calling the one before twice; then calls of some
/// of them, each on the value before, and lets of a truth.
struct Chain {
    procedures: u16,
    calls: Vec<u16>,
    lets: u16,
}

impl Chain {
    fn tree(&self) -> Tree {
        let doubles = procedure(operator(1, 0, 0));
        let twice = procedure(bind(call(1, 0), call(2, 0)));
        let mut firsts = vec![doubles];
        firsts.resize(usize::from(self.procedures), twice);
        for (called, &number) in (0..).zip(&self.calls) {
            let argument = if called == 0 { self.procedures } else { 0 };
            firsts.push(call(self.procedures - 1 - number + called, argument));
        }
        firsts.resize(firsts.len() + usize::from(self.lets), truth(true));
        let tree = |rest, first| bind(first, rest);
        firsts.into_iter().rev().fold(truth(true), tree)
    }
}

/// What a chain costs: a procedure with its let, and a call of procedure n with its let. A let alone costs 1.
struct Costs {
    procedure: usize,
    call: fn(u16) -> usize,
}

/// A chain that costs so much, with the dearest calls first.
fn costing(total: usize, costs: &Costs) -> Tree {
    let mut left = total;
    let mut chain = Chain {
        procedures: 0,
        calls: Vec::new(),
        lets: 0,
    };
    while left >= costs.procedure + (costs.call)(chain.procedures) {
        left -= costs.procedure;
        chain.procedures += 1;
    }
    for number in (0..chain.procedures).rev() {
        while left >= (costs.call)(number) {
            left -= (costs.call)(number);
            chain.calls.push(number);
        }
    }
    chain.lets = left as u16;
    chain.tree()
}

/// A rule whose run takes so many places, 16 or more, where input 0 is a word. Procedure 0 takes one for its argument;
/// another one takes that, one for the value between, and those of its two calls.
pub fn taking_places(places: usize) -> Tree {
    let costs = Costs {
        procedure: 1,
        call: |number| 3 * (1 << number) - 2 + 1,
    };
    costing(places - 16, &costs)
}

/// A rule that makes so many terms, where input 0 is a free word. Procedure 0 makes a binding and a sum; another one
/// makes two bindings and the terms of its two calls.
pub fn making_terms(terms: usize) -> Tree {
    let costs = Costs {
        procedure: 2,
        call: |number| 4 * (1 << number) - 2 + 1,
    };
    costing(terms, &costs)
}

/// An expression over another one, which needs so much more depth than that.
pub type Deeper = (u16, fn(Tree) -> Tree);

/// Every part of every expression that has parts; place 0 is tested.
pub const DEEPER: [Deeper; 5] = [
    (1, |tree| bind(tree, truth(true))),
    (1, |tree| bind(place(0), tree)),
    (1, |tree| test(0, tree, truth(true))),
    (1, |tree| test(0, truth(true), tree)),
    (2, |tree| bind(procedure(tree), call(0, 1))),
];

/// A rule that needs exactly so much depth; the next lower where the expressions need two at a time.
pub fn needing_depth(depth: u16, (more, deeper): Deeper) -> (u16, Tree) {
    let levels = (depth - 1) / more;
    let tree = (0..levels).fold(truth(true), |tree, _| deeper(tree));
    (1 + levels * more, tree)
}
