//! Rules written as trees; their records are laid out with each parent before its children.

use second::dice::{datum, record, rule};
use second::{Record, Word};

#[derive(Clone)]
pub enum Tree {
    Leaf(Record),
    Procedure(Box<Tree>),
    Let(Box<Tree>, Box<Tree>),
    If(u16, Box<Tree>, Box<Tree>),
}

pub fn truth(truth: bool) -> Tree {
    Tree::Leaf(record(1, u8::from(truth), 0, 0, 0))
}

pub fn word(word: Word) -> Tree {
    Tree::Leaf(datum(word))
}

pub fn place(place: u16) -> Tree {
    Tree::Leaf(record(2, 0, place, 0, 0))
}

pub fn procedure(body: Tree) -> Tree {
    Tree::Procedure(Box::new(body))
}

pub fn call(procedure: u16, argument: u16) -> Tree {
    Tree::Leaf(record(4, 0, procedure, argument, 0))
}

pub fn operator(op: u8, p: u16, q: u16) -> Tree {
    Tree::Leaf(record(5, op, p, q, 0))
}

pub fn bind(first: Tree, second: Tree) -> Tree {
    Tree::Let(Box::new(first), Box::new(second))
}

pub fn test(place: u16, then: Tree, other: Tree) -> Tree {
    Tree::If(place, Box::new(then), Box::new(other))
}

pub fn abort() -> Tree {
    Tree::Leaf(record(8, 0, 0, 0, 0))
}

pub fn error() -> Tree {
    Tree::Leaf(record(9, 0, 0, 0, 0))
}

impl Tree {
    pub fn rule(&self) -> Vec<u8> {
        let mut records = Vec::new();
        self.lay(&mut records);
        rule(&records)
    }

    /// The number of its own record.
    fn lay(&self, records: &mut Vec<Record>) -> u16 {
        let number = records.len();
        records.push(record(0, 0, 0, 0, 0));
        records[number] = match self {
            Tree::Leaf(record) => *record,
            Tree::Procedure(body) => record(3, 0, body.lay(records), 0, 0),
            Tree::Let(first, second) => {
                let first = first.lay(records);
                record(6, 0, first, second.lay(records), 0)
            }
            Tree::If(place, then, other) => {
                let then = then.lay(records);
                record(7, 0, *place, then, other.lay(records))
            }
        };
        number as u16
    }
}
