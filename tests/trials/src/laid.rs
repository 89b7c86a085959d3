//! Trees laid out as records in one order or another, with the count of bindings over each record.

use crate::tree::Tree;
use second::dice::{record, rule, Dice};
use second::Record;
use std::collections::VecDeque;

/// The order of the records: a parent stands before its children, and "the order is otherwise free".
pub enum Order {
    /// Level after level.
    Levels,
    /// After a parent the whole of its first child, then that of its second.
    FirstChild,
    /// The other way about.
    SecondChild,
    /// Any record whose parent stands.
    Any(Dice),
}

/// The records of a rule, and how many bindings each of them is under.
#[derive(Clone)]
pub struct Laid {
    pub records: Vec<Record>,
    pub bindings: Vec<u16>,
}

/// A tree that is to be laid out: the bindings over it, and its parent's record with which of its children it is.
struct Waiting<'a> {
    tree: &'a Tree,
    bindings: u16,
    named: Option<(usize, usize)>,
}

impl Order {
    /// Puts children among those that wait; the first of all comes next.
    fn put<'a>(&mut self, waiting: &mut VecDeque<Waiting<'a>>, children: Vec<Waiting<'a>>) {
        match self {
            Order::Levels => waiting.extend(children),
            Order::FirstChild => {
                let last_first = children.into_iter().rev();
                last_first.for_each(|child| waiting.push_front(child));
            }
            Order::SecondChild => children
                .into_iter()
                .for_each(|child| waiting.push_front(child)),
            Order::Any(dice) => {
                waiting.extend(children);
                if !waiting.is_empty() {
                    let next = dice.below(waiting.len() as u64) as usize;
                    waiting.swap(0, next);
                }
            }
        }
    }
}

impl Laid {
    pub fn new(tree: &Tree, mut order: Order) -> Laid {
        let (mut records, mut bindings) = (Vec::new(), Vec::new());
        let mut waiting = VecDeque::from([Waiting {
            tree,
            bindings: 0,
            named: None,
        }]);
        while let Some(next) = waiting.pop_front() {
            let number = records.len();
            if let Some((parent, child)) = next.named {
                let parent: &mut Record = &mut records[parent];
                *children(*parent)[child].of(parent) = number as u16;
            }
            let (record, below) = parts(next.tree);
            records.push(record);
            bindings.push(next.bindings);
            let waits = |(child, (tree, more))| Waiting {
                tree,
                bindings: next.bindings + more,
                named: Some((number, child)),
            };
            let below = below.into_iter().enumerate().map(waits).collect();
            order.put(&mut waiting, below);
        }
        Laid { records, bindings }
    }

    /// The same, with every place as a function gives it from the bindings over its record.
    pub fn placed(mut self, mut place: impl FnMut(u16) -> u16) -> Laid {
        for (record, &bindings) in self.records.iter_mut().zip(&self.bindings) {
            for field in places(*record) {
                *field.of(record) = place(bindings);
            }
        }
        self
    }

    /// The same, with a record changed.
    pub fn but(&self, number: usize, change: impl FnOnce(&mut Record)) -> Laid {
        let mut laid = self.clone();
        change(&mut laid.records[number]);
        laid
    }

    pub fn rule(&self) -> Vec<u8> {
        rule(&self.records)
    }

    /// The numbers of the records that have such fields.
    pub fn having(&self, fields: fn(Record) -> &'static [Field]) -> Vec<usize> {
        (0..self.records.len())
            .filter(|&number| !fields(self.records[number]).is_empty())
            .collect()
    }
}

/// A tree's record, its children not yet named, and the children with the bindings that each has more.
fn parts(tree: &Tree) -> (Record, Vec<(&Tree, u16)>) {
    match tree {
        Tree::Leaf(record) => (*record, vec![]),
        Tree::Procedure(body) => (record(3, 0, 0, 0, 0), vec![(body.as_ref(), 1)]),
        Tree::Let(first, second) => (
            record(6, 0, 0, 0, 0),
            vec![(first.as_ref(), 0), (second.as_ref(), 1)],
        ),
        Tree::If(place, then, other) => (
            record(7, 0, *place, 0, 0),
            vec![(then.as_ref(), 0), (other.as_ref(), 0)],
        ),
    }
}

/// A field of a record.
#[derive(Clone, Copy)]
pub enum Field {
    P,
    Q,
    R,
}

impl Field {
    pub fn of(self, record: &mut Record) -> &mut u16 {
        match self {
            Field::P => &mut record.a,
            Field::Q => &mut record.b,
            Field::R => &mut record.c,
        }
    }

    pub fn at(self, mut record: Record) -> u16 {
        *self.of(&mut record)
    }
}

/// The fields that name a record's children.
pub fn children(record: Record) -> &'static [Field] {
    match record.kind {
        3 => &[Field::P],
        6 => &[Field::P, Field::Q],
        7 => &[Field::Q, Field::R],
        _ => &[],
    }
}

/// The fields that are places.
pub fn places(record: Record) -> &'static [Field] {
    match (record.kind, record.op) {
        (2 | 7, _) | (5, 9 | 10 | 13 | 14 | 15) => &[Field::P],
        (4 | 5, _) => &[Field::P, Field::Q],
        _ => &[],
    }
}
