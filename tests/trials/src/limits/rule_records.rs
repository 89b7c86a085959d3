//! The tests of a rule alone, 4 to 7.

use super::evaluate;
use crate::compare::{compare_rule, compare_run};
use crate::long_rules;
use crate::made::{Made, FALSE};
use crate::rules::long_rule;
use crate::tally::Tally;
use crate::tree::{bind, call, operator, place, procedure, test, truth, word, Tree};
use second::dice::{datum, record, rule};
use second::{Record, Word};

pub fn all(tally: &mut Tally) {
    rule_bytes(tally);
    kinds(tally);
    data(tally);
    codes(tally);
    unused_fields(tally);
    children(tally);
    many_parents(tally);
    scopes(tally);
    deep_scope(tally);
    long_rules::of_size(tally, 4_096);
}

/// The tests alone, and as those of an evaluation and of a run: an allowance of 0 is what these refuse next.
fn tested(tally: &mut Tally, what: &str, bytes: &[u8], expected: u8) {
    let refusal = compare_rule(tally, bytes);
    tally.same(what, refusal, expected);
    let expected = if expected == 0 { 8 } else { expected };
    let made = Made::open(&[FALSE; 16], 34);
    let refusal = evaluate(tally, &made, bytes, 0);
    tally.same(what, refusal, expected);
    let refusal = compare_run(tally, &[FALSE; 16], &[0; 16], bytes, 0, 128);
    tally.same(what, refusal, expected);
}

fn refused(tally: &mut Tally, what: &str, records: &[Record], expected: u8) {
    tested(tally, what, &rule(records), expected);
}

const DATUM: Record = Record {
    kind: 1,
    op: 1,
    a: 0,
    b: 0,
    c: 0,
};

/// "4: rule bytes none, above 32,768 or not a multiple of 8."
fn rule_bytes(tally: &mut Tally) {
    for records in [1, 2, 4_095, 4_096] {
        tested(tally, "a rule of good length", &long_rule(records), 0);
    }
    let longer = long_rule(4_097);
    for bytes in [0, 1, 7, 9, 15, 32_761, 32_767, 32_769, 32_775, 32_776] {
        tested(tally, "a rule of bad length", &longer[..bytes], 4);
    }
}

/// A good rule for each kind of record, which is its first, with the fields that no sentence gives a meaning.
fn each_kind() -> Vec<(Vec<Record>, &'static [Field])> {
    use Field::{Op, P, Q, R};
    let mut rules: Vec<(Vec<Record>, &[Field])> = vec![
        (vec![record(1, 0, 0, 0, 0)], &[P, Q, R]),
        (vec![record(1, 1, 0, 0, 0)], &[P, Q, R]),
        (vec![record(1, 2, 0, 0, 0)], &[Q, R]),
        (vec![record(2, 0, 0, 0, 0)], &[Op, Q, R]),
        (vec![record(3, 0, 1, 0, 0), DATUM], &[Op, Q, R]),
        (vec![record(4, 0, 0, 0, 0)], &[Op, R]),
        (vec![record(6, 0, 1, 2, 0), DATUM, DATUM], &[Op, R]),
        (vec![record(7, 0, 0, 1, 2), DATUM, DATUM], &[Op]),
        (vec![record(8, 0, 0, 0, 0)], &[Op, P, Q, R]),
        (vec![record(9, 0, 0, 0, 0)], &[Op, P, Q, R]),
    ];
    for op in 1..=15 {
        let unused: &[Field] = match op {
            9 | 10 | 13 | 14 | 15 => &[Q, R],
            _ => &[R],
        };
        rules.push((vec![record(5, op, 0, 0, 0)], unused));
    }
    rules
}

#[derive(Clone, Copy)]
enum Field {
    Op,
    P,
    Q,
    R,
}

impl Field {
    fn set(self, record: &mut Record, value: u16) {
        match self {
            Field::Op => record.op = value.to_le_bytes()[0],
            Field::P => record.a = value,
            Field::Q => record.b = value,
            Field::R => record.c = value,
        }
    }
}

/// "5: a kind, op or unused field not as above."
fn kinds(tally: &mut Tally) {
    for (records, _) in each_kind() {
        refused(tally, "a record of each kind", &records, 0);
    }
    for kind in [0, 10, 11, 255] {
        refused(tally, "no kind", &[record(kind, 0, 0, 0, 0)], 5);
    }
    let last = [record(3, 0, 1, 0, 0), record(10, 0, 0, 0, 0)];
    refused(tally, "no kind in the last record", &last, 5);
}

/// "1 datum: op 0 false, op 1 true, op 2 the word p."
fn data(tally: &mut Tally) {
    for op in [3, 4, 255] {
        refused(tally, "no datum", &[record(1, op, 0, 0, 0)], 5);
    }
    refused(tally, "a word", &[datum(Word::MAX)], 0);
}

/// "5 operator op on places p and q": the codes are 1 to 15.
fn codes(tally: &mut Tally) {
    for op in 0..=255 {
        let expected = if (1..=15).contains(&op) { 0 } else { 5 };
        refused(tally, "a code", &[record(5, op, 0, 0, 0)], expected);
    }
    // a second place belongs to the codes of two operands alone
    for op in [1, 2, 3, 4, 5, 6, 7, 8, 11, 12] {
        refused(tally, "two places", &[record(5, op, 0, 15, 0)], 0);
    }
}

/// "Unused fields are zero."
fn unused_fields(tally: &mut Tally) {
    for (records, unused) in each_kind() {
        for field in unused {
            // of an op it is the low byte
            for value in [1, 257, 65_535] {
                let mut records = records.clone();
                field.set(&mut records[0], value);
                refused(tally, "an unused field", &records, 5);
            }
        }
    }
}

/// "6: the tree, or a child past the last record." "Each child's number is greater than its parent's, and each record
/// but 0 is a child once."
fn children(tally: &mut Tally) {
    let two = [DATUM, DATUM];
    let of = |first: Record, others: &[Record]| [&[first], others].concat();
    for child in [0, 2, 3, 65_535] {
        let body = of(record(3, 0, child, 0, 0), &two[..1]);
        refused(tally, "a body", &body, 6);
    }
    for child in [0, 2, 3, 4, 65_535] {
        let first = of(record(6, 0, child, 2, 0), &two);
        refused(tally, "the first of a let", &first, 6);
        let then = of(record(7, 0, 0, child, 2), &two);
        refused(tally, "the then of an if", &then, 6);
    }
    for child in [0, 1, 3, 4, 65_535] {
        let second = of(record(6, 0, 1, child, 0), &two);
        refused(tally, "the second of a let", &second, 6);
        let other = of(record(7, 0, 0, 1, child), &two);
        refused(tally, "the else of an if", &other, 6);
    }
    for parent in [record(6, 0, 2, 1, 0), record(7, 0, 0, 2, 1)] {
        refused(tally, "children in the other order", &of(parent, &two), 0);
    }
    for (p, q) in [(1, 1), (1, 2), (2, 1)] {
        let parts = of(record(6, 0, p, q, 0), &two[..1]);
        refused(tally, "one part of a let", &parts, 6);
        let branches = of(record(7, 0, 0, p, q), &two[..1]);
        refused(tally, "one branch of an if", &branches, 6);
    }
    refused(tally, "a record without a parent", &two, 6);
    let shared = [
        record(7, 0, 0, 1, 2),
        record(3, 0, 3, 0, 0),
        record(3, 0, 3, 0, 0),
        DATUM,
    ];
    refused(tally, "two parents", &shared, 6);
    let lower = [record(3, 0, 2, 0, 0), DATUM, record(3, 0, 1, 0, 0)];
    refused(tally, "a child below its parent", &lower, 6);
    let itself = [record(6, 0, 1, 2, 0), DATUM, record(3, 0, 2, 0, 0)];
    refused(tally, "a child of itself", &itself, 6);
    let own = [DATUM, record(3, 0, 1, 0, 0)];
    refused(tally, "its own parent", &own, 6);
    let ring = [DATUM, record(3, 0, 2, 0, 0), record(3, 0, 1, 0, 0)];
    refused(tally, "parents of each other", &ring, 6);
    let past = [record(3, 0, 1, 0, 0), record(3, 0, 2, 0, 0)];
    refused(tally, "the last record's child", &past, 6);
}

/// "each record but 0 is a child once": not 257 times either, which a byte would count as once. The parents are ifs inside one
/// another by the then, all with the same else.
fn many_parents(tally: &mut Tally) {
    for parents in [2, 3, 255, 256, 257, 258, 2_047] {
        let shared = parents + 1;
        let mut records: Vec<Record> = (1..=parents)
            .map(|then| record(7, 0, 0, then, shared))
            .collect();
        records.extend([DATUM, DATUM]);
        refused(tally, "many parents", &records, 6);
    }
}

/// Each field that holds a place.
const USES: [fn(u16) -> Tree; 7] = [
    place,
    |p| call(p, 0),
    |q| call(0, q),
    |p| operator(1, p, 0),
    |q| operator(1, 0, q),
    |p| operator(9, p, 0),
    |p| test(p, truth(true), truth(false)),
];

/// A use of a place, and over it so many bindings.
type Scope = (u16, fn(Tree) -> Tree);

const SCOPES: [Scope; 9] = [
    (0, |used| used),
    (0, |used| bind(used, word(1))),
    (1, |used| bind(word(1), used)),
    (1, procedure),
    (0, |used| test(0, used, word(1))),
    (0, |used| test(0, word(1), used)),
    (2, |used| bind(word(1), procedure(used))),
    (2, |used| procedure(procedure(used))),
    (1, |used| procedure(bind(used, word(1)))),
];

/// "7: a place out of scope." "under d bindings input i is place d + i, for 16 inputs."
fn scopes(tally: &mut Tally) {
    for (bindings, within) in SCOPES {
        for used in USES {
            for (place, expected) in [
                (bindings, 0),
                (bindings + 15, 0),
                (bindings + 16, 7),
                (bindings + 17, 7),
                (65_535, 7),
            ] {
                tested(tally, "a place", &within(used(place)).rule(), expected);
            }
        }
    }
}

/// The longest rule has most bindings: 4,095 procedures inside one another.
fn deep_scope(tally: &mut Tally) {
    for (place, expected) in [(4_095 + 15, 0), (4_095 + 16, 7)] {
        let mut records: Vec<Record> = (1..=4_095).map(|n| record(3, 0, n, 0, 0)).collect();
        records.push(record(2, 0, place, 0, 0));
        refused(tally, "under 4,095 bindings", &records, expected);
    }
}
