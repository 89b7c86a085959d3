//! Rules that several trials use.

use second::dice::{record, rule};
use second::Record;

/// "Apply my argument to itself", applied to itself.
pub fn self_application() -> Vec<u8> {
    rule(&[
        record(6, 0, 1, 3, 0),
        record(3, 0, 2, 0, 0),
        record(4, 0, 0, 0, 0),
        record(4, 0, 0, 0, 0),
    ])
}

/// k more where place 0 holds, if that is below place 1.
pub fn guarded_update(k: u16) -> Vec<u8> {
    rule(&[
        record(7, 0, 0, 1, 6),
        record(6, 0, 2, 3, 0),
        record(1, 2, k, 0, 0),
        record(6, 0, 4, 5, 0),
        record(5, 1, 0, 2, 0),
        record(5, 11, 0, 3, 0),
        record(2, 0, 1, 0, 0),
    ])
}

/// A let of a chain of ifs by the truths at places 0 to 15 in turn, every leaf a procedure with the body of its number;
/// under it a call of that choice with its argument at a place.
pub fn chained_targets(targets: u16, argument: u16, body: impl Fn(u16) -> Record) -> Vec<u8> {
    let mut records = vec![record(6, 0, 1, 0, 0)];
    for n in 0..targets {
        let at = records.len() as u16;
        if n + 1 < targets {
            records.push(record(7, 0, n % 16, at + 1, at + 3));
        }
        let procedure = records.len() as u16;
        records.push(record(3, 0, procedure + 1, 0, 0));
        records.push(body(n));
    }
    let call = records.len() as u16;
    records.push(record(4, 0, 0, argument, 0));
    records[0] = record(6, 0, 1, call, 0);
    rule(&records)
}

/// A chain of lets with so many records; of an even number the last but one is a procedure.
pub fn long_rule(records: u16) -> Vec<u8> {
    let mut list = Vec::new();
    while list.len() + 2 < usize::from(records) {
        let at = list.len() as u16;
        list.push(record(6, 0, at + 1, at + 2, 0));
        list.push(record(1, 2, at, 0, 0));
    }
    while list.len() + 1 < usize::from(records) {
        let at = list.len() as u16;
        list.push(record(3, 0, at + 1, 0, 0));
    }
    list.push(record(2, 0, 0, 0, 0));
    rule(&list)
}
