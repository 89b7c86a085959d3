//! Which terms a result stands on, for the benchmarks.

use second::{Record, ResultOf};

/// Of each term whether it is S, T, the value or one that these are read from; a halt has no value. A term names only lower
/// ones.
pub fn stood_on(terms: &[Record], result: &ResultOf) -> Vec<bool> {
    let mut stood_on = vec![false; terms.len()];
    let value = (!result.halted).then_some(result.value);
    for number in [result.s, result.t].into_iter().chain(value) {
        stood_on[usize::from(number)] = true;
    }
    for (number, &term) in terms.iter().enumerate().rev() {
        if stood_on[number] {
            for operand in operands(term) {
                stood_on[usize::from(operand)] = true;
            }
        }
    }
    stood_on
}

/// The terms whose readings a term's own is made of. A procedure reads as its record.
fn operands(term: Record) -> Vec<u16> {
    match term.kind {
        5 if has_one_operand(term.op) => vec![term.a],
        5 => vec![term.a, term.b],
        6 => vec![term.a, term.b, term.c],
        _ => vec![],
    }
}

pub fn has_one_operand(op: u8) -> bool {
    matches!(op, 9 | 10 | 14 | 15 | 32 | 35)
}
