//! How many bytes of text a second the desk writes, its pass for the length included, beside the second evaluator's writer,
//! as rows of a table.

use crate::desk;
use crate::grown::{grown, Grown};
use crate::rules::guarded_update;
use crate::speed::{in_turn_inputs, least_of};
use second::dice::{record, Dice};
use second::{clauses, open, Goal, Input, Record, ResultOf};
use std::collections::HashSet;
use std::hint::black_box;

const SIZES: [u16; 3] = [100, 1_000, 8_192];
/// As many products as make a text of some tens of megabytes.
const MOST_PRODUCTS: u16 = 1_000;
const TURNS: usize = 3;

pub fn run() {
    println!("| terms | text, bytes | desk, MB/s | second evaluator, MB/s | ratio of times |");
    println!("|---|---|---|---|---|");
    for terms in SIZES {
        compare("updates in turn", &updates(terms));
        compare("random rules", &random(terms));
        compare("sums alone", &operators(terms, 1));
        if terms <= MOST_PRODUCTS {
            compare("products alone", &operators(terms, 3));
        }
    }
}

/// Guarded updates, rule after rule.
fn updates(terms: u16) -> Grown {
    grown(&in_turn_inputs(), terms, (3..).map(guarded_update))
}

/// Random rules in turn, of which none halts.
fn random(terms: u16) -> Grown {
    let mut dice = Dice(0xc1a5e5);
    let inputs = dice.inputs();
    grown(&inputs, terms, std::iter::repeat_with(|| dice.rule(120)))
}

/// A full table of an operator on any two of the terms before it, from free words on.
fn operators(terms: u16, op: u8) -> Grown {
    let inputs = [Input { kind: 3, value: 0 }; 16];
    let mut table = vec![0; 8 * usize::from(terms)];
    let mut session = open(&inputs, &mut table).expect("a good opening");
    let mut dice = Dice(0xc1a5e6);
    let mut words: Vec<u16> = (2..18).collect();
    let mut there: HashSet<[u8; 8]> = HashSet::new();
    while session.count < terms {
        let term: Record = record(5, op, dice.pick(&words), dice.pick(&words), 0);
        if there.insert(term.to_bytes()) {
            let at = 8 * usize::from(session.count);
            table[at..at + 8].copy_from_slice(&term.to_bytes());
            words.push(session.count);
            session.count += 1;
        }
    }
    let result = ResultOf {
        s: 1,
        t: 1,
        value: session.count - 1,
        halted: false,
    };
    Grown {
        session,
        table,
        result,
    }
}

fn compare(what: &str, case: &Grown) {
    let Grown {
        session,
        table,
        result,
    } = case;
    let (form, result_form) = (desk::session_bytes(session), desk::result_bytes(result));
    let goal = Goal::Gives(7);
    let text = clauses(session, table, result, goal, usize::MAX).expect("a text");
    let goal_form = desk::goal_bytes(goal);
    let buffer = vec![0; text.len()];
    let write = |buffer: &mut Vec<u8>| {
        let mut length = [0];
        let refusal = desk::clauses(&form, table, &result_form, &goal_form, buffer, &mut length);
        assert_eq!((refusal, length[0]), (0, text.len() as u64));
    };
    let mut written = buffer.clone();
    write(&mut written);
    assert!(written == text);
    let [ours, theirs] = least_of(
        TURNS,
        1,
        &buffer,
        [&mut |buffer| write(buffer), &mut |buffer| {
            let text = clauses(session, table, result, goal, buffer.len());
            assert!(black_box(text).is_ok());
        }],
    );
    let ratio = ours / theirs;
    // a byte in a millisecond is a thousandth of a megabyte in a second
    let [ours, theirs] = [ours, theirs].map(|time| text.len() as f64 / time / 1e3);
    let (terms, bytes) = (session.count, text.len());
    println!("| {terms}, {what} | {bytes} | {ours:.0} | {theirs:.0} | {ratio:.2} |");
}
