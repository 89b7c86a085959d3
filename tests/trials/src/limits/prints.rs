//! The printing program at its limits.

use crate::desk::{inputs_bytes, INPUT, INPUTS, WORD};
use crate::made::{word_input, FALSE, FREE_TRUTH, FREE_WORD};
use crate::needs::{making_terms, needing_depth, DEEPER};
use crate::prints::compare;
use crate::rules::long_rule;
use crate::tally::Tally;
use crate::tree::{abort, error, operator, test, truth, word};
use second::Input;

pub fn all(tally: &mut Tally) {
    input_records(tally);
    second_bytes(tally);
    opening(tally);
    rule_bytes(tally);
    allowance(tally);
    table(tally);
}

/// The program's input: the inputs, as the library takes them, and the rule.
fn input(inputs: &[Input; 16], rule: &[u8]) -> Vec<u8> {
    [inputs_bytes(inputs), rule.to_vec()].concat()
}

fn expect(tally: &mut Tally, what: &str, bytes: &[u8], refused: u8) {
    let line = compare(tally, bytes);
    let expected = format!("refused {refused}\n");
    tally.same(what, line == expected, refused != 0);
}

/// "An input record cut short [..] is refused by 2.", and then there is no rule: 4
fn input_records(tally: &mut Tally) {
    let bytes = input(&[FALSE; 16], &truth(true).rule());
    for end in (0..=INPUT).chain(INPUTS - INPUT - 1..INPUTS) {
        expect(tally, "inputs cut short", &bytes[..end], 2);
    }
    for end in INPUTS..INPUTS + 8 {
        expect(tally, "a rule cut short", &bytes[..end], 4);
    }
    expect(tally, "a whole rule", &bytes, 0);
    for stop in [error(), abort()] {
        let bytes = input(&[FALSE; 16], &stop.rule());
        expect(tally, "a halt", &bytes, 0);
    }
}

/// "or its second byte not zero, is refused by 2", before the rule is looked at
fn second_bytes(tally: &mut Tally) {
    for rule in [truth(true).rule(), vec![]] {
        for at in 0..16 {
            for (zero, byte) in (1..WORD).flat_map(|zero| [(zero, 1), (zero, 255)]) {
                let mut bytes = input(&[FALSE; 16], &rule);
                bytes[INPUT * at + zero] = byte;
                expect(tally, "a second byte", &bytes, 2);
            }
        }
    }
}

/// "16 inputs of 4 bytes (kind, zero, 2-byte value)", which opening tests
fn opening(tally: &mut Tally) {
    let bad = Input { kind: 0, value: 2 };
    for at in [0, 15] {
        let mut inputs = [FALSE; 16];
        inputs[at] = bad;
        expect(tally, "a bad input", &input(&inputs, &[]), 2);
        inputs[at] = word_input(258);
        let rule = operator(1, at as u16, at as u16).rule();
        expect(tally, "a word of two bytes", &input(&inputs, &rule), 0);
        inputs[at] = FREE_TRUTH;
        let rule = test(at as u16, word(7), error()).rule();
        expect(tally, "the printed case", &input(&inputs, &rule), 0);
    }
}

/// "then a rule": of 1 to 4,096 records
fn rule_bytes(tally: &mut Tally) {
    let bytes = input(&[FALSE; 16], &long_rule(4_097));
    expect(tally, "4,097 records", &bytes, 4);
    expect(tally, "a byte too many", &bytes[..INPUTS + 32_769], 4);
    let bytes = input(&[FALSE; 16], &long_rule(4_096));
    // nested deeper than the allowance
    expect(tally, "4,096 records", &bytes, 12);
    expect(tally, "7 bytes of a record", &bytes[..INPUTS + 32_767], 4);
}

/// "allowance 100"
fn allowance(tally: &mut Tally) {
    for deeper in DEEPER {
        for depth in [1, 2, 98, 99, 100, 101, 102, 103, 200, 256, 257] {
            let (needed, tree) = needing_depth(depth, deeper);
            let refused = if needed <= 100 { 0 } else { 12 };
            let bytes = input(&[FREE_TRUTH; 16], &tree.rule());
            expect(tally, "the allowance", &bytes, refused);
        }
    }
}

/// "table 65,536"
fn table(tally: &mut Tally) {
    let mut inputs = [FALSE; 16];
    inputs[0] = FREE_WORD;
    // false, true, the free word and 16 bindings
    let opened = 19;
    for (terms, refused) in [(8_191, 0), (8_192, 0), (8_193, 11), (8_194, 11)] {
        let rule = making_terms(terms - opened).rule();
        expect(tally, "the table", &input(&inputs, &rule), refused);
    }
}
