//! "Term n owns 18 variables, from 18n + 1: two tell the kind (00 truth, 10 word, 01 procedure, 11 binding), and sixteen hold
//! the bits, lowest first, a truth in the lowest": the terms that are no operators.

use super::gates::{choose, fixed, Clause};
use super::{clauses, follows, of_one_more, word_term};
use crate::limits::every_kind::{every_kind, opened, LAST_OPENED, PROCEDURE};
use crate::limits::operators::WORDS;
use crate::made::{free_inputs, word_input, Made, FALSE, FREE_TRUTH, FREE_WORD, TRUE};
use crate::tally::Tally;
use second::cnf::{wire, WIRES};
use second::dice::record;
use second::{Input, Word};

pub fn all(tally: &mut Tally) {
    truth_constants(tally);
    word_constants(tally);
    free_inputs_alone(tally);
    procedures(tally);
    bindings(tally);
    choices(tally);
    every_input(tally);
    readings(tally);
}

type Kind = (bool, bool);
const TRUTH_KIND: Kind = (false, false);
const WORD_KIND: Kind = (true, false);
const PROCEDURE_KIND: Kind = (false, true);
const BINDING_KIND: Kind = (true, true);

fn kind_of(number: usize, kind: Kind) -> Vec<Clause> {
    fixed([(wire(number, 0), kind.0), (wire(number, 1), kind.1)])
}

/// The kind, and from some bit on a word's bits.
fn with_bits(number: usize, kind: Kind, from: usize, word: u64) -> Vec<Clause> {
    let bits = from..Word::BITS as usize;
    let bits = bits.map(|bit| (wire(number, 2 + bit), word >> bit & 1 == 1));
    [kind_of(number, kind), fixed(bits)].concat()
}

/// The clauses of an opening's term, by the term's number, wherever they stand.
fn of_opened(tally: &mut Tally, inputs: &[Input; 16], number: usize) -> Vec<Clause> {
    let terms = clauses(tally, &Made::open(inputs, 34)).map_or(Vec::new(), |cnf| cnf.clauses);
    let own = |literal: &i64| (literal.unsigned_abs() as usize).div_ceil(WIRES) == number + 1;
    let of_own = terms.into_iter().filter(|clause| clause.iter().all(own));
    of_own.collect()
}

/// "truth constant: own0, own1 fixed to 0 0; own2 to own17 to the bits of a"
fn truth_constants(tally: &mut Tally) {
    for inputs in [[FALSE; 16], [TRUE; 16], free_inputs()] {
        for truth in [0, 1] {
            let expected = with_bits(truth, TRUTH_KIND, 0, truth as u64);
            let told = of_opened(tally, &inputs, truth);
            tally.same_list("a truth constant", &told, &expected);
        }
    }
}

/// "word constant: own0, own1 fixed to 1 0; own2 to own17 to the bits of the word": each bit alone, and words at the limits
fn word_constants(tally: &mut Tally) {
    let made = Made::open(&[FALSE; 16], 34);
    let number = usize::from(made.session.count);
    let bits = (0..Word::BITS).map(|bit| 1 << bit);
    for word in WORDS.into_iter().chain(bits).chain([0x5a5a, 0xa5a5]) {
        let told = of_one_more(tally, &made, word_term(word));
        let expected = with_bits(number, WORD_KIND, 0, u64::from(word));
        tally.same_list("a word constant", &told, &expected);
        let mut inputs = [FALSE; 16];
        inputs[0] = word_input(word);
        let told = of_opened(tally, &inputs, 2);
        let expected = with_bits(2, WORD_KIND, 0, u64::from(word));
        tally.same_list("an input's word constant", &told, &expected);
    }
}

/// "free truth: own0, own1 fixed to 0 0; own3 to own17 to 0", "free word: own0, own1 fixed to 1 0"
fn free_inputs_alone(tally: &mut Tally) {
    for at in 0..16 {
        let number = 2 + at;
        let told = of_opened(tally, &[FREE_TRUTH; 16], number);
        let expected = with_bits(number, TRUTH_KIND, 1, 0);
        tally.same_list("a free truth", &told, &expected);
        let told = of_opened(tally, &[FREE_WORD; 16], number);
        tally.same_list("a free word", &told, &kind_of(number, WORD_KIND));
    }
}

/// "procedure: own0, own1 fixed to 0 1; own2 to own17 to the bits of a"
fn procedures(tally: &mut Tally) {
    let made = Made::open(&free_inputs(), 40).but(|session| session.accepted = 2);
    let number = usize::from(made.session.count);
    let bits = (0..12).map(|bit| 1 << bit);
    for body in bits.chain([0, 3, 255, 1_365, 4_094, 4_095]) {
        for rule in [0, 1] {
            let term = record(7, 0, body, made.session.count - 1, rule);
            let told = of_one_more(tally, &made, term);
            let expected = with_bits(number, PROCEDURE_KIND, 0, u64::from(body));
            tally.same_list("a procedure", &told, &expected);
        }
    }
}

/// "binding: own0, own1 fixed to 1 1", whatever it binds
fn bindings(tally: &mut Tally) {
    let made = Made::open(&free_inputs(), 40);
    let number = usize::from(made.session.count);
    let expected = kind_of(number, BINDING_KIND);
    for (value, next) in [(0, 65_535), (1, 33), (2, 18), (3, 65_535), (17, 20)] {
        let term = record(8, 0, value, next, 0);
        if !made.holds(term) {
            let told = of_one_more(tally, &made, term);
            tally.same_list("a binding", &told, &expected);
        }
    }
    for at in 18..34 {
        let told = of_opened(tally, &free_inputs(), at);
        tally.same_list("an input's binding", &told, &kind_of(at, BINDING_KIND));
    }
}

/// "choice: for each i from 0 to 17: own i = choose(a2, b i, c i)", of any guard and sides
fn choices(tally: &mut Tally) {
    let procedure = record(7, 0, 9, 33, 0);
    let made = Made::open(&free_inputs(), 40);
    let made = made.but(|session| session.accepted = 1).more(procedure);
    let number = usize::from(made.session.count);
    for guard in [0, 1, 2, 16] {
        for then in [0, 2, 3, 17, 34] {
            for other in [1, 2, 3, 17, 34] {
                let told = of_one_more(tally, &made, record(6, 0, guard, then, other));
                let guard = wire(usize::from(guard), 2);
                let [then, other] = [then, other].map(usize::from);
                let gate = |i| choose(wire(number, i), guard, wire(then, i), wire(other, i));
                let expected: Vec<Clause> = (0..WIRES).flat_map(gate).collect();
                tally.same_list("a choice", &told, &expected);
            }
        }
    }
}

/// Each kind of input at each place, among others of each kind: equal constants share a term, free inputs do not.
fn every_input(tally: &mut Tally) {
    let kinds = [
        FALSE,
        TRUE,
        word_input(0),
        word_input(9),
        FREE_TRUTH,
        FREE_WORD,
    ];
    for at in 0..16 {
        for one in kinds {
            for others in kinds {
                let mut inputs = [others; 16];
                inputs[at] = one;
                clauses(tally, &Made::open(&inputs, 34));
            }
        }
    }
}

/// Kinds and values follow from the inputs; a binding's bits, and a truth's but the lowest, are left open at times.
fn readings(tally: &mut Tally) {
    for made in [
        opened(),
        every_kind(),
        // a choice of choices, and of what they are not
        every_kind().more(record(6, 0, 5, 28, PROCEDURE)),
        every_kind().more(record(6, 0, 24, 26, 28)),
        every_kind().more(record(8, 0, 26, LAST_OPENED, 0)),
    ] {
        let cnf = clauses(tally, &made);
        for first in [0, 1] {
            for last in [0, 1] {
                for word in [0, 8, 9, 10, Word::MAX] {
                    let mut numbers = [0; 16];
                    (numbers[0], numbers[1], numbers[15]) = (first, word, last);
                    follows(tally, &made, cnf.as_ref(), &numbers);
                }
            }
        }
    }
}
