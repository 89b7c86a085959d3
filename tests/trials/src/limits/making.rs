//! The order in which an evaluation makes terms.

use super::evaluate;
use crate::evaluations::Pair;
use crate::made::{free_inputs, Made, FREE_TRUTH};
use crate::tally::Tally;
use crate::tree::{abort, bind, call, error, operator, place, procedure, test, truth, word, Tree};
use second::Word;

pub fn all(tally: &mut Tally) {
    operators_on_choices(tally);
    halts(tally);
    ifs(tally);
    calls(tally);
    merges(tally);
    lists(tally);
}

/// Even places are free truths and odd ones free words.
fn tried(tally: &mut Tally, tree: &Tree) {
    evaluate(tally, &Made::open(&free_inputs(), 2_048), &tree.rule(), 100);
}

/// A choice by the truth at a place, which is a word or a truth.
fn choice(place: u16, value: Word) -> Tree {
    test(place, word(value), truth(true))
}

/// "Operator: codes 1 to 12 make one assertion, the and of "is a word" for p and for q [..]; halt if S or T is then false;
/// else the term. Codes 13 to 15 assert nothing."
fn operators_on_choices(tally: &mut Tally) {
    for op in 1..=15 {
        let one = matches!(op, 9 | 10 | 13 | 14 | 15);
        // places 0 and 1 are choices, 2 is false and 3 true, 4 is a free truth and 5 a free word
        for p in 0..6 {
            for q in if one { 0..1 } else { 0..6 } {
                let choices = bind(choice(2, 5), bind(choice(5, 6), operator(op, p, q)));
                tried(tally, &bind(truth(true), bind(truth(false), choices)));
            }
        }
    }
}

/// "Abort and error halt after assuming or asserting false.", "Let: a halt of the first part is the answer."
fn halts(tally: &mut Tally) {
    for stop in [abort(), error(), operator(1, 0, 1), call(0, 1)] {
        tried(tally, &stop);
        tried(tally, &bind(stop.clone(), word(5)));
        tried(tally, &bind(word(5), stop.clone()));
        tried(tally, &test(0, stop.clone(), word(5)));
        tried(tally, &test(0, word(5), stop.clone()));
        tried(tally, &test(0, stop.clone(), stop.clone()));
        let guarded = test(2, stop.clone(), word(6));
        tried(tally, &test(0, guarded.clone(), word(5)));
        tried(tally, &bind(guarded.clone(), stop.clone()));
        tried(tally, &bind(guarded, test(5, stop, word(7))));
    }
}

/// "If: take g, truth of the test. Constant: one branch only. Else not g, both assumed states, then branches, merged over
/// the state before."
fn ifs(tally: &mut Tally) {
    let stopped = |p| test(p, word(5), error());
    let skipped = |p| test(p, abort(), word(6));
    for (then, other) in [
        (word(5), word(6)),
        (stopped(2), skipped(4)),
        (skipped(2), stopped(4)),
        (test(2, word(5), word(6)), test(4, word(7), word(8))),
    ] {
        let both = test(0, then, other);
        tried(tally, &both);
        tried(tally, &bind(stopped(6), bind(place(1), both.clone())));
        tried(tally, &bind(skipped(6), bind(place(1), both)));
    }
    for test_value in [truth(false), truth(true), word(0), procedure(word(1))] {
        tried(tally, &bind(test_value, test(0, word(5), word(6))));
    }
    tried(tally, &bind(choice(0, 5), test(0, word(5), word(6))));
}

/// Choices of procedures and other values, by the free truths at even places where no binding is before them.
fn targets(bindings: u16) -> Vec<Tree> {
    let either = |input, then, other| test(input + bindings, then, other);
    let add = || procedure(operator(1, 0, bindings + 2));
    let guarded = || procedure(test(bindings + 3, word(5), error()));
    let skips = || procedure(test(bindings + 3, abort(), place(0)));
    vec![
        add(),
        either(0, add(), guarded()),
        either(0, add(), word(7)),
        either(0, word(7), add()),
        either(0, either(2, add(), guarded()), either(4, skips(), add())),
        either(0, either(2, add(), word(7)), either(4, word(8), guarded())),
        either(0, word(7), either(2, guarded(), either(4, add(), skips()))),
        either(0, either(2, either(4, add(), skips()), guarded()), word(8)),
        either(0, procedure(error()), procedure(abort())),
        either(0, procedure(error()), add()),
        either(0, word(7), word(8)),
    ]
}

/// "Call: walk the choices, left side first, from guard true. [..] each made as that side is entered. [..] assert the or,
/// from the left starting at false, of their guards [..]. Each target runs in turn, its guard assumed, then its argument
/// bound. Merge over the asserted state."
fn calls(tally: &mut Tally) {
    // a free word, a free truth
    for argument in [2, 3] {
        for chosen in targets(0) {
            tried(tally, &bind(chosen, call(0, argument)));
        }
        // in a state with something asserted or assumed a guard is no earlier state, but a new term
        for before in [test(6, word(5), error()), test(6, abort(), word(5))] {
            for chosen in targets(1) {
                let called = bind(chosen, call(0, argument + 1));
                tried(tally, &bind(before.clone(), called));
            }
        }
    }
}

/// "Merge: S is and'ed with implies(guard, branch S) for each branch in order, then T likewise. [..] of the others the last
/// value is folded from the right by choice. All halted, or none ran: halt. Else halt only if S or T is false."
fn merges(tally: &mut Tally) {
    let body = |value| procedure(bind(test(2, word(value), error()), word(value)));
    let three = test(0, body(5), test(2, body(6), body(7)));
    tried(tally, &bind(three, call(0, 1)));
    let halting = test(0, body(5), test(2, procedure(abort()), body(7)));
    tried(tally, &bind(halting, call(0, 1)));
    // in sessions that begin with something asserted or assumed
    for (s, t) in [(2, 1), (1, 2), (2, 3), (3, 2)] {
        let made = Made::open(&[FREE_TRUTH; 16], 2_048).but(|session| {
            session.s = s;
            session.t = t;
        });
        for tree in [
            test(0, word(5), error()),
            test(0, abort(), error()),
            test(1, error(), error()),
            test(1, abort(), word(5)),
        ] {
            evaluate(tally, &made, &tree.rule(), 9);
        }
    }
}

/// "Its S, T and halt become the session's.", and procedures of two rules are kept apart.
fn lists(tally: &mut Tally) {
    let made = Made::open(&free_inputs(), 2_048);
    let mut pair = Pair::of(made.session, made.table);
    for tree in [
        procedure(place(0)),
        test(0, word(5), error()),
        procedure(place(0)),
        test(2, abort(), word(5)),
        bind(procedure(place(0)), call(0, 0)),
        error(),
        word(9),
    ] {
        let refusal = pair.refusal(tally, &tree.rule(), 9);
        tally.same("a list of rules", refusal, 0);
    }
}
