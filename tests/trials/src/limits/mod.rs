//! Both sides of every limit in document 01, and every order of two tests or steps that its text fixes; and what document
//! 02's requests change. A line over a trial has the sentence that it tries. `tests/second/faults` has for each group the faults that it must notice.

mod acceptances;
mod clauses;
mod depths;
mod every_kind;
mod fitting;
mod folds;
mod leaves;
mod making;
mod openings;
mod operators;
mod orders;
mod prints;
mod readings;
mod rule_records;
mod samples;
mod shifts;
mod spans;
mod stores;
mod terms;
mod witness;

use crate::compare::compare_fits;
use crate::evaluations::Pair;
use crate::made::{Made, FALSE, FREE_TRUTH};
use crate::tally::Tally;
use crate::tree::Tree;
use every_kind::TRUE_TERM;
use second::dice::Dice;
use second::{Input, ResultOf};

type Group = (&'static str, fn(&mut Tally));

const GROUPS: [Group; 19] = [
    ("openings", openings::all),
    ("rule_records", rule_records::all),
    ("fitting", fitting::all),
    ("terms", terms::all),
    ("acceptances", acceptances::all),
    ("leaves", leaves::all),
    ("depths", depths::all),
    ("making", making::all),
    ("folds", folds::all),
    ("operators", operators::all),
    ("shifts", shifts::all),
    ("readings", readings::all),
    ("samples", samples::all),
    ("spans", spans::all),
    ("clauses", clauses::all),
    ("witness", witness::all),
    ("stores", stores::all),
    ("orders", orders::all),
    ("prints", prints::all),
];

pub fn all(tally: &mut Tally) {
    for (_, group) in GROUPS {
        group(tally);
    }
}

pub fn groups() -> impl Iterator<Item = &'static str> {
    GROUPS.into_iter().map(|(name, _)| name)
}

/// One group alone.
pub fn group(name: &str, mut tally: Tally) {
    let group = GROUPS.iter().find(|(other, _)| *other == name);
    let (_, group) = group.expect("a group of limits");
    group(&mut tally);
    tally.tell();
}

fn fits(tally: &mut Tally, made: &Made) -> u8 {
    compare_fits(tally, &made.session, &made.table)
}

fn evaluate(tally: &mut Tally, made: &Made, rule: &[u8], allowance: u16) -> u8 {
    Pair::of(made.session, made.table.clone()).refusal(tally, rule, allowance)
}

/// A tree's rule; about one in ten has a byte changed.
fn damaged_at_times(dice: &mut Dice, tree: &Tree) -> Vec<u8> {
    let mut bytes = tree.rule();
    if dice.below(10) == 0 {
        let at = dice.below(bytes.len() as u64) as usize;
        bytes[at] = dice.below(20) as u8;
    }
    bytes
}

/// A result that every table has.
const GOOD: ResultOf = ResultOf {
    s: TRUE_TERM,
    t: TRUE_TERM,
    value: TRUE_TERM,
    halted: false,
};

/// A table of 320 bytes that 3 takes, whose last input is a free truth, and others that it refuses.
fn tables_about_three() -> [(Made, Option<u8>); 5] {
    let mut inputs = [FALSE; 16];
    inputs[15] = FREE_TRUTH;
    tables_over(&inputs)
}

/// The same over any inputs, of which the last is free.
fn tables_over(inputs: &[Input; 16]) -> [(Made, Option<u8>); 5] {
    let good = Made::open(inputs, 40);
    [
        (good.clone(), None),
        (good.over(319), Some(3)),
        (
            good.but(|session| session.inputs[0] = Input { kind: 4, value: 0 }),
            Some(3),
        ),
        (good.but(|session| session.count += 1), Some(3)),
        (good.but(|session| session.t = 90), Some(3)),
    ]
}

/// A result that 14 takes over the first of these tables, and others that it refuses.
const RESULTS_ABOUT_FOURTEEN: [(ResultOf, Option<u8>); 5] = [
    (GOOD, None),
    (ResultOf { s: 90, ..GOOD }, Some(14)),
    (ResultOf { t: 18, ..GOOD }, Some(14)),
    (ResultOf { value: 90, ..GOOD }, Some(14)),
    (ResultOf { value: 18, ..GOOD }, Some(14)),
];

/// The first of the refusals that are there, or 0.
fn first(refusals: &[Option<u8>]) -> u8 {
    refusals.iter().flatten().next().copied().unwrap_or(0)
}
