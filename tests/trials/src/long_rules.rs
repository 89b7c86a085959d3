//! Rules of many records, in every shape and order: wherever a place is out of scope, a child is no child or a kind is none,
//! the tests 5 to 7 find it, in their order; and the pass for 6 and 7 takes one turn for each record up to the one that
//! ends it.

use crate::compare::compare_rule;
use crate::desk;
use crate::laid::{children, places, Laid, Order};
use crate::shapes::{random, SHAPES};
use crate::tally::Tally;
use second::dice::{record, Dice};

/// Around the sizes at which the desk may take longer lists, and below the most, which the limits have.
const SIZES: [u16; 10] = [1, 2, 3, 63, 64, 65, 511, 512, 513, 4_095];

pub fn all(tally: &mut Tally) {
    for records in SIZES {
        of_size(tally, records);
    }
    random_rules(tally);
}

/// Every shape in every order, good and with every kind of damage. Every place is the last that is in scope.
pub fn of_size(tally: &mut Tally, records: u16) {
    for (shape, tree) in SHAPES {
        let tree = tree(records);
        let orders = [
            Order::Levels,
            Order::FirstChild,
            Order::SecondChild,
            Order::Any(Dice(0x0dd5)),
        ];
        for order in orders {
            let laid = Laid::new(&tree, order).placed(|bindings| bindings + 15);
            let count = laid.records.len();
            tally.same(shape, count, usize::from(records));
            told(tally, shape, &laid, 0, count);
            bad_places(tally, shape, &laid);
            bad_trees(tally, shape, &laid);
            bad_kinds(tally, shape, &laid);
        }
    }
}

/// The refusal or 0, and the turns, are these.
fn told(tally: &mut Tally, what: &str, laid: &Laid, refusal: u8, turns: usize) {
    let bytes = laid.rule();
    let answer = (compare_rule(tally, &bytes), desk::rule_turns(&bytes));
    tally.same(what, answer, (refusal, turns as u16));
}

/// All of a few numbers; of many the first, one in the middle and the last.
fn some(numbers: &[usize]) -> Vec<usize> {
    match numbers {
        [first, .., last] if numbers.len() > 65 => vec![*first, numbers[numbers.len() / 2], *last],
        _ => numbers.to_vec(),
    }
}

/// "7: a place out of scope": by one, in one record, also in the one with most bindings.
fn bad_places(tally: &mut Tally, shape: &str, laid: &Laid) {
    let placed = laid.having(places);
    let deepest = placed.iter().max_by_key(|&&number| laid.bindings[number]);
    for &number in some(&placed).iter().chain(deepest) {
        for field in places(laid.records[number]) {
            let bad = laid.but(number, |record| *field.of(record) += 1);
            told(tally, shape, &bad, 7, laid.records.len());
        }
    }
}

/// "6: the tree, or a child past the last record", in rules that 7 would refuse too.
fn bad_trees(tally: &mut Tally, shape: &str, laid: &Laid) {
    let count = laid.records.len();
    let last = count - 1;
    let far = laid.having(places)[0];
    let laid = laid.but(far, |record| *places(*record)[0].of(record) += 1);
    for parent in some(&laid.having(children)) {
        for field in children(laid.records[parent]) {
            let named =
                |number: usize| laid.but(parent, |record| *field.of(record) = number as u16);
            // a child that is not after its parent, or past the last record, is found with the parent
            for number in [parent, count] {
                told(tally, shape, &named(number), 6, parent + 1);
            }
            // what was the child has no parent then, and the last record has two
            let child = usize::from(field.at(laid.records[parent]));
            if child != last {
                told(tally, shape, &named(last), 6, child + 1);
            }
        }
    }
    for number in [last, count] {
        let bad = laid.but(last, |end| *end = record(3, 0, number as u16, 0, 0));
        told(tally, shape, &bad, 6, count);
    }
    if count < 4_096 {
        let mut longer = laid;
        longer.records.push(record(1, 1, 0, 0, 0));
        told(tally, shape, &longer, 6, count + 1);
    }
}

/// "5: a kind": in the last record, before a bad tree and a bad place in the first.
fn bad_kinds(tally: &mut Tally, shape: &str, laid: &Laid) {
    let worse = laid.but(0, |root| *root = record(7, 0, 16, 0, 0));
    for laid in [laid, &worse] {
        let bad = laid.but(laid.records.len() - 1, |end| end.kind = 10);
        told(tally, shape, &bad, 5, 0);
    }
}

/// Random trees in any order with any places in scope; then damaged.
fn random_rules(tally: &mut Tally) {
    let mut dice = Dice(0x10e6);
    for _ in 0..500 {
        let most = dice.pick(&[64, 512, 4_096]);
        let records = 1 + dice.below(most) as u16;
        let tree = random(&mut dice, records);
        let order = Order::Any(Dice(1 + dice.below(1 << 32)));
        let laid = Laid::new(&tree, order).placed(|bindings| {
            let any = dice.below(u64::from(bindings) + 16) as u16;
            dice.pick(&[0, bindings + 15, any])
        });
        told(tally, "a random rule", &laid, 0, laid.records.len());
        for _ in 0..6 {
            let mut damaged = laid.clone();
            damage(&mut dice, &mut damaged);
            compare_rule(tally, &damaged.rule());
        }
    }
}

/// One record otherwise: its places, its children, these exchanged, or its kind; or the rule ends before it.
fn damage(dice: &mut Dice, laid: &mut Laid) {
    let count = laid.records.len() as u64;
    let number = dice.below(count) as usize;
    let other = dice.below(count + 2) as u16;
    let record = &mut laid.records[number];
    let before = *record;
    match dice.below(7) {
        0 => places(before).iter().for_each(|p| *p.of(record) += 1),
        1 => places(before).iter().for_each(|p| *p.of(record) = other),
        2 => children(before).iter().for_each(|c| *c.of(record) = other),
        3 | 4 => {
            let exchanged = children(before).iter().rev();
            for (child, from) in children(before).iter().zip(exchanged) {
                *child.of(record) = from.at(before);
            }
        }
        5 => record.kind = dice.below(11) as u8,
        _ => laid.records.truncate(number),
    }
}
