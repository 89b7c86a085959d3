//! Less, the truths of truths, and those of which nothing is known.

use super::{
    expect, heads, operated, reports, spans, with, Numbers, Ways, EITHER, FALSE, HEADS, MOST,
    SWITCH, TRUE,
};
use crate::tally::Tally;

pub fn all(tally: &mut Tally) {
    constants(tally);
    comparisons(tally);
    no_spans(tally);
    of_truths(tally);
    all_pairs(tally);
    others(tally);
}

/// "a constant reports itself alone"; a free truth may be either
fn constants(tally: &mut Tally) {
    let reports = reports(tally, &heads(), &spans(&[]));
    tally.same("false", reports[0], FALSE);
    tally.same("true", reports[1], TRUE);
    tally.same("a free truth", reports[usize::from(SWITCH)], EITHER);
}

/// "Less is true if the first span ends below the second's low, false if it starts at or above the second's high"
fn comparisons(tally: &mut Tally) {
    let made = with(heads(), [operated(11, HEADS[0], HEADS[1])]);
    for (first, second, wanted) in [
        ((2, 5), (6, 9), TRUE),
        ((2, 6), (6, 9), EITHER),
        ((2, 7), (6, 9), EITHER),
        ((9, 12), (6, 9), FALSE),
        ((8, 12), (6, 9), EITHER),
        ((10, 12), (6, 9), FALSE),
        ((6, 9), (6, 9), EITHER),
        ((7, 8), (6, 9), EITHER),
        ((6, 6), (7, 7), TRUE),
        ((7, 7), (7, 7), FALSE),
        ((8, 8), (7, 7), FALSE),
        ((7, 7), (7, 8), EITHER),
        ((6, 7), (7, 7), EITHER),
        ((7, 8), (7, 7), FALSE),
        ((0, MOST), (0, 0), FALSE),
        ((0, MOST), (0, 1), EITHER),
        ((0, MOST - 1), (MOST, MOST), TRUE),
        ((0, MOST), (MOST, MOST), EITHER),
        ((MOST, MOST), (0, MOST), FALSE),
        ((0, 0), (0, MOST), EITHER),
        ((0, 0), (1, MOST), TRUE),
    ] {
        let given = spans(&[first, second]);
        expect(tally, "less", &made, &given, wanted);
    }
    let itself = with(heads(), [operated(11, HEADS[0], HEADS[0])]);
    expect(tally, "less than itself", &itself, &spans(&[(3, 3)]), FALSE);
    expect(
        tally,
        "less than itself",
        &itself,
        &spans(&[(3, 4)]),
        EITHER,
    );
}

/// "every other truth reports both": less and equal on what has no span
fn no_spans(tally: &mut Tally) {
    let ways = Ways::new();
    let opened = usize::from(ways.made.session.count);
    for op in [11, 12] {
        for &truth in &ways.truths {
            let terms = HEADS.map(|head| operated(op, head, truth));
            let turned = HEADS.map(|head| operated(op, truth, head));
            let reports = ways.reports(tally, terms.into_iter().chain(turned));
            let both = reports[opened..].iter().all(|&report| report == EITHER);
            tally.same("a comparison with a truth", both, true);
        }
    }
}

/// "not, and, or go by the operands' truths"
fn of_truths(tally: &mut Tally) {
    let ways = Ways::new();
    let [no, yes, either] = [0, 1, SWITCH];
    for (op, a, b, wanted) in [
        (32, no, 0, TRUE),
        (32, yes, 0, FALSE),
        (32, either, 0, EITHER),
        (33, no, no, FALSE),
        (33, no, yes, FALSE),
        (33, no, either, FALSE),
        (33, yes, yes, TRUE),
        (33, yes, either, EITHER),
        (33, either, either, EITHER),
        (34, no, no, FALSE),
        (34, no, yes, TRUE),
        (34, no, either, EITHER),
        (34, yes, yes, TRUE),
        (34, yes, either, TRUE),
        (34, either, either, EITHER),
    ] {
        of_two(tally, &ways, op, [a, b], wanted);
        if op != 32 {
            of_two(tally, &ways, op, [b, a], wanted);
        }
    }
}

fn of_two(tally: &mut Tally, ways: &Ways, op: u8, [a, b]: [u16; 2], wanted: Numbers) {
    let made = ways.made.more(operated(op, a, b));
    expect(tally, "a truth of truths", &made, &ways.given, wanted);
}

/// The same of comparisons too, and of what is made of these.
fn all_pairs(tally: &mut Tally) {
    let mut ways = Ways::new();
    for _ in 0..2 {
        let of = |op, a| {
            let pairs = ways.truths.iter().map(move |&b| operated(op, a, b));
            pairs.collect::<Vec<_>>()
        };
        let firsts = ways
            .truths
            .iter()
            .flat_map(|&a| [32, 33, 34].map(|op| (op, a)));
        let terms: Vec<_> = firsts.flat_map(|(op, a)| of(op, a)).collect();
        let before = ways.made.session.count;
        ways.made = with(ways.made, terms);
        reports(tally, &ways.made, &ways.given);
        // a few of the new ones, so that the next turn's table is not full
        let new = (before..ways.made.session.count).step_by(7);
        ways.truths.extend(new);
    }
}

/// "every other truth reports both": equal, is a word, is a procedure and truth, whatever is known of the operands
fn others(tally: &mut Tally) {
    let made = with(heads(), [operated(12, HEADS[0], HEADS[1])]);
    for ends in [[(3, 3), (3, 3)], [(3, 3), (4, 4)], [(0, 5), (7, 9)]] {
        expect(tally, "equal", &made, &spans(&ends), EITHER);
    }
    let ways = Ways::new();
    let opened = usize::from(ways.made.session.count);
    let is_choice = |&number: &u16| ways.made.term(number).kind == 6;
    let choices: Vec<u16> = ways.values.iter().copied().filter(is_choice).collect();
    let of = |op| choices.iter().map(move |&a| operated(op, a, 0));
    let reports = ways.reports(tally, [14, 15, 35].into_iter().flat_map(of));
    let both = reports[opened..].iter().all(|&report| report == EITHER);
    tally.same("a truth of a choice", both, true);
}
