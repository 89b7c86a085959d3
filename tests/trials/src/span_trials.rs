//! Spans: sessions of random rules and damaged ones, lists about the count, and what the reports say of readings.

use crate::compare::compare_spans;
use crate::desk::REPORT;
use crate::kept::Kept;
use crate::made::{word_input, FREE_TRUTH, FREE_WORD};
use crate::session_trials::{damage, other_sessions, other_tables, small_session};
use crate::tally::Tally;
use crate::tree::{bind, error, operator, place, test, word, Tree};
use second::dice::Dice;
use second::{evaluate, open, term_readings, Input, Outcome, Session, Spans};

/// A truth that can only be true.
const ONLY_TRUE: [u32; REPORT] = [1, 1, 1];

pub fn all(tally: &mut Tally) {
    random_sessions(tally);
    asserted(tally);
    damaged_tables(tally);
    damaged_sessions(tally);
}

/// Sessions of some rules, reported under spans of which some are refused, then with damage.
fn random_sessions(tally: &mut Tally) {
    let mut dice = Dice(0x5a25);
    for _ in 0..8_000 {
        let inputs = dice.inputs();
        let size = dice.pick(&[272, 512, 4_096, 16_384]);
        let mut table = vec![0; size];
        let mut session = open(&inputs, &mut table).expect("a good opening");
        for _ in 0..3 {
            let size = dice.below(30) + 1;
            evaluate(&mut session, &mut table, &dice.rule(size), 24);
            lists(tally, &mut dice, &session, &table);
        }
        readings(tally, &mut dice, &session, &table);
        damage(&mut dice, &mut session, &mut table);
        lists(tally, &mut dice, &session, &table);
    }
}

/// Lists too short, of the right length and longer, also by numbers that are no whole report.
fn lists(tally: &mut Tally, dice: &mut Dice, session: &Session, table: &[u8]) {
    let given = dice.any_spans(&session.inputs);
    let right = REPORT * usize::from(session.count);
    let short = dice.below(right as u64 + 1) as usize;
    let long = right + 1 + dice.below(8) as usize;
    for numbers in [short, right.saturating_sub(1), right, long] {
        compare_spans(tally, session, table, &given, numbers);
    }
}

/// "Every reading within the spans must lie in what is reported"
fn readings(tally: &mut Tally, dice: &mut Dice, session: &Session, table: &[u8]) {
    let given = dice.spans(&session.inputs);
    let right = REPORT * usize::from(session.count);
    let (_, list) = compare_spans(tally, session, table, &given, right);
    for _ in 0..3 {
        let numbers = dice.numbers_in(&session.inputs, &given);
        let readings = term_readings(session, table, &numbers).expect("readings");
        let outside = list
            .chunks_exact(REPORT)
            .zip(&readings)
            .position(|(report, &reading)| !covers(report, reading));
        tally.same("a term that reads outside its report", outside, None);
    }
}

/// Whether a term so reported may read so.
fn covers(report: &[u32], reading: Outcome) -> bool {
    let within = |number: u32| (report[1]..=report[2]).contains(&number);
    match (report[0], reading) {
        (0, _) => true,
        (1, Outcome::Truth(truth)) => within(u32::from(truth)),
        (2, Outcome::Word(word)) => within(u32::from(word)),
        _ => false,
    }
}

/// "If, in a session kept from its opening, the asserted formula can only be true [..] no reading in the spans errs", where
/// T is no constant and the spans decide it
fn asserted(tally: &mut Tally) {
    let mut dice = Dice(0xa55e);
    let (mut decided, mut open) = (0, 0);
    for _ in 0..6_000 {
        let inputs = heads(&mut dice);
        let mut kept = Kept::open(&inputs, 8_192);
        for _ in 0..3 {
            let size = dice.below(5) + 1;
            let words: Vec<u16> = (0..16).filter(|&at| is_word(&inputs, at)).collect();
            kept.evaluate(&compared(&mut dice, &words, size).rule(), 24);
            if dice.below(4) == 0 {
                let size = dice.below(12) + 1;
                kept.evaluate(&dice.rule(size), 24);
            }
            let given = dice.spans(&inputs);
            if never_errs(tally, &kept, &given) {
                decided += u32::from(kept.session.t > 1);
                within(tally, &mut dice, &kept, &given);
            } else {
                open += 1;
            }
            readings(tally, &mut dice, &kept.session, &kept.table);
        }
    }
    let enough = decided > 500 && open > 500;
    tally.same("formulas that the spans decide, or not", enough, true);
}

/// Whether T's report can only be true.
fn never_errs(tally: &mut Tally, kept: &Kept, given: &Spans) -> bool {
    let numbers = REPORT * usize::from(kept.session.count);
    let (_, list) = compare_spans(tally, &kept.session, &kept.table, given, numbers);
    let at = REPORT * usize::from(kept.session.t);
    list[at..at + REPORT] == ONLY_TRUE
}

/// No reading of the last result errs, and no run of the accepted rules.
fn within(tally: &mut Tally, dice: &mut Dice, kept: &Kept, given: &Spans) {
    for _ in 0..4 {
        let numbers = dice.numbers_in(&kept.session.inputs, given);
        let read = kept.read(tally, &numbers);
        tally.same("a reading that errs", read == Some(Outcome::Error), false);
        let ran = kept.run(&numbers);
        tally.same("a run that errs", ran == Some(Outcome::Error), false);
    }
}

/// Mostly free words, two of them for certain.
fn heads(dice: &mut Dice) -> [Input; 16] {
    let mut inputs = std::array::from_fn(|_| match dice.below(5) {
        0 => FREE_TRUTH,
        1 => word_input(dice.word()),
        _ => FREE_WORD,
    });
    inputs[..2].fill(FREE_WORD);
    inputs
}

fn is_word(inputs: &[Input; 16], at: u16) -> bool {
    matches!(inputs[usize::from(at)].kind, 1 | 3)
}

/// Sums, differences and comparisons of words, which stand at these places, and an error where a comparison is false, or
/// where it is true.
fn compared(dice: &mut Dice, words: &[u16], size: u64) -> Tree {
    let (p, q) = (dice.pick(words), dice.pick(words));
    if size == 0 {
        return place(p);
    }
    let mut deeper: Vec<u16> = words.iter().map(|place| place + 1).collect();
    match dice.below(5) {
        0 | 1 => {
            deeper.push(0);
            let operated = operator(1 + dice.below(2) as u8, p, q);
            bind(operated, compared(dice, &deeper, size - 1))
        }
        2 => {
            deeper.push(0);
            bind(word(dice.word()), compared(dice, &deeper, size - 1))
        }
        turned => {
            let rest = compared(dice, &deeper, size - 1);
            let sides = [(rest.clone(), error()), (error(), rest)];
            let (then, other) = sides[usize::from(turned == 3)].clone();
            bind(operator(11, p, q), test(0, then, other))
        }
    }
}

/// Other values of every byte of a small table.
fn damaged_tables(tally: &mut Tally) {
    let (session, good) = small_session();
    let given = Dice(0xda3).spans(&session.inputs);
    for table in other_tables(&good) {
        compare_spans(tally, &session, &table, &given, 180);
    }
}

/// Every field of a session at numbers about its bounds.
fn damaged_sessions(tally: &mut Tally) {
    let (good, table) = small_session();
    let given = Dice(0xda5).spans(&good.inputs);
    for session in other_sessions(good) {
        compare_spans(tally, &session, &table, &given, 180);
    }
}
