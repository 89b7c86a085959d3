mod common;

use common::{fits, free_inputs, opened, word, FALSE, FREE_TRUTH};
use second::dice::{record, rule, Dice};
use second::{evaluate, open, print, read, run, Answer, Input, Outcome, Record, ResultOf, Session};
use second::{Word, WORD_BYTES};
use std::collections::BTreeSet;

const ZEROS: [Word; 16] = [0; 16];

/// The bytes of the printing program's inputs.
const INPUTS: usize = 16 * 2 * WORD_BYTES;

fn evaluate_fresh(inputs: &[Input; 16], rule: &[u8], allowance: u16) -> Answer {
    let (mut session, mut table) = opened(inputs, 65_536);
    let answer = evaluate(&mut session, &mut table, rule, allowance);
    if let Answer::Refused(_) = answer {
        assert_eq!((session, table), opened(inputs, 65_536));
    }
    answer
}

/// The value of a single rule, read back with every number zero.
fn value(inputs: &[Input; 16], rule: &[u8]) -> Outcome {
    let (mut session, mut table) = opened(inputs, 65_536);
    let answer = evaluate(&mut session, &mut table, rule, 256);
    read_answer(&session, &table, answer)
}

fn read_answer(session: &Session, table: &[u8], answer: Answer) -> Outcome {
    let result = match answer {
        Answer::Out { s, t, value, .. } => result(s, t, value, false),
        Answer::Halt { s, t, .. } => result(s, t, 0, true),
        Answer::Refused(refusal) => return Outcome::Refused(refusal),
    };
    read(session, table, &ZEROS, &result, usize::from(session.count))
}

fn result(s: u16, t: u16, value: u16, halted: bool) -> ResultOf {
    ResultOf {
        s,
        t,
        value,
        halted,
    }
}

fn datum() -> Vec<u8> {
    rule(&[record(1, 1, 0, 0, 0)])
}

/// A let of a chain of ifs with so many leaves, the last a procedure, then a call of it.
fn call_of_leaves(leaves: u16) -> Vec<u8> {
    let mut records = vec![record(6, 0, 2, 1, 0), record(4, 0, 0, 0, 0)];
    for leaf in 1..leaves {
        let at = records.len() as u16;
        records.push(record(7, 0, leaf % 16, at + 1, at + 2));
        records.push(record(1, 2, leaf, 0, 0));
    }
    let at = records.len() as u16;
    records.push(record(3, 0, at + 1, 0, 0));
    records.push(record(2, 0, 0, 0, 0));
    rule(&records)
}

#[test]
fn leaves_64_and_65() {
    let inputs = [FREE_TRUTH; 16];
    let out = |leaves| evaluate_fresh(&inputs, &call_of_leaves(leaves), 256);
    assert!(matches!(out(1), Answer::Out { s: 1, t: 1, .. }));
    assert!(matches!(out(63), Answer::Out { .. }));
    assert!(matches!(out(64), Answer::Out { .. }));
    assert_eq!(out(65), Answer::Refused(10));
    assert_eq!(out(100), Answer::Refused(10));
}

#[test]
fn tables_of_272_and_264_bytes() {
    for bytes in [0, 8, 264, 271, 273, 65_544, 65_537] {
        let mut table = vec![0xa5; bytes];
        assert_eq!(open(&free_inputs(), &mut table), Err(1));
        assert!(table.iter().all(|&byte| byte == 0xa5));
    }
    let (mut session, mut table) = opened(&free_inputs(), 272);
    assert_eq!(session.count, 34);
    let full = rule(&[record(1, 2, 5, 0, 0)]);
    assert_eq!(
        evaluate(&mut session, &mut table, &full, 1),
        Answer::Refused(11)
    );
    assert_eq!((session, table.clone()), opened(&free_inputs(), 272));
    assert!(matches!(
        evaluate(&mut session, &mut table, &datum(), 1),
        Answer::Out { value: 1, .. }
    ));
}

#[test]
fn openings_zero_the_tail_and_share_inputs() {
    let (session, table) = opened(&[FALSE; 16], 280);
    assert_eq!(session.count, 18);
    assert!(table[18 * 8..].iter().all(|&byte| byte == 0));
    assert_eq!(opened(&[word(9); 16], 280).0.count, 19);
    for bad in [
        Input { kind: 0, value: 2 },
        Input { kind: 2, value: 1 },
        Input { kind: 3, value: 1 },
        Input { kind: 4, value: 0 },
    ] {
        let mut inputs = free_inputs();
        inputs[15] = bad;
        let mut table = vec![7; 272];
        assert_eq!(open(&inputs, &mut table), Err(2));
        assert_eq!(open(&inputs, &mut table[..8]), Err(1));
        assert_eq!(table, vec![7; 272]);
        let outcome = run(&inputs, &[2; 16], &[], 0, 0);
        assert_eq!(outcome, Outcome::Refused(2));
    }
}

/// A tree of lets laid out as a heap; a let with one child becomes a procedure.
fn heap(count: u16) -> Vec<u8> {
    let at = |i: u16| match (2 * i + 1 < count, 2 * i + 2 < count) {
        (true, true) => record(6, 0, 2 * i + 1, 2 * i + 2, 0),
        (true, false) => record(3, 0, 2 * i + 1, 0, 0),
        _ => record(1, 1, 0, 0, 0),
    };
    rule(&(0..count).map(at).collect::<Vec<_>>())
}

#[test]
fn rules_of_4096_and_4097_records() {
    let inputs = [FALSE; 16];
    let answer = evaluate_fresh(&inputs, &heap(4_096), 256);
    assert!(matches!(answer, Answer::Out { depth: 12, .. }));
    assert_eq!(
        evaluate_fresh(&inputs, &heap(4_097), 256),
        Answer::Refused(4)
    );
    let ran = |count, allowance, store| run(&inputs, &ZEROS, &heap(count), allowance, store);
    let places = 16 + 2_047;
    assert_eq!(ran(4_096, 12, places * 8), Outcome::Truth(true));
    assert_eq!(ran(4_096, 12, places * 8 - 1), Outcome::Refused(16));
    assert_eq!(ran(4_096, 11, places * 8), Outcome::Refused(12));
    assert_eq!(ran(4_097, 12, places * 8), Outcome::Refused(4));
}

#[test]
fn places_15_and_16() {
    let mut inputs = [FALSE; 16];
    inputs[15] = word(4);
    let root = |place| rule(&[record(2, 0, place, 0, 0)]);
    let within = |place| {
        rule(&[
            record(6, 0, 1, 2, 0),
            record(1, 1, 0, 0, 0),
            record(2, 0, place, 0, 0),
        ])
    };
    assert_eq!(value(&inputs, &root(15)), Outcome::Word(4));
    assert_eq!(value(&inputs, &root(16)), Outcome::Refused(7));
    assert_eq!(value(&inputs, &within(16)), Outcome::Word(4));
    assert_eq!(value(&inputs, &within(17)), Outcome::Refused(7));
    // One operand: place 15 is used, place 16 is out of scope.
    assert_eq!(
        value(&inputs, &rule(&[record(5, 9, 15, 0, 0)])),
        Outcome::Word(1)
    );
    assert_eq!(
        value(&inputs, &rule(&[record(5, 9, 16, 0, 0)])),
        Outcome::Refused(7)
    );
    assert_eq!(run(&inputs, &ZEROS, &root(15), 1, 128), Outcome::Word(4));
    assert_eq!(run(&inputs, &ZEROS, &root(16), 1, 128), Outcome::Refused(7));
}

#[test]
fn places_in_the_deepest_rules() {
    let tested = |inside: &[Record], place| {
        let records = [inside, &[record(2, 0, place, 0, 0)]].concat();
        run(&[FALSE; 16], &ZEROS, &rule(&records), 0, 0)
    };
    let procedures: Vec<Record> = (1..=4_095).map(|body| record(3, 0, body, 0, 0)).collect();
    assert_eq!(tested(&procedures, 4_095 + 15), Outcome::Refused(8));
    assert_eq!(tested(&procedures, 4_095 + 16), Outcome::Refused(7));
    let lets: Vec<Record> = (0..2_047)
        .flat_map(|n| {
            [
                record(6, 0, 2 * n + 1, 2 * n + 2, 0),
                record(2, 0, n + 15, 0, 0),
            ]
        })
        .collect();
    assert_eq!(tested(&lets, 2_047 + 15), Outcome::Refused(8));
    assert_eq!(tested(&lets, 2_047 + 16), Outcome::Refused(7));
    for first in [0, 1_023, 2_046] {
        let mut lets = lets.clone();
        lets[2 * first + 1].a += 1;
        assert_eq!(tested(&lets, 0), Outcome::Refused(7));
    }
}

#[test]
fn rule_tests_keep_their_order() {
    let inputs = [FALSE; 16];
    let refused = |records: &[Record], allowance| {
        let rule = rule(records);
        let answer = evaluate_fresh(&inputs, &rule, allowance);
        let outcome = run(&inputs, &ZEROS, &rule, allowance, 65_536);
        match (answer, outcome) {
            (Answer::Refused(a), Outcome::Refused(b)) if a == b => a,
            _ => 0,
        }
    };
    let orphan = record(1, 1, 0, 0, 0);
    let bad_kind = record(10, 0, 0, 0, 0);
    let far = record(2, 0, 16, 0, 0);
    assert_eq!(refused(&[], 0), 4);
    assert_eq!(refused(&[far, orphan, bad_kind], 0), 5);
    assert_eq!(refused(&[far, orphan], 0), 6);
    assert_eq!(refused(&[far], 0), 7);
    assert_eq!(refused(&[orphan], 0), 8);
    assert_eq!(refused(&[orphan], 257), 8);
    assert_eq!(refused(&[orphan], 256), 0);
    assert_eq!(refused(&[record(6, 0, 1, 1, 0), orphan], 9), 6);
    assert_eq!(refused(&[record(3, 0, 0, 0, 0)], 9), 6);
    assert_eq!(refused(&[record(3, 0, 1, 0, 0)], 9), 6);
    assert_eq!(
        refused(&[record(7, 0, 0, 2, 1), record(3, 0, 2, 0, 0), orphan], 9),
        6
    );
    for op in [0, 16, 32, 35, 255] {
        assert_eq!(refused(&[record(5, op, 0, 0, 0)], 9), 5);
    }
    for op in [9, 10, 13, 14, 15] {
        assert_eq!(refused(&[record(5, op, 0, 1, 0)], 9), 5);
    }
}

/// A session of a few accepted rules with every kind of term in its table.
fn rich_session() -> (Session, Vec<u8>) {
    let (mut session, mut table) = opened(&free_inputs(), 2_048);
    let choice = |then, other, last: Record| {
        rule(&[
            record(6, 0, 1, 2, 0),
            record(7, 0, 0, 3, 4),
            last,
            then,
            other,
        ])
    };
    let rules = [
        choice(
            record(1, 2, 7, 0, 0),
            record(1, 1, 0, 0, 0),
            record(5, 1, 0, 2, 0),
        ),
        choice(
            record(1, 2, 7, 0, 0),
            record(2, 0, 1, 0, 0),
            record(5, 11, 0, 2, 0),
        ),
        choice(
            record(1, 0, 0, 0, 0),
            record(2, 0, 1, 0, 0),
            record(5, 13, 0, 0, 0),
        ),
        choice(
            record(2, 0, 3, 0, 0),
            record(2, 0, 2, 0, 0),
            record(5, 15, 0, 0, 0),
        ),
        choice(
            record(5, 9, 1, 0, 0),
            record(5, 8, 3, 1, 0),
            record(2, 0, 0, 0, 0),
        ),
        rule(&[record(3, 0, 1, 0, 0), record(2, 0, 0, 0, 0)]),
    ];
    for rule in rules {
        let answer = evaluate(&mut session, &mut table, &rule, 100);
        assert!(matches!(answer, Answer::Out { .. }));
    }
    (session, table)
}

/// The library's test 3 against the plain one; a refusal changes nothing.
fn compare_fit(session: &Session, table: &[u8]) -> bool {
    let whole = fits(session, table);
    let (mut after, mut written) = (*session, table.to_vec());
    let answer = evaluate(&mut after, &mut written, &datum(), 1);
    assert_eq!(answer == Answer::Refused(3), !whole, "{session:?}");
    let outcome = read(session, table, &ZEROS, &result(1, 1, 0, true), 65_536);
    assert_eq!(outcome == Outcome::Refused(3), !whole, "{session:?}");
    if let Answer::Refused(_) = answer {
        assert!(after == *session && written == table);
    }
    whole
}

#[test]
fn damaged_bytes_are_refused_or_still_fit() {
    let (session, table) = rich_session();
    assert!(compare_fit(&session, &table));
    let mut fitting = 0;
    for at in 0..table.len() {
        for flip in [1, 2, 4, 8, 16, 32, 64, 128, 255] {
            let mut damaged = table.clone();
            damaged[at] ^= flip;
            fitting += usize::from(compare_fit(&session, &damaged));
        }
    }
    assert!(fitting > 0);
}

/// A record of any kind whose fields are mostly numbers up to its own.
fn likely_record(dice: &mut Dice, number: u64) -> Record {
    let kind = dice.below(10) as u8;
    let op = match kind {
        5 => dice.pick(&[1, 8, 9, 10, 11, 12, 13, 14, 15, 16, 31, 32, 33, 34, 35, 36]),
        _ => dice.pick(&[0, 0, 0, 0, 0, 0, 0, 1]),
    };
    let mut field = || match dice.below(8) {
        0..=2 => 0,
        3 => dice.pick(&[1, 5, 6, 7, 4_095, 4_096, 65_535]),
        _ => dice.below(number + 1) as u16,
    };
    record(kind, op, field(), field(), field())
}

#[test]
fn stray_records_are_refused_or_still_fit() {
    let (session, table) = rich_session();
    let count = u64::from(session.count);
    let mut dice = Dice(77);
    let mut added = BTreeSet::new();
    for round in 0..20_000 {
        // Half stand in place of a term, half are added after the last.
        let (number, more) = match round % 2 {
            0 => (dice.below(count), 0),
            _ => (count, 1),
        };
        let mut longer = session;
        longer.count += more;
        let mut strayed = table.clone();
        let at = number as usize * 8;
        let stray = likely_record(&mut dice, number);
        strayed[at..at + 8].copy_from_slice(&stray.to_bytes());
        if compare_fit(&longer, &strayed) && more == 1 {
            added.insert(stray.kind);
        }
    }
    // Truth constants would repeat, free inputs stand only in the opening.
    assert_eq!(added, BTreeSet::from([2, 5, 6, 7, 8]));
}

#[test]
fn damaged_sessions_are_refused_or_still_fit() {
    let (session, table) = rich_session();
    for number in (0..=200).chain([999, 1_000, 1_001, 8_192, 65_535]) {
        for change in [
            |s: &mut Session, n| s.count = n,
            |s: &mut Session, n| s.s = n,
            |s: &mut Session, n| s.t = n,
            |s: &mut Session, n| s.accepted = n,
        ] {
            let mut damaged = session;
            change(&mut damaged, number);
            if damaged.accepted < 1_000 {
                compare_fit(&damaged, &table);
            }
        }
    }
    for length in [0, 7, 264, 272, 273, 280, table.len() - 8, table.len() - 1] {
        compare_fit(&session, &table[..length]);
    }
    for input in [FALSE, word(3), FREE_TRUTH, Input { kind: 9, value: 9 }] {
        for place in 0..16 {
            let mut damaged = session;
            damaged.inputs[place] = input;
            compare_fit(&damaged, &table);
        }
    }
}

#[test]
fn accepted_rules_end_at_1000() {
    let (mut session, mut table) = opened(&[FALSE; 16], 272);
    session.accepted = 999;
    let answer = evaluate(&mut session, &mut table, &datum(), 1);
    assert!(matches!(answer, Answer::Out { .. }));
    assert_eq!(session.accepted, 1_000);
    assert_eq!(
        evaluate(&mut session, &mut table, &datum(), 1),
        Answer::Refused(9)
    );
    session.halted = true;
    assert_eq!(
        evaluate(&mut session, &mut table, &datum(), 1),
        Answer::Refused(9)
    );
    assert_eq!(
        evaluate(&mut session, &mut table, &datum(), 0),
        Answer::Refused(8)
    );
    session.accepted = 1_001;
    assert_eq!(
        evaluate(&mut session, &mut table, &[], 0),
        Answer::Refused(3)
    );
}

#[test]
fn halted_sessions_count_but_make_no_term() {
    let (mut session, mut table) = opened(&[FALSE; 16], 272);
    let error = rule(&[record(9, 0, 0, 0, 0)]);
    let halt = Answer::Halt {
        s: 1,
        t: 0,
        depth: 1,
    };
    assert_eq!(evaluate(&mut session, &mut table, &error, 9), halt);
    let before = table.clone();
    let five = rule(&[record(1, 2, 5, 0, 0)]);
    assert_eq!(evaluate(&mut session, &mut table, &five, 9), halt);
    assert_eq!((session.accepted, session.count), (2, 18));
    assert_eq!(table, before);
    assert_eq!(
        evaluate(&mut session, &mut table, &five, 0),
        Answer::Refused(8)
    );
}

#[test]
fn reading_tests_keep_their_order() {
    let (mut session, table) = opened(&free_inputs(), 272);
    let good = result(1, 1, 1, false);
    let reads =
        |session: &Session, numbers, result, work| read(session, &table, numbers, &result, work);
    let bad = result(34, 1, 0, false);
    assert_eq!(reads(&session, &[2; 16], bad, 0), Outcome::Refused(13));
    assert_eq!(reads(&session, &ZEROS, bad, 0), Outcome::Refused(14));
    assert_eq!(reads(&session, &ZEROS, good, 33), Outcome::Refused(15));
    assert_eq!(reads(&session, &ZEROS, good, 34), Outcome::Truth(true));
    // A word is no formula, a binding no value; a halt's value is not looked at.
    for wrong in [result(3, 1, 0, false), result(1, 3, 0, true)] {
        assert_eq!(reads(&session, &ZEROS, wrong, 34), Outcome::Refused(14));
    }
    for value in [33, 34, 65_535] {
        let (out, halt) = (result(1, 1, value, false), result(1, 1, value, true));
        assert_eq!(reads(&session, &ZEROS, out, 34), Outcome::Refused(14));
        assert_eq!(reads(&session, &ZEROS, halt, 34), Outcome::Error);
    }
    let outcome = |s, t, halted| reads(&session, &ZEROS, result(s, t, 1, halted), 34);
    assert_eq!(outcome(0, 1, false), Outcome::Abort);
    assert_eq!(outcome(0, 1, true), Outcome::Abort);
    assert_eq!(outcome(1, 0, false), Outcome::Error);
    assert_eq!(outcome(0, 0, false), Outcome::Error);
    assert_eq!(outcome(0, 0, true), Outcome::Error);
    session.count = 33;
    assert_eq!(reads(&session, &[2; 16], bad, 0), Outcome::Refused(3));
}

#[test]
fn stores_count_whole_places() {
    let rule_of = |records: &[Record]| rule(records);
    let inputs = [word(1); 16];
    let one = rule_of(&[
        record(6, 0, 1, 2, 0),
        record(1, 1, 0, 0, 0),
        record(1, 0, 0, 0, 0),
    ]);
    let ran = |rule: &[u8], allowance, store| run(&inputs, &ZEROS, rule, allowance, store);
    assert_eq!(ran(&datum(), 1, 127), Outcome::Refused(16));
    assert_eq!(ran(&datum(), 1, 128), Outcome::Truth(true));
    assert_eq!(ran(&one, 2, 135), Outcome::Refused(16));
    assert_eq!(ran(&one, 2, 136), Outcome::Truth(false));
    assert_eq!(ran(&one, 1, 135), Outcome::Refused(12));
    assert_eq!(ran(&one, 1, usize::MAX), Outcome::Refused(12));
    // The place is taken before the body's depth is tested.
    let call = rule_of(&[
        record(6, 0, 1, 3, 0),
        record(3, 0, 2, 0, 0),
        record(2, 0, 0, 0, 0),
        record(4, 0, 0, 1, 0),
    ]);
    assert_eq!(ran(&call, 3, 144), Outcome::Word(1));
    assert_eq!(ran(&call, 2, 144), Outcome::Refused(12));
    assert_eq!(ran(&call, 2, 136), Outcome::Refused(16));
    // Calling a word takes no place.
    let wrong = rule_of(&[record(4, 0, 0, 0, 0)]);
    assert_eq!(ran(&wrong, 1, 128), Outcome::Error);
}

/// Procedure 0 puts its argument under one more choice, each later one calls
/// the one before it twice; then the last is applied to input 1.
fn choices_deep(doublings: u16, last: Record) -> Vec<u8> {
    let mut records = vec![
        record(6, 0, 1, 5, 0),
        record(3, 0, 2, 0, 0),
        record(7, 0, 1, 3, 4),
        record(2, 0, 0, 0, 0),
        record(1, 0, 0, 0, 0),
    ];
    for _ in 0..doublings {
        let at = records.len() as u16;
        records.push(record(6, 0, at + 1, at + 5, 0));
        records.push(record(3, 0, at + 2, 0, 0));
        records.push(record(6, 0, at + 3, at + 4, 0));
        records.push(record(4, 0, 1, 0, 0));
        records.push(record(4, 0, 2, 0, 0));
    }
    let at = records.len() as u16;
    records.push(record(6, 0, at + 1, at + 2, 0));
    records.push(record(4, 0, 0, doublings + 2, 0));
    records.push(last);
    rule(&records)
}

#[test]
fn deep_choices_are_walked_on_their_own_stack() {
    let (mut session, mut table) = opened(&[FREE_TRUTH; 16], 65_536);
    let kept = choices_deep(9, record(2, 0, 0, 0, 0));
    let answer = evaluate(&mut session, &mut table, &kept, 256);
    assert!(matches!(answer, Answer::Out { .. }), "{answer:?}");
    let choices = table.chunks(8).filter(|term| term[0] == 6).count();
    assert!(choices >= 512);
    let (mut session, mut table) = opened(&[FREE_TRUTH; 16], 65_536);
    let called = choices_deep(9, record(4, 0, 0, 0, 0));
    let answer = evaluate(&mut session, &mut table, &called, 256);
    assert_eq!(answer, Answer::Refused(10));
}

#[test]
fn self_application_spends_every_depth() {
    // f is "apply my argument to itself", applied to f.
    let forever = rule(&[
        record(6, 0, 1, 3, 0),
        record(3, 0, 2, 0, 0),
        record(4, 0, 0, 0, 0),
        record(4, 0, 0, 0, 0),
    ]);
    let inputs = [FALSE; 16];
    assert_eq!(evaluate_fresh(&inputs, &forever, 256), Answer::Refused(12));
    let ran = |store| run(&inputs, &ZEROS, &forever, 256, store);
    assert_eq!(ran(65_536), Outcome::Refused(12));
    assert_eq!(ran((16 + 1 + 255) * 8), Outcome::Refused(12));
    assert_eq!(ran((16 + 1 + 254) * 8), Outcome::Refused(16));
}

#[test]
fn printing_refuses_cut_inputs_and_lone_rules() {
    assert_eq!(print(&[]), "refused 2\n");
    assert_eq!(print(&[0; INPUTS - 1]), "refused 2\n");
    assert_eq!(print(&[0; INPUTS]), "refused 4\n");
    let mut second_byte = vec![0; INPUTS + 8];
    second_byte[15 * 2 * WORD_BYTES + 1] = 1;
    assert_eq!(print(&second_byte), "refused 2\n");
    assert_eq!(print(&[0; INPUTS + 8]), "refused 5\n");
    let mut long = vec![0; INPUTS];
    long.extend(heap(4_096));
    assert!(print(&long).starts_with("out 1 1 "));
    long.push(0);
    assert_eq!(print(&long), "refused 4\n");
}
