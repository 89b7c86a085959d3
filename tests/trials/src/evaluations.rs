//! Evaluations: the desk and the second evaluator go through the same sessions side by side.

use crate::choices::{called_asserted, chain, halves, procedures};
use crate::compare::compare_fits;
use crate::desk;
use crate::made::{FALSE, FREE_TRUTH};
use crate::rules::{guarded_update, self_application};
use crate::session_trials::readings;
use crate::tally::Tally;
use second::dice::{record, rule, Dice};
use second::{evaluate, open, result_of, Answer, Input, Session};

/// One session, kept by both.
pub struct Pair {
    form: Vec<u8>,
    ours: Vec<u8>,
    pub session: Session,
    pub theirs: Vec<u8>,
}

impl Pair {
    /// Nothing where the opening is refused.
    pub fn open(inputs: &[Input; 16], bytes: usize) -> Option<Pair> {
        let mut table = vec![0; bytes];
        let session = open(inputs, &mut table).ok()?;
        Some(Pair::of(session, table))
    }

    pub fn of(session: Session, table: Vec<u8>) -> Pair {
        Pair {
            form: desk::session_bytes(&session),
            ours: table.clone(),
            session,
            theirs: table,
        }
    }

    /// The second evaluator's answer.
    pub fn evaluate(&mut self, tally: &mut Tally, bytes: &[u8], allowance: u16) -> Answer {
        self.both(tally, bytes, allowance).1
    }

    /// The desk's refusal or 0.
    pub fn refusal(&mut self, tally: &mut Tally, bytes: &[u8], allowance: u16) -> u8 {
        self.both(tally, bytes, allowance).0
    }

    /// The answer, the session and every byte of the table are the same afterwards.
    fn both(&mut self, tally: &mut Tally, bytes: &[u8], allowance: u16) -> (u8, Answer) {
        let mut given = desk::UNANSWERED;
        let refusal = desk::evaluate(&mut self.form, &mut self.ours, bytes, allowance, &mut given);
        let answer = evaluate(&mut self.session, &mut self.theirs, bytes, allowance);
        let (expected, wanted) = desk::answer_bytes(answer);
        tally.saw("evaluate", expected);
        tally.same("evaluate", (refusal, given), (expected, wanted));
        let form = desk::session_bytes(&self.session);
        tally.same_list("evaluate's session", &self.form, &form);
        tally.same_list("evaluate's table", &self.ours, &self.theirs);
        (refusal, answer)
    }
}

pub fn all(tally: &mut Tally) {
    self_applied(tally);
    datum_and_let(tally);
    leaves(tally);
    damaged_bytes(tally);
    random_sessions(tally);
    reads_as_runs(tally);
    guarded_updates(tally);
    thousand_rules(tally);
}

/// P10 and its neighbours: "apply my argument to itself", applied to itself, at every allowance.
fn self_applied(tally: &mut Tally) {
    let bytes = self_application();
    for allowance in 0..=258 {
        let mut pair = Pair::open(&[FALSE; 16], 65_536).expect("a good opening");
        let answer = pair.evaluate(tally, &bytes, allowance);
        let refusal = if (1..=256).contains(&allowance) {
            12
        } else {
            8
        };
        tally.same("self application", answer, Answer::Refused(refusal));
    }
}

/// P6 and P7: a datum needs an allowance of 1, a let of data one of 2.
fn datum_and_let(tally: &mut Tally) {
    let datum = record(1, 1, 0, 0, 0);
    let bound = [record(6, 0, 1, 2, 0), datum, datum];
    for allowance in 0..=4 {
        let mut pair = Pair::open(&[FALSE; 16], 272).expect("a good opening");
        pair.evaluate(tally, &rule(&[datum]), allowance);
        pair.evaluate(tally, &rule(&bound), allowance);
    }
}

/// Calls of up to 66 targets, in tables that fill at every place of the choice, the walk, the bindings and the merge.
fn leaves(tally: &mut Tally) {
    let open = |records: usize| Pair::open(&[FREE_TRUTH; 16], 8 * records).expect("a good opening");
    for targets in (1..=8).chain([32, 63, 64, 65, 66]) {
        let leaves = procedures(targets);
        for chosen in [halves(&leaves), chain(leaves)] {
            let rule = called_asserted(chosen);
            for records in 34.. {
                if open(records).evaluate(tally, &rule, 256) != Answer::Refused(11) {
                    break;
                }
            }
            for allowance in 1..=20 {
                open(8_192).evaluate(tally, &rule, allowance);
            }
        }
    }
}

/// A byte of the session, the table or the rule changed before the evaluation.
fn damaged_bytes(tally: &mut Tally) {
    let mut dice = Dice(0xbad);
    for _ in 0..6_000 {
        let inputs = dice.inputs();
        let mut pair = Pair::open(&inputs, 512).expect("a good opening");
        let mut bytes = dice.rule(6);
        pair.evaluate(tally, &bytes, 20);
        let other = dice.pick(&[0, 1, 2, 3, 5, 8, 17, 34, 255]);
        match dice.below(3) {
            0 => {
                let at = dice.below(bytes.len() as u64) as usize;
                bytes[at] = other;
            }
            1 => {
                let at = dice.below(512) as usize;
                pair.theirs[at] = other;
                pair.ours[at] = other;
            }
            _ => {
                let session = &mut pair.session;
                let number = dice.below(u64::from(session.count) + 2) as u16;
                match dice.below(5) {
                    0 => session.count = number,
                    1 => session.s = number,
                    2 => session.t = number,
                    3 => session.accepted = dice.pick(&[0, 1, 999, 1_000, 1_001]),
                    _ => session.halted = !session.halted,
                }
                pair.form = desk::session_bytes(&pair.session);
            }
        }
        pair.evaluate(tally, &bytes, 20);
    }
}

/// Sessions of a few rules, refused ones between them, each result read under many numbers.
fn random_sessions(tally: &mut Tally) {
    let mut dice = Dice(0x2ea1);
    for _ in 0..20_000 {
        let inputs = dice.inputs();
        let size = dice.pick(&[272, 304, 512, 1_024, 4_096, 16_384]);
        let mut pair = Pair::open(&inputs, size).expect("a good opening");
        for _ in 0..4 {
            let size = dice.below(40) + 1;
            let mut bytes = dice.rule(size);
            if dice.below(8) == 0 {
                let at = dice.below(bytes.len() as u64) as usize;
                bytes[at] = dice.below(20) as u8;
            }
            let allowance = dice.pick(&[0, 1, 2, 3, 5, 8, 24, 24, 24, 100, 256, 257]);
            let answer = pair.evaluate(tally, &bytes, allowance);
            compare_fits(tally, &pair.session, &pair.theirs);
            if let Some(result) = result_of(answer) {
                readings(tally, &mut dice, &pair.session, &pair.theirs, &result);
            }
        }
    }
}

/// The desk's reading of the last result, taken from the answer as it stands, is what its plain runs of the accepted
/// rules in turn give.
fn reads_as_runs(tally: &mut Tally) {
    let mut dice = Dice(0x5a3e);
    for _ in 0..4_000 {
        let inputs = dice.inputs();
        let mut pair = Pair::open(&inputs, 4_096).expect("a good opening");
        let mut accepted = Vec::new();
        for _ in 0..3 {
            let size = dice.below(24) + 1;
            let bytes = dice.rule(size);
            let answer = pair.evaluate(tally, &bytes, 24);
            let (0, form) = desk::answer_bytes(answer) else {
                continue;
            };
            accepted.push((bytes, u16::from_le_bytes([form[8], form[9]])));
            for _ in 0..4 {
                let numbers = desk::numbers_bytes(&dice.numbers(&inputs));
                let (mut work, mut reading) = (vec![0; 512], desk::UNREAD);
                desk::read(
                    &pair.form,
                    &pair.ours,
                    &numbers,
                    &form[..8],
                    &mut work,
                    &mut reading,
                );
                let ran = ran_in_turn(&desk::inputs_bytes(&inputs), &numbers, &accepted);
                tally.same("a reading and a run", reading, ran);
            }
        }
    }
}

/// The last rule's reading, or the first abort or error.
fn ran_in_turn(inputs: &[u8], numbers: &[u8], rules: &[(Vec<u8>, u16)]) -> [u8; desk::READING] {
    let mut reading = desk::UNREAD;
    for (bytes, depth) in rules {
        let mut store = vec![0; 65_536];
        desk::run(inputs, numbers, bytes, *depth, &mut store, &mut reading);
        if reading[0] >= 8 {
            break;
        }
    }
    reading
}

/// Guarded updates, rule after rule, until the table of 8,192 terms is full.
fn guarded_updates(tally: &mut Tally) {
    let mut inputs = [FALSE; 16];
    inputs[0].kind = 2;
    inputs[1].kind = 3;
    let mut pair = Pair::open(&inputs, 65_536).expect("a good opening");
    for k in 3.. {
        if matches!(
            pair.evaluate(tally, &guarded_update(k), 9),
            Answer::Refused(_)
        ) {
            break;
        }
    }
    tally.same("a full table", pair.session.count > 8_000, true);
}

/// A thousand rules are accepted in a session, and no more.
fn thousand_rules(tally: &mut Tally) {
    let mut pair = Pair::open(&[FALSE; 16], 272).expect("a good opening");
    let bytes = rule(&[record(1, 1, 0, 0, 0)]);
    for _ in 0..1_000 {
        pair.evaluate(tally, &bytes, 1);
    }
    let answer = pair.evaluate(tally, &bytes, 1);
    tally.same("rule 1,001", answer, Answer::Refused(9));
}
