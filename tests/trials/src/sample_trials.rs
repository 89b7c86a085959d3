//! Many samples in one call: sessions of random rules and damaged ones, tables of any terms, results near the terms, lists
//! about the right lengths; every sample's answer is held against the desk's own single reading too.

use crate::any_table::any_table;
use crate::compare::{compare_fits, compare_samples};
use crate::desk::{self, Place, SAMPLE};
use crate::session_trials::{
    other_results, other_sessions, other_tables, random_sessions, results_near, small_session,
};
use crate::tally::Tally;
use second::dice::Dice;
use second::{evaluate, open, result_of, ResultOf, Session, Word};

pub fn all(tally: &mut Tally) {
    sessions(tally);
    random_tables(tally);
    damaged_tables(tally);
    damaged_sessions(tally);
    damaged_results(tally);
    hundreds(tally);
}

/// A result with the session and the table on which it is read.
#[derive(Clone, Copy)]
struct Read<'a> {
    session: &'a Session,
    table: &'a [u8],
    result: &'a ResultOf,
}

impl Read<'_> {
    fn count(&self) -> usize {
        usize::from(self.session.count)
    }

    /// With lists of the right lengths.
    fn compare(&self, tally: &mut Tally, numbers: &[Word]) {
        let (work, answers) = (self.count(), numbers.len() / SAMPLE);
        let (refusal, list) = self.with(tally, numbers, work, answers);
        if refusal == 0 {
            self.singles(tally, numbers, &list);
        }
    }

    fn with(
        &self,
        tally: &mut Tally,
        numbers: &[Word],
        work: usize,
        answers: usize,
    ) -> (u8, Vec<Place>) {
        let Read {
            session,
            table,
            result,
        } = *self;
        compare_samples(tally, session, table, result, numbers, work, answers)
    }

    /// "the answers hold just what single readings would give, a refusal by 13 included"
    fn singles(&self, tally: &mut Tally, numbers: &[Word], answers: &[Place]) {
        let form = desk::session_bytes(self.session);
        let result = desk::result_bytes(self.result);
        let mut work = vec![0; self.count()];
        let mut single = |sample: &[Word; SAMPLE]| {
            let mut reading = desk::UNREAD;
            let numbers = desk::numbers_bytes(sample);
            match desk::read(
                &form,
                self.table,
                &numbers,
                &result,
                &mut work,
                &mut reading,
            ) {
                0 => desk::reading_answer(&reading),
                refusal => Place::from(refusal),
            }
        };
        let readings: Vec<Place> = numbers.as_chunks().0.iter().map(&mut single).collect();
        tally.same_list("single readings", answers, &readings);
    }
}

/// No samples, one, or some.
fn some_samples(dice: &mut Dice, session: &Session) -> Vec<Word> {
    let count = dice.pick(&[0, 1, 2, 3, 5, 17]);
    dice.any_samples(&session.inputs, count)
}

/// Each result read under some samples, and others near the terms.
fn sessions(tally: &mut Tally) {
    let mut dice = Dice(0xba1e);
    let each = |dice: &mut Dice, session: &Session, table: &[u8], result: &ResultOf| {
        for result in &results_near(dice, session, result) {
            let read = Read {
                session,
                table,
                result,
            };
            let numbers = some_samples(dice, session);
            read.compare(tally, &numbers);
            if dice.below(3) == 0 {
                lists(tally, dice, &read, &numbers);
            }
        }
    };
    random_sessions(&mut dice, 2_500, Dice::inputs, each);
}

/// Tables of any terms: what S, T and the value stand on is any part of them.
fn random_tables(tally: &mut Tally) {
    let mut dice = Dice(0xba4e);
    for _ in 0..2_000 {
        let terms = dice.pick(&[40, 60, 120, 300]);
        let inputs = dice.inputs();
        let any = any_table(&mut dice, &inputs, terms);
        let refusal = compare_fits(tally, &any.session, &any.table);
        tally.same("a table of any terms", refusal, 0);
        for _ in 0..6 {
            let read = Read {
                session: &any.session,
                table: &any.table,
                result: &any.result(&mut dice),
            };
            read.compare(tally, &some_samples(&mut dice, &any.session));
        }
    }
}

/// Lists that are shorter or longer than they are to be, each by itself and all at once.
fn lists(tally: &mut Tally, dice: &mut Dice, read: &Read, numbers: &[Word]) {
    let (work, answers) = (read.count(), numbers.len() / SAMPLE);
    let short = dice.below(work as u64 + 1) as usize;
    let long = work + 1 + dice.below(8) as usize;
    for work in [short, work.saturating_sub(1), long] {
        read.with(tally, numbers, work, answers);
    }
    let cut = dice.below(numbers.len() as u64 + 1) as usize;
    for numbers in [&numbers[..cut], &numbers[numbers.len().min(1)..]] {
        read.with(tally, numbers, work, answers);
        read.with(tally, numbers, work, numbers.len() / SAMPLE);
        read.with(tally, numbers, work, numbers.len().div_ceil(SAMPLE));
    }
    let other = dice.below(answers as u64 + 3) as usize;
    for answers in [other, answers.saturating_sub(1), answers + 1, numbers.len()] {
        read.with(tally, numbers, work, answers);
    }
    read.with(tally, &numbers[..cut], short, other);
}

/// The session's own formulas with a value that reads otherwise under each sample.
fn small_result(session: &Session) -> ResultOf {
    ResultOf {
        s: session.s,
        t: session.t,
        value: 2,
        halted: session.halted,
    }
}

/// Input 0 of a small session is a free truth: true in the first sample, refused in the second, false in the third.
fn small_samples() -> [Word; 3 * SAMPLE] {
    let mut numbers = [1; 3 * SAMPLE];
    (numbers[SAMPLE], numbers[2 * SAMPLE]) = (2, 0);
    numbers
}

fn damaged_tables(tally: &mut Tally) {
    let (session, good) = small_session();
    let result = &small_result(&session);
    for table in other_tables(&good) {
        let read = Read {
            session: &session,
            table: &table,
            result,
        };
        read.compare(tally, &small_samples());
    }
}

/// Every field of a session at numbers about its bounds.
fn damaged_sessions(tally: &mut Tally) {
    let (good, table) = small_session();
    let result = &small_result(&good);
    for session in &other_sessions(good) {
        let read = Read {
            session,
            table: &table,
            result,
        };
        read.compare(tally, &small_samples());
        // lent for the whole table, as a caller does who knows no count
        read.with(tally, &small_samples(), 60, 3);
    }
}

fn damaged_results(tally: &mut Tally) {
    let (session, table) = small_session();
    for result in &other_results(&session, small_result(&session)) {
        let read = Read {
            session: &session,
            table: &table,
            result,
        };
        read.compare(tally, &small_samples());
    }
}

/// "some hundreds of bales", on the sessions of random rules
fn hundreds(tally: &mut Tally) {
    let mut dice = Dice(0xba3e);
    for count in [100, 255, 256, 257, 500, 999, 1_000, 4_096] {
        for _ in 0..10 {
            let inputs = dice.inputs();
            let mut table = vec![0; 16_384];
            let mut session = open(&inputs, &mut table).expect("a good opening");
            let answer = evaluate(&mut session, &mut table, &dice.rule(60), 60);
            let Some(result) = result_of(answer) else {
                continue;
            };
            let read = Read {
                session: &session,
                table: &table,
                result: &result,
            };
            read.compare(tally, &dice.any_samples(&inputs, count));
        }
    }
}
