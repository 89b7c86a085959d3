//! Clause texts: sessions of random rules and damaged ones, tables of any terms, results near the terms, every goal, and
//! buffers about the text's length; what a text says of a reading is held against the desk's own reading too.

use crate::any_table::any_table;
use crate::compare::{compare_clauses, compare_fits};
use crate::desk;
use crate::made::{Made, FREE_WORD};
use crate::session_trials::{
    other_results, other_sessions, other_tables, random_sessions, results_near, small_session,
};
use crate::tally::Tally;
use second::cnf::{input_literals, Cnf};
use second::dice::{record, Dice};
use second::{clauses, records, Goal, Record, ResultOf, Session, Word};

pub fn all(tally: &mut Tally) {
    sessions(tally);
    random_tables(tally);
    damaged_tables(tally);
    damaged_sessions(tally);
    damaged_results(tally);
    long_numbers(tally);
}

/// A result with the session and the table to which it belongs, and a goal.
#[derive(Clone, Copy)]
struct Asked<'a> {
    session: &'a Session,
    table: &'a [u8],
    result: &'a ResultOf,
    goal: Goal,
}

impl Asked<'_> {
    fn with(&self, tally: &mut Tally, bytes: usize) -> Vec<u8> {
        let Asked {
            session,
            table,
            result,
            goal,
        } = *self;
        compare_clauses(tally, session, table, result, goal, bytes).buffer
    }

    /// How long the text is; 0 where there is none.
    fn length(&self) -> usize {
        let text = clauses(self.session, self.table, self.result, self.goal, usize::MAX);
        text.map_or(0, |text| text.len())
    }

    /// With a buffer that just holds the text.
    fn compare(&self, tally: &mut Tally) -> Vec<u8> {
        self.with(tally, self.length())
    }

    /// With none, with shorter ones and with a longer one.
    fn other_buffers(&self, tally: &mut Tally, dice: &mut Dice) {
        let right = self.length();
        let short = dice.below(right as u64 + 1) as usize;
        let long = right + 1 + dice.below(100) as usize;
        for bytes in [0, short, right.saturating_sub(1), long] {
            self.with(tally, bytes);
        }
    }

    /// "The text can be satisfied exactly when such a reading exists": with the input variables of a reading given, no clause is
    /// left without a literal exactly where the desk reads what the goal names.
    fn readings(&self, tally: &mut Tally, dice: &mut Dice, text: &[u8]) {
        let Some(cnf) = Cnf::parse(text) else {
            return tally.same("a text of clauses", false, true);
        };
        let Asked { session, table, .. } = self;
        let count = usize::from(session.count);
        let terms: Vec<Record> = records(table).take(count).collect();
        for _ in 0..2 {
            let numbers = dice.numbers(&session.inputs);
            let mut reading = desk::UNREAD;
            let refusal = desk::read(
                &desk::session_bytes(session),
                table,
                &desk::numbers_bytes(&numbers),
                &desk::result_bytes(self.result),
                &mut vec![0; count],
                &mut reading,
            );
            let reached = refusal == 0 && reading == desk::goal_bytes(self.goal);
            let stands = cnf.follow(&input_literals(&terms, &numbers)).is_some();
            tally.saw("goal", u8::from(reached));
            tally.same("a goal that is reached", stands, reached);
        }
    }
}

/// Any goal; a word is often one that is given.
fn goal(dice: &mut Dice, table: &[u8]) -> Goal {
    let words = records(table).filter(|term| term.kind == 2);
    let words: Vec<Word> = words
        .map(|term| desk::word(&term.to_bytes()[2..][..desk::WORD]))
        .collect();
    match dice.below(4) {
        0 => Goal::Errs,
        1 => Goal::Aborts,
        2 if !words.is_empty() => Goal::Gives(dice.pick(&words)),
        _ => Goal::Gives(dice.word()),
    }
}

/// A text of each result, and of others near the terms.
fn sessions(tally: &mut Tally) {
    let mut dice = Dice(0xc1a5);
    let each = |dice: &mut Dice, session: &Session, table: &[u8], result: &ResultOf| {
        for result in &results_near(dice, session, result) {
            let asked = Asked {
                session,
                table,
                result,
                goal: goal(dice, table),
            };
            let text = asked.compare(tally);
            match dice.below(4) {
                0 => asked.other_buffers(tally, dice),
                1 if !text.is_empty() => asked.readings(tally, dice, &text),
                _ => {}
            }
        }
    };
    random_sessions(&mut dice, 600, Dice::inputs, each);
}

/// Tables of any terms: operators on what is no word, and shifts by constants and by what is none.
fn random_tables(tally: &mut Tally) {
    let mut dice = Dice(0xc1a6);
    for _ in 0..250 {
        let terms = dice.pick(&[40, 60, 120]);
        let inputs = dice.inputs();
        let any = any_table(&mut dice, &inputs, terms);
        let refusal = compare_fits(tally, &any.session, &any.table);
        tally.same("a table of any terms", refusal, 0);
        for _ in 0..2 {
            let asked = Asked {
                session: &any.session,
                table: &any.table,
                result: &any.result(&mut dice),
                goal: goal(&mut dice, &any.table),
            };
            let text = asked.compare(tally);
            asked.readings(tally, &mut dice, &text);
        }
    }
}

/// The session's own formulas with a word as the value.
fn small_result(session: &Session) -> ResultOf {
    ResultOf {
        s: session.s,
        t: session.t,
        value: 3,
        halted: session.halted,
    }
}

fn damaged_tables(tally: &mut Tally) {
    let (session, good) = small_session();
    let result = &small_result(&session);
    for table in other_tables(&good) {
        let asked = Asked {
            session: &session,
            table: &table,
            result,
            goal: Goal::Gives(7),
        };
        asked.compare(tally);
    }
}

/// Every field of a session at numbers about its bounds.
fn damaged_sessions(tally: &mut Tally) {
    let (good, table) = small_session();
    let result = &small_result(&good);
    for session in &other_sessions(good) {
        let asked = Asked {
            session,
            table: &table,
            result,
            goal: Goal::Aborts,
        };
        asked.compare(tally);
        // refused by 3 or by 18
        asked.with(tally, 0);
    }
}

fn damaged_results(tally: &mut Tally) {
    let (session, table) = small_session();
    for result in &other_results(&session, small_result(&session)) {
        for goal in [Goal::Errs, Goal::Aborts, Goal::Gives(7)] {
            let asked = Asked {
                session: &session,
                table: &table,
                result,
                goal,
            };
            asked.compare(tally);
        }
    }
}

/// The most terms that there can be, with so many products that the last variables have seven digits.
fn long_numbers(tally: &mut Tally) {
    const TERMS: u16 = 8_192;
    const PRODUCTS: u16 = 1_830;
    let Made {
        mut session,
        mut table,
    } = Made::open(&[FREE_WORD; 16], usize::from(TERMS));
    for (n, number) in (session.count..TERMS).enumerate() {
        let n = n as u16;
        let term = match n < PRODUCTS {
            true => record(5, 3, 2 + n % 16, if n < 16 { 2 } else { number - 16 }, 0),
            false => record(2, 0, n, 0, 0),
        };
        let at = 8 * usize::from(number);
        table[at..at + 8].copy_from_slice(&term.to_bytes());
    }
    session.count = TERMS;
    let result = ResultOf {
        s: 1,
        t: 1,
        value: TERMS - 1,
        halted: false,
    };
    let asked = Asked {
        session: &session,
        table: &table,
        result: &result,
        goal: Goal::Gives(7),
    };
    let text = asked.compare(tally);
    let head = text.starts_with(b"p cnf 1003");
    tally.same("a million variables", head, true);
}
