//! Witnesses: sessions of random rules with few free bits and damaged ones, tables of any terms, results near the terms, every
//! goal, with spans and without, work lists about the count; what is found is held against the desk's own readings too.

use crate::any_table::any_table;
use crate::compare::{compare_fits, compare_witness};
use crate::desk;
use crate::made::{word_input, FALSE, FREE_TRUTH, FREE_WORD, TRUE};
use crate::session_trials::{
    other_results, other_sessions, other_tables, random_sessions, results_near, small_session,
};
use crate::tally::Tally;
use second::dice::Dice;
use second::{read, Goal, Input, Outcome, ResultOf, Session, Spans, Word};

pub fn all(tally: &mut Tally) {
    sessions(tally);
    whole_words(tally);
    random_tables(tally);
    tables_over_a_word(tally);
    damaged_tables(tally);
    damaged_sessions(tally);
    damaged_results(tally);
}

/// A result with the session and the table to which it belongs, a goal, and spans or none.
#[derive(Clone, Copy)]
struct Asked<'a> {
    session: &'a Session,
    table: &'a [u8],
    result: &'a ResultOf,
    goal: Goal,
    given: Option<&'a Spans>,
}

impl<'a> Asked<'a> {
    /// For an error, until it is aimed.
    fn of(
        session: &'a Session,
        table: &'a [u8],
        result: &'a ResultOf,
        given: Option<&'a Spans>,
    ) -> Asked<'a> {
        Asked {
            session,
            table,
            result,
            goal: Goal::Errs,
            given,
        }
    }

    fn count(&self) -> usize {
        usize::from(self.session.count)
    }

    fn with(&self, tally: &mut Tally, work: usize) -> (u8, Option<[Word; 16]>) {
        let Asked {
            session,
            table,
            result,
            goal,
            given,
        } = *self;
        compare_witness(tally, session, table, result, goal, given, work)
    }

    /// With none, with shorter ones and with a longer one.
    fn other_lists(&self, tally: &mut Tally, dice: &mut Dice) {
        let right = self.count();
        let short = dice.below(right as u64 + 1) as usize;
        let long = right + 1 + dice.below(8) as usize;
        for work in [0, short, right.saturating_sub(1), long] {
            self.with(tally, work);
        }
    }

    /// With a work list that is just long enough. "the first such reading": under the numbers that are found the desk reads the
    /// goal, and under none before them; where none are found, under no numbers.
    fn readings(&self, tally: &mut Tally, dice: &mut Dice) -> (u8, Option<[Word; 16]>) {
        let (refusal, found) = self.with(tally, self.count());
        if let Some(numbers) = found {
            tally.same("a witness's reading", self.reaches(&numbers), true);
        }
        for _ in 0..3 {
            let numbers = self.numbers(dice);
            if refusal == 0 && found.is_none_or(|found| numbers < found) {
                let reaches = self.reaches(&numbers);
                tally.same("a reading before the witness", reaches, false);
            }
        }
        (refusal, found)
    }

    /// Those of any reading inside the spans, in which a constant stands as 0.
    fn numbers(&self, dice: &mut Dice) -> [Word; 16] {
        let inputs = &self.session.inputs;
        let turned = |spans: &Spans, at: usize| spans.lows[at] > spans.highs[at];
        let any = match self.given {
            Some(spans) if !(0..16).any(|at| inputs[at].kind == 3 && turned(spans, at)) => {
                dice.numbers_in(inputs, spans)
            }
            _ => dice.numbers(inputs),
        };
        std::array::from_fn(|at| if inputs[at].kind < 2 { 0 } else { any[at] })
    }

    fn reaches(&self, numbers: &[Word; 16]) -> bool {
        let mut reading = desk::UNREAD;
        let refusal = desk::read(
            &desk::session_bytes(self.session),
            self.table,
            &desk::numbers_bytes(numbers),
            &desk::result_bytes(self.result),
            &mut vec![0; self.count()],
            &mut reading,
        );
        (refusal, reading) == (0, desk::goal_bytes(self.goal))
    }

    /// The same with a goal that some reading reaches, or one next to it, or with any.
    fn aimed(&self, dice: &mut Dice) -> Asked<'a> {
        let numbers = self.numbers(dice);
        let outcome = read(
            self.session,
            self.table,
            &numbers,
            self.result,
            self.count(),
        );
        let goal = match (dice.below(5), outcome) {
            (0, _) => Goal::Errs,
            (1, _) => Goal::Aborts,
            (2, Outcome::Word(word)) => Goal::Gives(word.wrapping_add(1)),
            (2, _) => Goal::Gives(dice.word()),
            (_, Outcome::Error) => Goal::Errs,
            (_, Outcome::Abort) => Goal::Aborts,
            (_, Outcome::Word(word)) => Goal::Gives(word),
            (_, Outcome::Truth(truth)) => Goal::Gives(Word::from(truth)),
            (_, Outcome::Procedure(record)) => Goal::Gives(record as Word),
            (_, Outcome::Refused(_)) => Goal::Errs,
        };
        Asked { goal, ..*self }
    }
}

/// Constants, but for some free truths and one free word or none, mostly in the first places, which random rules name most; now
/// and then inputs of any kinds, which have too many bits.
fn few_bits(dice: &mut Dice) -> [Input; 16] {
    if dice.below(12) == 0 {
        return dice.inputs();
    }
    let mut inputs = constants(dice);
    for _ in 0..dice.below(9) {
        inputs[near(dice)] = FREE_TRUTH;
    }
    if dice.below(2) == 0 {
        inputs[near(dice)] = FREE_WORD;
    }
    inputs
}

/// One free word, and constants.
fn a_word(dice: &mut Dice) -> [Input; 16] {
    let mut inputs = constants(dice);
    inputs[dice.below(3) as usize] = FREE_WORD;
    inputs
}

fn constants(dice: &mut Dice) -> [Input; 16] {
    std::array::from_fn(|_| match dice.below(3) {
        0 => FALSE,
        1 => TRUE,
        _ => word_input(dice.word()),
    })
}

fn near(dice: &mut Dice) -> usize {
    let places = [dice.below(4), dice.below(16)];
    dice.pick(&places) as usize
}

/// Spans of which a few are refused, narrow enough for a plain search; none where there are no free words, at times.
fn narrow(dice: &mut Dice, session: &Session) -> Option<Spans> {
    let words = session.inputs.iter().any(|input| input.kind == 3);
    if !words && dice.below(2) == 0 {
        return None;
    }
    let mut spans = dice.any_spans(&session.inputs);
    let widest = dice.pick(&[0, 1, 8, 40]);
    for (low, high) in spans.lows.iter().zip(&mut spans.highs) {
        *high = (*high).min(low.saturating_add(widest));
    }
    Some(spans)
}

/// A witness of each result, and of others near the terms.
fn sessions(tally: &mut Tally) {
    let mut dice = Dice(0x5e7e);
    let (mut found, mut none) = (0, 0);
    let each = |dice: &mut Dice, session: &Session, table: &[u8], result: &ResultOf| {
        for result in &results_near(dice, session, result) {
            let given = narrow(dice, session);
            let asked = Asked::of(session, table, result, given.as_ref()).aimed(dice);
            let (refusal, numbers) = asked.readings(tally, dice);
            if dice.below(4) == 0 {
                asked.other_lists(tally, dice);
            }
            found += u32::from(numbers.is_some());
            none += u32::from(refusal == 0 && numbers.is_none());
        }
    };
    random_sessions(&mut dice, 2_000, few_bits, each);
    let enough = found > 2_000 && none > 2_000;
    tally.same("witnesses that are found, or not", enough, true);
}

/// Sixteen free bits of a word, without spans.
fn whole_words(tally: &mut Tally) {
    let mut dice = Dice(0x5e7f);
    let each = |dice: &mut Dice, session: &Session, table: &[u8], result: &ResultOf| {
        let asked = Asked::of(session, table, result, None).aimed(dice);
        asked.readings(tally, dice);
    };
    random_sessions(&mut dice, 100, a_word, each);
}

/// Tables of any terms: operators on what is no word, and choices that no evaluation leaves.
fn random_tables(tally: &mut Tally) {
    let mut dice = Dice(0x5e80);
    for _ in 0..1_000 {
        let terms = dice.pick(&[40, 60, 120]);
        let inputs = few_bits(&mut dice);
        let any = any_table(&mut dice, &inputs, terms);
        let refusal = compare_fits(tally, &any.session, &any.table);
        tally.same("a table of any terms", refusal, 0);
        for _ in 0..3 {
            let (given, result) = (narrow(&mut dice, &any.session), any.result(&mut dice));
            let asked = Asked::of(&any.session, &any.table, &result, given.as_ref());
            asked.aimed(&mut dice).readings(tally, &mut dice);
        }
    }
}

/// The same over all words: boxes of every size, with whatever terms there can be.
fn tables_over_a_word(tally: &mut Tally) {
    let mut dice = Dice(0x5e81);
    for _ in 0..150 {
        let inputs = a_word(&mut dice);
        let any = any_table(&mut dice, &inputs, 60);
        for _ in 0..2 {
            let result = any.result(&mut dice);
            let asked = Asked::of(&any.session, &any.table, &result, None);
            asked.aimed(&mut dice).readings(tally, &mut dice);
        }
    }
}

/// The session's own formulas with the free word as the value.
fn small_result(session: &Session) -> ResultOf {
    ResultOf {
        s: session.s,
        t: session.t,
        value: 3,
        halted: session.halted,
    }
}

/// Each goal, of which the word is one of four.
fn each_goal(tally: &mut Tally, session: &Session, table: &[u8], result: &ResultOf, work: usize) {
    let given = Spans {
        lows: [5; 16],
        highs: [8; 16],
    };
    for goal in [Goal::Errs, Goal::Aborts, Goal::Gives(7)] {
        let asked = Asked {
            goal,
            ..Asked::of(session, table, result, Some(&given))
        };
        asked.with(tally, work);
    }
}

fn damaged_tables(tally: &mut Tally) {
    let (session, good) = small_session();
    let result = small_result(&session);
    for table in other_tables(&good) {
        each_goal(tally, &session, &table, &result, usize::from(session.count));
    }
}

/// Every field of a session at numbers about its bounds.
fn damaged_sessions(tally: &mut Tally) {
    let (good, table) = small_session();
    let result = small_result(&good);
    for session in &other_sessions(good) {
        each_goal(tally, session, &table, &result, usize::from(session.count));
        // lent for the whole table, as a caller does who knows no count
        each_goal(tally, session, &table, &result, 60);
    }
}

fn damaged_results(tally: &mut Tally) {
    let (session, table) = small_session();
    for result in &other_results(&session, small_result(&session)) {
        each_goal(tally, &session, &table, result, usize::from(session.count));
    }
}
