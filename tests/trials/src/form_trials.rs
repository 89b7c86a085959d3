//! Byte forms of wrong lengths, or with a mark or a zero that is another number: each is refused by its number, in the
//! operation's order of tests.

use crate::desk::{self, Place, HALTED, INPUT, NUMBERS, READING, SAMPLE};
use crate::desk::{UNANSWERED, UNFOUND, UNREAD, UNTOLD, WORD};
use crate::session_trials::small_session;
use crate::tally::Tally;
use second::dice::{record, rule};
use second::{clauses, Goal, ResultOf, Word};

/// How many samples are lent, and a list of reports that is long enough.
const SAMPLES: usize = 3;
const REPORTS: usize = 180;
/// What is to be reached, and that which no form names.
const GOAL: Goal = Goal::Gives(7);
const NO_GOAL: [u8; READING] = [0; READING];

const WRONG_LENGTH: u8 = 255;

pub fn all(tally: &mut Tally) {
    let good = Lent::good();
    for (what, call) in CALLS {
        answers(tally, what, call(&good), 0);
    }
    lengths(tally, &good, &good);
    lengths(tally, &good, &good.spoiled());
    inputs_lengths(tally, &good);
    spans_lengths(tally, &good);
    for other in 1..=255 {
        zeros(tally, &good, other);
        marks(tally, &good, other);
    }
    session_bytes(tally, &good);
    goals(tally, &good);
    orders(tally, &good);
    witness_orders(tally, &good);
}

/// Everything that the exports are lent.
#[derive(Clone, PartialEq)]
struct Lent {
    inputs: Vec<u8>,
    numbers: Vec<u8>,
    session: Vec<u8>,
    table: Vec<u8>,
    rule: Vec<u8>,
    answer: Vec<u8>,
    result: Vec<u8>,
    work: Vec<Place>,
    store: Vec<u8>,
    reading: Vec<u8>,
    lows: Vec<u8>,
    highs: Vec<u8>,
    reports: Vec<u32>,
    samples: Vec<Word>,
    sample_answers: Vec<Place>,
    goal: Vec<u8>,
    text: Vec<u8>,
    length: Vec<u64>,
    witness: Vec<u8>,
}

/// The number that an export answers, and whether a refused call left what it was lent as it was, but for a work list and
/// a store of zeros.
type Told = (u8, bool);
type Call = fn(&Lent) -> Told;

fn answers(tally: &mut Tally, what: &str, told: Told, number: u8) {
    tally.same(what, told, (number, true));
}

const CALLS: [(&str, Call); 9] = [
    ("open", Lent::open),
    ("fits", Lent::fits),
    ("evaluate", Lent::evaluate),
    ("read", Lent::read),
    ("read_all", Lent::read_all),
    ("run", Lent::run),
    ("spans", Lent::spans),
    ("clauses", Lent::clauses),
    ("witness", Lent::witness),
];

impl Lent {
    fn good() -> Lent {
        let (session, table) = small_session();
        let result = ResultOf {
            s: 1,
            t: 1,
            value: 0,
            halted: false,
        };
        let text = clauses(&session, &table, &result, GOAL, usize::MAX);
        Lent {
            inputs: desk::inputs_bytes(&session.inputs),
            numbers: desk::numbers_bytes(&[0; 16]),
            session: desk::session_bytes(&session),
            table,
            rule: rule(&[record(1, 1, 0, 0, 0)]),
            answer: UNANSWERED.to_vec(),
            result: desk::result_bytes(&result),
            work: vec![9; 60],
            store: vec![9; 200],
            reading: UNREAD.to_vec(),
            lows: desk::numbers_bytes(&[7; 16]),
            highs: desk::numbers_bytes(&[7; 16]),
            reports: desk::unreported(REPORTS),
            samples: vec![0; SAMPLES * SAMPLE],
            sample_answers: desk::unread_samples(SAMPLES),
            goal: desk::goal_bytes(GOAL).to_vec(),
            text: desk::unwritten(text.expect("a text").len()),
            length: vec![UNTOLD],
            witness: UNFOUND.to_vec(),
        }
    }

    /// The same, but for a change.
    fn but(&self, change: impl FnOnce(&mut Lent)) -> Lent {
        let mut lent = self.clone();
        change(&mut lent);
        lent
    }

    /// What every test refuses, of the right lengths.
    fn spoiled(&self) -> Lent {
        self.but(|lent| {
            lent.inputs[1] = 1;
            lent.numbers[0] = 2;
            lent.session[HALTED] = 2;
            lent.table.pop();
            lent.rule.clear();
            lent.result[6] = 2;
            lent.work.clear();
            lent.store.clear();
            // input 1 is the free word
            lent.lows[WORD] = 8;
            lent.reports.clear();
            lent.samples[0] = 2;
            lent.samples.pop();
            lent.sample_answers.pop();
            lent.text.pop();
        })
    }

    fn call(&self, call: impl FnOnce(&mut Lent) -> u8) -> Told {
        let mut lent = self.clone();
        let number = call(&mut lent);
        (number, number == 0 || lent == *self)
    }

    fn open(&self) -> Told {
        self.call(|lent| desk::open(&lent.inputs, &mut lent.table, &mut lent.session))
    }

    fn fits(&self) -> Told {
        (desk::fits(&self.session, &self.table), true)
    }

    fn evaluate(&self) -> Told {
        self.call(|lent| {
            desk::evaluate(
                &mut lent.session,
                &mut lent.table,
                &lent.rule,
                1,
                &mut lent.answer,
            )
        })
    }

    fn read(&self) -> Told {
        self.call(|lent| {
            let number = desk::read(
                &lent.session,
                &lent.table,
                &lent.numbers,
                &lent.result,
                &mut lent.work,
                &mut lent.reading,
            );
            assert!(lent.work.iter().all(|&n| n == 0));
            lent.work.clone_from(&self.work);
            number
        })
    }

    fn read_all(&self) -> Told {
        self.call(|lent| {
            let number = desk::read_all(
                &lent.session,
                &lent.table,
                &lent.result,
                &lent.samples,
                &mut lent.work,
                &mut lent.sample_answers,
            );
            assert!(lent.work.iter().all(|&n| n == 0));
            lent.work.clone_from(&self.work);
            number
        })
    }

    fn run(&self) -> Told {
        self.call(|lent| {
            let number = desk::run(
                &lent.inputs,
                &lent.numbers,
                &lent.rule,
                1,
                &mut lent.store,
                &mut lent.reading,
            );
            assert!(lent.store.iter().all(|&byte| byte == 0));
            lent.store.clone_from(&self.store);
            number
        })
    }

    fn spans(&self) -> Told {
        self.call(|lent| {
            desk::spans(
                &lent.session,
                &lent.table,
                &lent.lows,
                &lent.highs,
                &mut lent.reports,
            )
        })
    }

    fn clauses(&self) -> Told {
        self.call(|lent| {
            let number = desk::clauses(
                &lent.session,
                &lent.table,
                &lent.result,
                &lent.goal,
                &mut lent.text,
                &mut lent.length,
            );
            // a text that is too long tells how long it is
            if number == 18 {
                assert!(lent.length[0] > lent.text.len() as u64 && lent.length[0] != UNTOLD);
                lent.length.clone_from(&self.length);
            }
            number
        })
    }

    fn witness(&self) -> Told {
        self.call(|lent| {
            let number = desk::witness(
                &lent.session,
                &lent.table,
                &lent.result,
                &lent.goal,
                &lent.lows,
                &lent.highs,
                &mut lent.work,
                &mut lent.witness,
            );
            assert!(lent.work.iter().all(|&n| n == 0));
            lent.work.clone_from(&self.work);
            number
        })
    }
}

/// Every length from 0 to 99 but one.
fn other_lengths(right: usize) -> impl Iterator<Item = usize> {
    (0..100).filter(move |&length| length != right)
}

/// A place of a fixed length, by 255, before anything else that could be refused.
fn lengths(tally: &mut Tally, good: &Lent, lent: &Lent) {
    let wrong = |tally: &mut Tally, what, other: Lent, calls: &[Call]| {
        for call in calls {
            answers(tally, what, call(&other), WRONG_LENGTH);
        }
    };
    for length in other_lengths(good.session.len()) {
        let other = lent.but(|lent| lent.session.resize(length, 0));
        let calls: [Call; 8] = [
            Lent::open,
            Lent::fits,
            Lent::evaluate,
            Lent::read,
            Lent::read_all,
            Lent::spans,
            Lent::clauses,
            Lent::witness,
        ];
        wrong(tally, "session's length", other, &calls);
    }
    for length in other_lengths(good.answer.len()) {
        let other = lent.but(|lent| lent.answer.resize(length, 0xa5));
        wrong(tally, "answer's length", other, &[Lent::evaluate]);
    }
    for length in other_lengths(good.numbers.len()) {
        let other = lent.but(|lent| lent.numbers.resize(length, 0));
        wrong(tally, "numbers' length", other, &[Lent::read, Lent::run]);
    }
    for length in other_lengths(good.result.len()) {
        let other = lent.but(|lent| lent.result.resize(length, 0));
        let calls: [Call; 4] = [Lent::read, Lent::read_all, Lent::clauses, Lent::witness];
        wrong(tally, "result's length", other, &calls);
    }
    for length in other_lengths(good.reading.len()) {
        let other = lent.but(|lent| lent.reading.resize(length, 0xa5));
        wrong(tally, "reading's length", other, &[Lent::read, Lent::run]);
    }
    for length in other_lengths(good.lows.len()) {
        let other = lent.but(|lent| lent.lows.resize(length, 0));
        wrong(tally, "lows' length", other, &[Lent::spans, Lent::witness]);
        let other = lent.but(|lent| lent.highs.resize(length, 0));
        wrong(tally, "highs' length", other, &[Lent::spans, Lent::witness]);
    }
    for length in other_lengths(good.goal.len()) {
        let other = lent.but(|lent| lent.goal.resize(length, 0));
        wrong(
            tally,
            "goal's length",
            other,
            &[Lent::clauses, Lent::witness],
        );
    }
    for length in other_lengths(good.length.len()) {
        let other = lent.but(|lent| lent.length.resize(length, UNTOLD));
        wrong(tally, "length's length", other, &[Lent::clauses]);
    }
    for length in other_lengths(good.witness.len()) {
        let other = lent.but(|lent| lent.witness.resize(length, 0xa5));
        wrong(tally, "witness's length", other, &[Lent::witness]);
    }
}

/// "An input record cut short": 2, in its turn.
fn inputs_lengths(tally: &mut Tally, good: &Lent) {
    for length in other_lengths(good.inputs.len()) {
        let other = good.but(|lent| lent.inputs.resize(length, 0));
        answers(tally, "inputs' length", other.open(), 2);
        answers(tally, "inputs' length", other.run(), 2);
    }
}

/// Of a witness no lows and no highs are no spans; both of another length than theirs, or only one of them empty, are none that
/// are taken.
fn spans_lengths(tally: &mut Tally, good: &Lent) {
    let spoiled = good.spoiled();
    for length in 0..100 {
        for (lows, highs) in [
            (length, length),
            (0, length),
            (length, 0),
            (NUMBERS, length),
        ] {
            let other = |lent: &Lent| {
                lent.but(|lent| {
                    lent.lows.resize(lows, 0);
                    lent.highs.resize(highs, 0);
                })
            };
            let spans = lows == highs && [0, NUMBERS].contains(&lows);
            let number = |taken| if spans { taken } else { WRONG_LENGTH };
            answers(tally, "spans' lengths", other(good).witness(), number(0));
            let first = other(&spoiled).witness();
            answers(tally, "spans' lengths first", first, number(3));
        }
    }
}

fn zeros(tally: &mut Tally, good: &Lent, other: u8) {
    for at in (0..16).flat_map(|i| (1..WORD).map(move |zero| INPUT * i + zero)) {
        let inputs = good.but(|lent| lent.inputs[at] = other);
        answers(tally, "an input's zero", inputs.open(), 2);
        answers(tally, "an input's zero", inputs.run(), 2);
        let session = good.but(|lent| lent.session[at] = other);
        misfit(tally, "an input's zero", &session);
    }
    let session = good.but(|lent| lent.session[HALTED + 1] = other);
    misfit(tally, "session's zero", &session);
    let result = good.but(|lent| lent.result[7] = other);
    answers(tally, "result's zero", result.read(), 14);
    answers(tally, "result's zero", result.read_all(), 14);
    answers(tally, "result's zero", result.clauses(), 14);
    answers(tally, "result's zero", result.witness(), 14);
}

fn marks(tally: &mut Tally, good: &Lent, other: u8) {
    let session = good.but(|lent| lent.session[HALTED] = other);
    let result = good.but(|lent| lent.result[6] = other);
    if other == 1 {
        answers(tally, "session's mark", session.fits(), 0);
        answers(tally, "result's mark", result.read(), 0);
        answers(tally, "result's mark", result.read_all(), 0);
        answers(tally, "result's mark", result.clauses(), 0);
        answers(tally, "result's mark", result.witness(), 0);
    } else {
        misfit(tally, "session's mark", &session);
        answers(tally, "result's mark", result.read(), 14);
        answers(tally, "result's mark", result.read_all(), 14);
        answers(tally, "result's mark", result.clauses(), 14);
        answers(tally, "result's mark", result.witness(), 14);
    }
}

fn misfit(tally: &mut Tally, what: &str, session: &Lent) {
    answers(tally, what, session.fits(), 3);
    answers(tally, what, session.evaluate(), 3);
    answers(tally, what, session.read(), 3);
    answers(tally, what, session.read_all(), 3);
    answers(tally, what, session.spans(), 3);
    answers(tally, what, session.clauses(), 3);
    answers(tally, what, session.witness(), 3);
}

/// Every other value of every byte of a session: reports, readings of samples, texts and witnesses are refused where test 3
/// refuses it.
fn session_bytes(tally: &mut Tally, good: &Lent) {
    for at in 0..good.session.len() {
        for other in 0..=255 {
            let lent = good.but(|lent| lent.session[at] = other);
            answers(tally, "a session's byte", lent.spans(), lent.fits().0);
            answers(tally, "a session's byte", lent.read_all(), lent.fits().0);
            answers(tally, "a session's byte", lent.witness(), lent.fits().0);
            // a text takes longer, and a session that fits has one
            let none = lent.but(|lent| lent.text.clear());
            let expected = if lent.fits().0 == 0 { 18 } else { 3 };
            answers(tally, "a session's byte", none.clauses(), expected);
        }
    }
}

/// A goal of none of the three forms, by 255, before anything else that could be refused: every kind, with each byte after it
/// zero or not.
fn goals(tally: &mut Tally, good: &Lent) {
    let spoiled = good.spoiled();
    for kind in 0..=255 {
        for at in 0..READING {
            let mut goal = vec![0; READING];
            goal[at] = 1;
            goal[0] = kind;
            let word = kind == 2 && goal[1..WORD].iter().all(|&byte| byte == 0);
            let stop = matches!(kind, 8 | 9) && goal[1..].iter().all(|&byte| byte == 0);
            let form = |taken| if word || stop { taken } else { WRONG_LENGTH };
            let lent = good.but(|lent| {
                lent.goal.clone_from(&goal);
                lent.text.clear();
            });
            answers(tally, "a goal", lent.clauses(), form(18));
            answers(tally, "a goal", lent.witness(), form(0));
            let lent = spoiled.but(|lent| lent.goal = goal);
            answers(tally, "a goal first", lent.clauses(), form(3));
            answers(tally, "a goal first", lent.witness(), form(3));
        }
    }
}

/// What stands in a form is refused in the operation's order of tests.
fn orders(tally: &mut Tally, good: &Lent) {
    let all = good.spoiled();
    answers(tally, "open: 1 first", all.open(), 1);
    let sized = all.but(|lent| lent.table.clone_from(&good.table));
    answers(tally, "open: then 2", sized.open(), 2);

    answers(tally, "evaluate: 3 first", all.evaluate(), 3);
    let fitting = sized.but(|lent| lent.session.clone_from(&good.session));
    answers(tally, "evaluate: then 4", fitting.evaluate(), 4);

    answers(tally, "read: 3 first", all.read(), 3);
    let unfitting = fitting.but(|lent| lent.table[0] = 9);
    answers(tally, "read: 3 of the table", unfitting.read(), 3);
    answers(tally, "read: then 13", fitting.read(), 13);
    let numbered = fitting.but(|lent| lent.numbers.clone_from(&good.numbers));
    answers(tally, "read: then 14", numbered.read(), 14);
    let formed = numbered.but(|lent| lent.result.clone_from(&good.result));
    answers(tally, "read: then 15", formed.read(), 15);

    answers(tally, "read_all: 3 first", all.read_all(), 3);
    answers(tally, "read_all: 3 of the table", unfitting.read_all(), 3);
    answers(tally, "read_all: then 14", fitting.read_all(), 14);
    sample_lists(tally, good, &formed);

    answers(tally, "run: 2 first", all.run(), 2);
    let taken = all.but(|lent| lent.inputs.clone_from(&good.inputs));
    answers(tally, "run: then 13", taken.run(), 13);
    let numbered = taken.but(|lent| lent.numbers.clone_from(&good.numbers));
    answers(tally, "run: then 4", numbered.run(), 4);
    let ruled = numbered.but(|lent| lent.rule.clone_from(&good.rule));
    answers(tally, "run: then 16", ruled.run(), 16);

    answers(tally, "spans: 3 first", all.spans(), 3);
    answers(tally, "spans: 3 of the table", unfitting.spans(), 3);
    answers(tally, "spans: then 17", fitting.spans(), 17);
    let spanned = fitting.but(|lent| lent.lows.clone_from(&good.lows));
    answers(tally, "spans: then 15", spanned.spans(), 15);

    let no_goal = all.but(|lent| lent.goal = NO_GOAL.to_vec());
    answers(tally, "clauses: 255 first", no_goal.clauses(), WRONG_LENGTH);
    answers(tally, "clauses: then 3", all.clauses(), 3);
    answers(tally, "clauses: 3 of the table", unfitting.clauses(), 3);
    answers(tally, "clauses: then 14", fitting.clauses(), 14);
    answers(tally, "clauses: then 18", formed.clauses(), 18);
}

/// The same of a witness, whose 19 no session here has: `limits/witness` has sessions of more free bits.
fn witness_orders(tally: &mut Tally, good: &Lent) {
    let all = good.spoiled();
    let no_goal = all.but(|lent| lent.goal = NO_GOAL.to_vec());
    answers(tally, "witness: 255 first", no_goal.witness(), WRONG_LENGTH);
    answers(tally, "witness: then 3", all.witness(), 3);
    let sized = all.but(|lent| lent.table.clone_from(&good.table));
    answers(tally, "witness: 3 of the session", sized.witness(), 3);
    let fitting = sized.but(|lent| lent.session.clone_from(&good.session));
    let unfitting = fitting.but(|lent| lent.table[0] = 9);
    answers(tally, "witness: 3 of the table", unfitting.witness(), 3);
    answers(tally, "witness: then 14", fitting.witness(), 14);
    let formed = fitting.but(|lent| lent.result.clone_from(&good.result));
    answers(tally, "witness: then 17", formed.witness(), 17);
    let spanned = formed.but(|lent| lent.lows.clone_from(&good.lows));
    answers(tally, "witness: then 15", spanned.witness(), 15);
}

/// Each of the three reasons for 15 is there until its list is a good one; what is left then, a sample that 13 refuses, stops
/// no call.
fn sample_lists(tally: &mut Tally, good: &Lent, formed: &Lent) {
    answers(tally, "read_all: then 15", formed.read_all(), 15);
    let worked = formed.but(|lent| lent.work.clone_from(&good.work));
    answers(tally, "read_all: 15 of numbers", worked.read_all(), 15);
    let whole = worked.but(|lent| lent.samples.push(0));
    answers(tally, "read_all: 15 of answers", whole.read_all(), 15);
    let answered = whole.but(|lent| lent.sample_answers.clone_from(&good.sample_answers));
    answers(tally, "read_all: 13 stops no call", answered.read_all(), 0);
}
