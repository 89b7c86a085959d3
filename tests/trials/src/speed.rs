//! The times of opening, evaluating and reading beside the second evaluator's, the terms that the rules make, and the
//! comparisons that the search for an equal term takes; each as rows of a table.

use crate::desk;
use crate::rules::guarded_update;
use crate::tree::{bind, operator, place, test, word, Tree};
use second::dice::{record, rule, Dice};
use second::{
    evaluate, open, read, records, result_of, Answer, Input, Record, ResultOf, Session, Word,
};
use std::hint::black_box;

pub const TABLE: usize = 65_536;
const ALLOWANCE: u16 = 256;
/// How many guarded updates the chains have that are timed.
const NESTED: [u16; 4] = [7, 30, 62, 126];
const IN_TURN: [u16; 4] = [12, 53, 107, 214];

pub fn run() {
    println!("| what | desk, ms | second evaluator, ms | ratio |");
    println!("|---|---|---|---|");
    random_rules().iter().for_each(Randoms::evaluations);
    let (nested, in_turn) = (NESTED.map(nested), IN_TURN.map(in_turn));
    nested.iter().chain(&in_turn).for_each(Chain::evaluations);
    switched().evaluations();
    openings();
    in_turn.iter().for_each(Chain::readings);
    println!("\n| chain | comparisons | of word constants | of a search through all terms |");
    println!("|---|---|---|---|");
    nested.iter().chain(&in_turn).for_each(Chain::comparisons);
}

/// The time that this thread has had on a processor, in milliseconds, so that other work on the machine counts little.
fn now() -> f64 {
    #[repr(C)]
    struct Time {
        seconds: i64,
        nanoseconds: i64,
    }
    extern "C" {
        fn clock_gettime(clock: i32, time: *mut Time) -> i32;
    }
    const CLOCK_THREAD_CPUTIME_ID: i32 = 3;
    let mut time = Time {
        seconds: 0,
        nanoseconds: 0,
    };
    let failed = unsafe { clock_gettime(CLOCK_THREAD_CPUTIME_ID, &mut time) };
    assert_eq!(failed, 0);
    time.seconds as f64 * 1e3 + time.nanoseconds as f64 / 1e6
}

/// A piece of work that is timed, on a copy of where it starts.
pub type Work<'a, T> = &'a mut dyn FnMut(&mut T);

/// The least time of each work, of so many runs in a turn; the works take turns, 100 of them. Each turn works on its own
/// copy, which is made before.
pub fn least_times<T: Clone, const N: usize>(
    runs: usize,
    start: &T,
    works: [Work<T>; N],
) -> [f64; N] {
    least_of(100, runs, start, works)
}

/// The same of so many turns.
pub fn least_of<T: Clone, const N: usize>(
    turns: usize,
    runs: usize,
    start: &T,
    mut works: [Work<T>; N],
) -> [f64; N] {
    let mut best = [f64::MAX; N];
    for _ in 0..turns {
        for (best, work) in best.iter_mut().zip(&mut works) {
            let mut copy = start.clone();
            let begun = now();
            work(black_box(&mut copy));
            *best = best.min((now() - begun) / runs as f64);
        }
    }
    best
}

/// Prints the times of the desk and of the second evaluator.
pub fn compare<T: Clone>(
    what: &str,
    runs: usize,
    start: &T,
    mut desk: impl FnMut(&mut T),
    mut second: impl FnMut(&mut T),
) {
    let [desk, second] = least_times(runs, start, [&mut desk, &mut second]);
    let ratio = desk / second;
    println!("| {what} | {desk:.4} | {second:.4} | {ratio:.2} |");
}

/// A session in its two forms, with its table.
#[derive(Clone)]
pub struct Start {
    pub session: Session,
    form: Vec<u8>,
    pub table: Vec<u8>,
}

impl Start {
    pub fn new(inputs: &[Input; 16], bytes: usize) -> Start {
        let mut table = vec![0; bytes];
        let session = open(inputs, &mut table).expect("a good opening");
        let form = desk::session_bytes(&session);
        Start {
            session,
            form,
            table,
        }
    }

    pub fn desk(&mut self, bytes: &[u8]) -> u8 {
        desk::evaluate(
            &mut self.form,
            &mut self.table,
            bytes,
            ALLOWANCE,
            &mut [0; desk::ANSWER],
        )
    }

    pub fn second(&mut self, bytes: &[u8]) -> Answer {
        evaluate(&mut self.session, &mut self.table, bytes, ALLOWANCE)
    }
}

/// The terms that these rules make. It asks the desk alone, so that two desks can be compared.
pub fn terms() {
    println!("| rules | terms made |");
    println!("|---|---|");
    for randoms in random_rules() {
        let Randoms { what, rules, .. } = &randoms;
        println!("| {what}, {} of them | {} |", rules.len(), randoms.made());
    }
    let updates = NESTED.map(nested).into_iter().chain(IN_TURN.map(in_turn));
    for chain in updates.chain([switched()]) {
        println!("| {} | {} |", chain.name, made(&chain.start, &chain.rules));
    }
}

/// The terms that the desk makes of rules in turn.
fn made(start: &Start, rules: &[Vec<u8>]) -> usize {
    let mut end = start.clone();
    for bytes in rules {
        end.desk(bytes);
    }
    let count = |start: &Start| records(&start.table).filter(|term| term.kind != 0).count();
    count(&end) - count(start)
}

/// Rules, each with a session of its own.
pub struct Randoms {
    pub what: String,
    pub rules: Vec<Vec<u8>>,
    pub starts: Vec<Start>,
}

impl Randoms {
    fn evaluations(&self) {
        compare(
            &format!("evaluate {}", self.what),
            self.rules.len(),
            &self.starts,
            |starts| {
                for (start, bytes) in starts.iter_mut().zip(&self.rules) {
                    black_box(start.desk(bytes));
                }
            },
            |starts| {
                for (start, bytes) in starts.iter_mut().zip(&self.rules) {
                    black_box(start.second(bytes));
                }
            },
        );
    }

    fn made(&self) -> usize {
        let pairs = self.starts.iter().zip(&self.rules);
        pairs
            .map(|(start, bytes)| made(start, std::slice::from_ref(bytes)))
            .sum()
    }
}

/// Rules of about 50 records, on small tables and on large ones.
pub fn random_rules() -> [Randoms; 2] {
    let mut dice = Dice(0x50ee);
    let mut rules = Vec::new();
    while rules.len() < 200 {
        let bytes = dice.rule(120);
        if (36 * 8..=100 * 8).contains(&bytes.len()) {
            rules.push(bytes);
        }
    }
    let mean = rules.iter().map(Vec::len).sum::<usize>() / 8 / rules.len();
    [4_096, TABLE].map(|bytes| Randoms {
        what: format!("a random rule, {mean} records in the mean, table of {bytes} bytes"),
        rules: rules.clone(),
        starts: rules
            .iter()
            .map(|_| Start::new(&dice.inputs(), bytes))
            .collect(),
    })
}

fn openings() {
    let inputs = [Input { kind: 3, value: 0 }; 16];
    for bytes in [272, TABLE] {
        let table = vec![0; bytes];
        let form = desk::inputs_bytes(&inputs);
        compare(
            &format!("open, table of {bytes} bytes"),
            1,
            &table,
            |table| assert_eq!(desk::open(&form, table, &mut [0; desk::SESSION]), 0),
            |table| assert!(open(&inputs, table).is_ok()),
        );
    }
}

/// Rules that update a word under guards, one after the other, with where they start and what they leave.
struct Chain {
    /// The rules, and with the terms at the end.
    name: String,
    what: String,
    start: Start,
    rules: Vec<Vec<u8>>,
    end: Start,
    result: ResultOf,
}

impl Chain {
    fn new(name: String, inputs: &[Input; 16], rules: Vec<Vec<u8>>) -> Chain {
        let start = Start::new(inputs, TABLE);
        let mut end = start.clone();
        let mut result = None;
        for bytes in &rules {
            result = result_of(end.second(bytes));
        }
        end.form = desk::session_bytes(&end.session);
        Chain {
            what: format!("{name}, {} terms", end.session.count),
            name,
            start,
            rules,
            end,
            result: result.expect("an accepted rule"),
        }
    }

    fn evaluations(&self) {
        compare(
            &format!("evaluate {}", self.what),
            1,
            &self.start,
            |start| {
                for bytes in &self.rules {
                    assert_eq!(start.desk(bytes), 0);
                }
            },
            |start| {
                for bytes in &self.rules {
                    assert!(result_of(start.second(bytes)).is_some());
                }
            },
        );
    }

    fn readings(&self) {
        let Start {
            session,
            form,
            table,
        } = &self.end;
        let numbers = [1; 16];
        let work = vec![0; usize::from(session.count)];
        let number_bytes = desk::numbers_bytes(&numbers);
        let result = desk::result_bytes(&self.result);
        compare(
            &format!("read after {}", self.what),
            1,
            &work,
            |work| {
                let refusal = desk::read(
                    form,
                    table,
                    &number_bytes,
                    &result,
                    work,
                    &mut [0; desk::READING],
                );
                assert_eq!(refusal, 0);
            },
            |work| {
                black_box(read(session, table, &numbers, &self.result, work.len()));
            },
        );
    }

    /// Each term made was compared with all those above its largest operand, and equal to none.
    fn comparisons(&self) {
        let opened = usize::from(self.start.session.count);
        let terms: Vec<Record> = records(&self.end.table)
            .take(usize::from(self.end.session.count))
            .collect();
        let made = (terms.len() - opened) as f64;
        let steps = |n: usize| n - floor(terms[n]);
        let all: usize = (opened..terms.len()).map(steps).sum();
        let constants: usize = (opened..terms.len())
            .filter(|&n| terms[n].kind == 2)
            .map(steps)
            .sum();
        let plain: usize = (opened..terms.len()).sum();
        let each = |steps: usize| steps as f64 / made;
        println!(
            "| {} | {:.1} | {:.1} | {:.0} |",
            self.what,
            each(all),
            each(constants),
            each(plain)
        );
    }
}

/// One more than the largest number that a term names; 0 where it names none.
fn floor(term: Record) -> usize {
    let named: &[u16] = match term.kind {
        5 => &[term.a, term.b],
        6 => &[term.a, term.b, term.c],
        7 => &[term.b],
        8 if term.b == 65_535 => &[term.a],
        8 => &[term.a, term.b],
        _ => &[],
    };
    named.iter().map(|&n| usize::from(n) + 1).max().unwrap_or(0)
}

/// Guarded updates inside one another in one rule.
fn nested(updates: u16) -> Chain {
    let name = format!("{updates} nested updates");
    Chain::new(name, &nested_inputs(), vec![nested_updates(3, updates)])
}

/// Free truths, and a free word as the last input.
pub fn nested_inputs() -> [Input; 16] {
    let mut inputs = [Input { kind: 2, value: 0 }; 16];
    inputs[15].kind = 3;
    inputs
}

/// k more where the guard holds, under a let for k and one for the sum, from the first k on; the guards are places 0 to 14 in
/// turn.
pub fn nested_updates(first: u16, updates: u16) -> Vec<u8> {
    let mut list = Vec::new();
    for n in 0..updates {
        let at = list.len() as u16;
        let bindings = 2 * n + 1;
        let before = if n == 0 { bindings + 15 } else { 1 };
        list.extend([
            record(6, 0, at + 1, at + 2, 0),
            record(1, 2, first + n, 0, 0),
            record(6, 0, at + 3, at + 6, 0),
            record(7, 0, bindings + n % 15, at + 4, at + 5),
            record(5, 1, before, 0, 0),
            record(2, 0, before, 0, 0),
        ]);
    }
    list.push(record(2, 0, 0, 0, 0));
    rule(&list)
}

/// Guarded updates rule after rule.
fn in_turn(updates: u16) -> Chain {
    let rules = (0..updates).map(|n| guarded_update(3 + n)).collect();
    let name = format!("{updates} updates in turn");
    Chain::new(name, &in_turn_inputs(), rules)
}

/// A free truth, a free word, and constants.
pub fn in_turn_inputs() -> [Input; 16] {
    let mut inputs = [Input { kind: 0, value: 0 }; 16];
    inputs[0].kind = 2;
    inputs[1].kind = 3;
    inputs
}

/// Readings multiplied by switches, every other one 0: each product below a limit is added.
fn switched() -> Chain {
    let inputs = std::array::from_fn(|i| match i {
        15 => Input { kind: 0, value: 0 },
        _ if i % 2 == 1 || i == 14 => Input { kind: 3, value: 0 },
        _ => Input {
            kind: 1,
            value: (i / 2 % 2) as Word,
        },
    });
    let name = format!("{HEADS} switched readings");
    Chain::new(name, &inputs, vec![switched_reading(0).rule()])
}

const HEADS: u16 = 7;

/// Head n and those after it, under four bindings for each head before; input 14 is what is added to.
fn switched_reading(n: u16) -> Tree {
    if n == HEADS {
        return place(0);
    }
    let switch = 4 * n + 2 * n;
    let sum = if n == 0 { 3 + 14 } else { 3 };
    let added = test(0, operator(1, sum, 2), place(sum));
    let tested = bind(operator(11, 1, 0), bind(added, switched_reading(n + 1)));
    bind(operator(3, switch, switch + 1), bind(word(100), tested))
}
