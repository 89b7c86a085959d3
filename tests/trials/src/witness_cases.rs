//! Rules over a moisture head and some gates, a free word and free truths, for the benchmark of witnesses.

use crate::made::{word_input, FREE_TRUTH, FREE_WORD};
use crate::tree::{abort, bind, call, error, operator, place, procedure, test, word, Tree};
use second::{evaluate, open, result_of, Goal, Input, ResultOf, Session, Word};

/// A session, one of its results and a goal.
pub struct Case {
    pub what: String,
    pub session: Session,
    pub table: Vec<u8>,
    pub result: ResultOf,
    pub goal: Goal,
}

/// How many gates there are, and whether they stand before the head.
#[derive(Clone, Copy)]
struct Inputs {
    gates: u16,
    before: bool,
}

impl Inputs {
    /// The places under so many bindings.
    fn head(self, bindings: u16) -> u16 {
        bindings + if self.before { self.gates } else { 0 }
    }

    fn gate(self, n: u16, bindings: u16) -> u16 {
        bindings + n % self.gates + u16::from(!self.before)
    }

    fn inputs(self) -> [Input; 16] {
        let mut inputs = [word_input(100); 16];
        inputs[usize::from(self.head(0))] = FREE_WORD;
        for n in 0..self.gates {
            inputs[usize::from(self.gate(n, 0))] = FREE_TRUTH;
        }
        inputs
    }

    /// The result of the first of these rules, after all of them.
    fn case(self, what: &str, rules: &[Tree], goal: Goal) -> Case {
        let mut table = vec![0; 65_536];
        let mut session = open(&self.inputs(), &mut table).expect("a good opening");
        let results: Vec<ResultOf> = rules
            .iter()
            .filter_map(|tree| result_of(evaluate(&mut session, &mut table, &tree.rule(), 256)))
            .collect();
        assert_eq!(results.len(), rules.len(), "accepted rules");
        // no longer than its terms, or than the shortest that there can be
        table.truncate(8 * usize::from(session.count).max(34));
        let order = if self.before {
            "gates first"
        } else {
            "head first"
        };
        Case {
            what: format!("{what}, {order}"),
            session,
            table,
            result: results[0],
            goal,
        }
    }
}

/// 24 free bits in both orders, and the head first with 17, 20 and 24.
const HEAD_FIRST: Inputs = Inputs {
    gates: 8,
    before: false,
};
const GATES_FIRST: Inputs = Inputs {
    gates: 8,
    before: true,
};
const ORDERS: [Inputs; 2] = [HEAD_FIRST, GATES_FIRST];
const SIZES: [Inputs; 3] = [sized(1), sized(4), sized(8)];

const fn sized(gates: u16) -> Inputs {
    Inputs {
        gates,
        ..HEAD_FIRST
    }
}

/// Those whose goal hangs on thresholds.
pub fn thresholds() -> Vec<Case> {
    let mut cases = Vec::new();
    for inputs in SIZES {
        let rule = from(inputs, 40_000);
        cases.push(inputs.case("an error from 40,000 on", &[rule], Goal::Errs));
    }
    for inputs in ORDERS {
        for (what, rule, goal) in [
            ("an error at 40,000 alone", at(inputs, 40_000), Goal::Errs),
            ("bays, the error", bays(inputs, 0, 0), Goal::Errs),
            ("bays, bay 6", bays(inputs, 0, 0), Goal::Gives(6)),
            (
                "a gated sum above 50,000",
                above(inputs, 50_000),
                Goal::Errs,
            ),
            (
                "the sum is 12,345",
                summed(inputs, 0, 0, place(0)),
                Goal::Gives(12_345),
            ),
            (
                "an error below 100 and not below 200: none",
                never(inputs),
                Goal::Errs,
            ),
        ] {
            cases.push(inputs.case(what, &[rule], goal));
        }
    }
    cases
}

/// Calls, a goal that the first reading reaches, and results that stand on few inputs or terms of many.
pub fn others() -> Vec<Case> {
    let gate = test(GATES_FIRST.gate(0, 0), error(), word(7));
    let square = operator(3, HEAD_FIRST.head(0), HEAD_FIRST.head(0));
    let first = at(GATES_FIRST, 40_000);
    let later = (1..20).map(|n| above(GATES_FIRST, 1_000 * n));
    let twenty: Vec<Tree> = std::iter::once(first).chain(later).collect();
    let (head, gates) = (HEAD_FIRST, GATES_FIRST);
    vec![
        head.case(
            "a chosen procedure gives 12,345",
            &[called(head)],
            Goal::Errs,
        ),
        gates.case(
            "a chosen procedure gives 12,345",
            &[called(gates)],
            Goal::Errs,
        ),
        head.case(
            "bays, the abort: the first reading",
            &[bays(head, 0, 0)],
            Goal::Aborts,
        ),
        gates.case("an error by one gate", &[gate], Goal::Errs),
        head.case("the head's square is 2: none", &[square], Goal::Gives(2)),
        gates.case("20 rules, the first one's error", &twenty, Goal::Errs),
    ]
}

/// Those in which ranges show little or nothing.
pub fn unpruned() -> Vec<Case> {
    let mut cases = Vec::new();
    for inputs in SIZES {
        let square = summed(inputs, 0, 0, operator(3, 0, 0));
        cases.push(inputs.case("the sum's square is 2: none", &[square], Goal::Gives(2)));
    }
    for inputs in ORDERS {
        let parity = parity(inputs);
        cases.push(inputs.case(
            "the parity of all bits is 2: none",
            &[parity],
            Goal::Gives(2),
        ));
        let ones = ones(inputs);
        cases.push(inputs.case(
            "the bits one by one, 25 ones: none",
            &[ones],
            Goal::Gives(25),
        ));
    }
    cases
}

/// An error where the head is not below a word.
fn from(inputs: Inputs, limit: Word) -> Tree {
    let below = operator(11, inputs.head(1), 0);
    bind(word(limit), bind(below, test(0, word(7), error())))
}

/// An error where the head is a word.
fn at(inputs: Inputs, number: Word) -> Tree {
    let equal = operator(12, inputs.head(1), 0);
    bind(word(number), bind(equal, test(0, error(), word(7))))
}

/// Bay n below the n-th threshold where gate n is open, else an abort; past the last an error where the last gate is open.
fn bays(inputs: Inputs, n: u16, bindings: u16) -> Tree {
    if n == 7 {
        return test(inputs.gate(7, bindings), error(), word(99));
    }
    let below = operator(11, inputs.head(bindings + 1), 0);
    let bay = test(inputs.gate(n, bindings + 2), word(n), abort());
    let rest = bays(inputs, n + 1, bindings + 2);
    bind(word(8_000 * (n + 1)), bind(below, test(0, bay, rest)))
}

/// The head and, for each gate that is open, a word more; in what comes after it the sum is place 0.
fn summed(inputs: Inputs, n: u16, bindings: u16, after: Tree) -> Tree {
    if n == inputs.gates {
        return after;
    }
    let before = if n == 0 { inputs.head(bindings) } else { 0 };
    let more = test(inputs.gate(n, bindings), word(1_000 + n), word(0));
    let rest = summed(inputs, n + 1, bindings + 2, after);
    bind(more, bind(operator(1, before + 1, 0), rest))
}

/// An error where the sum is above a word.
fn above(inputs: Inputs, most: Word) -> Tree {
    let tested = bind(operator(11, 0, 1), test(0, error(), place(2)));
    summed(inputs, 0, 0, bind(word(most), tested))
}

/// The head handed to one of the procedures, of which each adds another word; an error where that gives 12,345.
fn called(inputs: Inputs) -> Tree {
    let adds = |n: u16| procedure(bind(word(100 * (n + 1)), operator(1, 1, 0)));
    let mut chosen = adds(inputs.gates);
    for n in (0..inputs.gates).rev() {
        chosen = test(inputs.gate(n, 0), adds(n), chosen);
    }
    let tested = bind(operator(12, 1, 0), test(0, error(), place(2)));
    let given = bind(call(0, inputs.head(1)), bind(word(12_345), tested));
    bind(chosen, given)
}

/// An error below 100 and not below 200.
fn never(inputs: Inputs) -> Tree {
    let tested = test(1, test(0, word(7), error()), word(9));
    let second = bind(operator(11, inputs.head(3), 1), tested);
    let first = bind(operator(11, inputs.head(2), 1), second);
    bind(word(100), bind(word(200), first))
}

/// The last bit of the head's count of ones and the open gates.
fn parity(inputs: Inputs) -> Tree {
    let last_bit = bind(word(1), operator(4, 1, 0));
    let ones = operator(9, inputs.head(0), 0);
    bind(ones, open_gates(inputs, 0, 1, last_bit))
}

/// Place 0 and one more for each gate that is open, which is place 0 in what comes after it.
fn open_gates(inputs: Inputs, n: u16, bindings: u16, after: Tree) -> Tree {
    if n == inputs.gates {
        return after;
    }
    let one = test(inputs.gate(n, bindings), word(1), word(0));
    let rest = open_gates(inputs, n + 1, bindings + 2, after);
    bind(one, bind(operator(1, 1, 0), rest))
}

/// The head's bits one by one, added up, and the open gates.
fn ones(inputs: Inputs) -> Tree {
    bind(word(0), ones_from(inputs, 0, 1))
}

fn ones_from(inputs: Inputs, bit: u16, bindings: u16) -> Tree {
    if u32::from(bit) == Word::BITS {
        return open_gates(inputs, 0, bindings, place(0));
    }
    let moved = operator(8, inputs.head(bindings + 1), 0);
    let last = bind(word(1), operator(4, 1, 0));
    // the sum so far stands under the amount, what is moved and its last bit
    let sum = operator(1, 3, 0);
    let rest = ones_from(inputs, bit + 1, bindings + 4);
    bind(word(bit), bind(moved, bind(last, bind(sum, rest))))
}
