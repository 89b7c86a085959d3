//! Clauses for a solver: a text that can be satisfied exactly when some reading reaches the goal.

use crate::gates::Function::{And2, And3, AndOr, AndXor, Choose, Or2, Passing};
use crate::gates::{Circuit, Function, Literal, Way};
use crate::read::{result_fits, ResultOf};
use crate::session::{fit, Session};
use crate::terms::{Term, TRUE};
use crate::words::{shape, Word, AND, IS_PROCEDURE, IS_WORD, NOT, OR, TRUTH};

/// What some reading is to do.
#[derive(Clone, Copy, PartialEq, Eq, Debug)]
pub enum Goal {
    Errs,
    Aborts,
    Gives(Word),
}

/// Why there is no text: of one that the buffer does not hold the length is told.
#[derive(Clone, Copy, PartialEq, Eq, Debug)]
pub struct NoText {
    pub refusal: u8,
    pub length: Option<usize>,
}

/// The text, where a buffer of so many bytes holds it.
pub fn clauses(
    session: &Session,
    table: &[u8],
    result: &ResultOf,
    goal: Goal,
    buffer_len: usize,
) -> Result<Vec<u8>, NoText> {
    let factory = fit(session, table).map_err(refused)?.factory;
    if !result_fits(&factory, result) {
        return Err(refused(14));
    }
    let text = text_of(factory.terms(), result, goal);
    if text.len() > buffer_len {
        return Err(NoText {
            refusal: 18,
            length: Some(text.len()),
        });
    }
    Ok(text)
}

fn refused(refusal: u8) -> NoText {
    NoText {
        refusal,
        length: None,
    }
}

const BITS: usize = Word::BITS as usize;
/// Two tell the kind.
const WIRES: usize = BITS + 2;

/// The wires that tell the kind.
type Kind = (bool, bool);
const A_TRUTH: Kind = (false, false);
const A_WORD: Kind = (true, false);
const A_PROCEDURE: Kind = (false, true);
const A_BINDING: Kind = (true, true);

fn wire(number: u16, wire: usize) -> Literal {
    (WIRES * usize::from(number) + 1 + wire) as Literal
}

/// The variables of a term.
struct Wires {
    kind: (Literal, Literal),
    word: [Literal; BITS],
}

fn wires(number: u16) -> Wires {
    Wires {
        kind: (wire(number, 0), wire(number, 1)),
        word: std::array::from_fn(|bit| wire(number, 2 + bit)),
    }
}

/// The lowest bit, where a truth stands.
fn truth(number: u16) -> Literal {
    wire(number, 2)
}

fn bit(word: Word, at: usize) -> bool {
    word >> at & 1 == 1
}

/// The line that tells the numbers of variables and of clauses, then the clauses: those of the terms in turn, the goal's last.
fn text_of(terms: &[Term], result: &ResultOf, goal: Goal) -> Vec<u8> {
    let mut lines = Lines::default();
    let first_helper = wire(terms.len() as u16, 0);
    let mut circuit = Circuit::new(first_helper, truth(TRUE));
    for number in 0..terms.len() as u16 {
        put_term(&mut circuit, terms, number);
        lines.put_gates(&mut circuit);
    }
    put_goal(&mut lines, &mut circuit, result, goal);
    let (variables, clauses) = (circuit.variables(), lines.count);
    let mut text = format!("p cnf {variables} {clauses}\n").into_bytes();
    text.append(&mut lines.text);
    text
}

#[derive(Default)]
struct Lines {
    text: Vec<u8>,
    count: usize,
}

impl Lines {
    /// A clause's literals, then 0, with one space between.
    fn put(&mut self, clause: &[Literal]) {
        for &literal in clause {
            self.number(literal);
            self.text.push(b' ');
        }
        self.text.extend(b"0\n");
        self.count += 1;
    }

    /// The clauses of the gates since they were taken last.
    fn put_gates(&mut self, circuit: &mut Circuit) {
        for gate in circuit.take() {
            gate.each_clause(|clause| self.put(clause));
        }
    }

    /// In base ten. Texts are long, and formatting by the library is slow.
    fn number(&mut self, number: Literal) {
        if number < 0 {
            self.text.push(b'-');
        }
        let mut digits = [0; 10];
        let mut first = digits.len();
        let mut left = number.unsigned_abs();
        while left > 0 {
            first -= 1;
            digits[first] = b'0' + (left % 10) as u8;
            left /= 10;
        }
        self.text.extend(&digits[first..]);
    }
}

fn put_term(circuit: &mut Circuit, terms: &[Term], number: u16) {
    let own = wires(number);
    match terms[usize::from(number)] {
        Term::Truth(truth) => put_constant(circuit, &own, A_TRUTH, Word::from(truth)),
        Term::Word(word) => put_constant(circuit, &own, A_WORD, word),
        Term::FreeTruth(_) => {
            put_kind(circuit, &own, A_TRUTH);
            for &wire in &own.word[1..] {
                circuit.fix(wire, false);
            }
        }
        Term::FreeWord(_) => put_kind(circuit, &own, A_WORD),
        Term::Operator { op, a, b } => match (op, terms[usize::from(b)]) {
            (7, Term::Word(amount)) => put_moved(circuit, &own, &wires(a), Way::Up, amount),
            (8, Term::Word(amount)) => put_moved(circuit, &own, &wires(a), Way::Down, amount),
            _ => put_operator(circuit, &own, op, &wires(a), &wires(b)),
        },
        Term::Choice { guard, then, other } => {
            for i in 0..WIRES {
                let (then, other) = (wire(then, i), wire(other, i));
                circuit.give(wire(number, i), Choose(truth(guard), then, other));
            }
        }
        Term::Procedure { record, .. } => put_constant(circuit, &own, A_PROCEDURE, record as Word),
        Term::Binding { .. } => put_kind(circuit, &own, A_BINDING),
    }
}

fn put_kind(circuit: &mut Circuit, own: &Wires, kind: Kind) {
    circuit.fix(own.kind.0, kind.0);
    circuit.fix(own.kind.1, kind.1);
}

fn put_constant(circuit: &mut Circuit, own: &Wires, kind: Kind, word: Word) {
    put_kind(circuit, own, kind);
    for (at, &wire) in own.word.iter().enumerate() {
        circuit.fix(wire, bit(word, at));
    }
}

/// A shift by a word constant: every bit comes from another one, or is zero.
fn put_moved(circuit: &mut Circuit, own: &Wires, a: &Wires, way: Way, amount: Word) {
    put_kind(circuit, own, A_WORD);
    let is_word = put_is_word(circuit, a);
    for (at, &wire) in own.word.iter().enumerate() {
        let from = circuit.moved(&a.word, way, amount as usize, at);
        circuit.give(wire, And2(is_word, from));
    }
}

fn put_operator(circuit: &mut Circuit, own: &Wires, op: u8, a: &Wires, b: &Wires) {
    let kind = if shape(op).truth { A_TRUTH } else { A_WORD };
    put_kind(circuit, own, kind);
    match op {
        9 | 10 => put_count(circuit, own, op, a),
        1..=12 => put_of_words(circuit, own, op, a, b),
        _ => put_of_truths(circuit, own, op, a, b),
    }
}

fn put_is_word(circuit: &mut Circuit, a: &Wires) -> Literal {
    circuit.helper(And2(a.kind.0, -a.kind.1))
}

fn put_both_words(circuit: &mut Circuit, a: &Wires, b: &Wires) -> Literal {
    let first = circuit.helper(And3(a.kind.0, -a.kind.1, b.kind.0));
    circuit.helper(And2(first, -b.kind.1))
}

/// How many bits are ones, or how many from the highest on are zeros.
fn put_count(circuit: &mut Circuit, own: &Wires, op: u8, a: &Wires) {
    let is_word = put_is_word(circuit, a);
    let counted = match op {
        9 => a.word.to_vec(),
        _ => circuit.leading(&a.word),
    };
    let count = circuit.count(&counted);
    for (at, &wire) in own.word.iter().enumerate() {
        let bit = count.get(at).copied().unwrap_or(circuit.none());
        circuit.give(wire, And2(is_word, bit));
    }
}

fn put_of_words(circuit: &mut Circuit, own: &Wires, op: u8, a: &Wires, b: &Wires) {
    let both = put_both_words(circuit, a, b);
    let (own, x, y) = (&own.word, &a.word, &b.word);
    match op {
        1 => circuit.sum(own, both, x, y, circuit.none()),
        2 => circuit.sum(own, both, x, &y.map(|y| -y), circuit.truth()),
        3 => circuit.product(own, both, x, y),
        7 => circuit.shift(own, both, x, y, Way::Up),
        8 => circuit.shift(own, both, x, y, Way::Down),
        11 => {
            let carry = circuit.not_less(x, y);
            circuit.give(own[0], And2(both, -carry));
        }
        12 => {
            let equal = circuit.equal(both, x, y);
            circuit.give(own[0], Function::Copy(equal));
        }
        _ => {
            for ((&own, &x), &y) in own.iter().zip(x).zip(y) {
                let function = match op {
                    4 => And3(both, x, y),
                    5 => AndOr(both, x, y),
                    _ => AndXor(both, x, y),
                };
                circuit.give(own, function);
            }
        }
    }
}

fn put_of_truths(circuit: &mut Circuit, own: &Wires, op: u8, a: &Wires, b: &Wires) {
    let (first, second) = a.kind;
    let (x, y) = (a.word[0], b.word[0]);
    let function = match op {
        IS_WORD => And2(first, -second),
        IS_PROCEDURE => And2(-first, second),
        NOT => Function::Copy(-x),
        AND => And2(x, y),
        OR => Or2(x, y),
        TRUTH => Passing(first, second, x),
        _ => unreachable!("no term has another code"),
    };
    circuit.give(own.word[0], function);
}

fn put_goal(lines: &mut Lines, circuit: &mut Circuit, result: &ResultOf, goal: Goal) {
    let (s, t) = (truth(result.s), truth(result.t));
    match goal {
        Goal::Errs if result.halted => lines.put(&[s, -t]),
        Goal::Errs => lines.put(&[-t]),
        Goal::Aborts => {
            lines.put(&[-s]);
            lines.put(&[t]);
        }
        // a halt gives no word
        Goal::Gives(_) if result.halted => lines.put(&[]),
        Goal::Gives(word) => {
            lines.put(&[s]);
            lines.put(&[t]);
            put_constant(circuit, &wires(result.value), A_WORD, word);
            lines.put_gates(circuit);
        }
    }
}
