use crate::records::Record;
use crate::words::{halves, joined, on_words, shape, Value, Word};
use crate::words::{AND, BITWISE_AND, IS_PROCEDURE, IS_WORD, MULTIPLY, NOT, OR, TRUTH};
use std::collections::hash_map::{Entry, HashMap};
use std::hash::{BuildHasherDefault, Hasher};

/// The numbers of the two truth constants in every table.
pub const FALSE: u16 = 0;
pub const TRUE: u16 = 1;

pub fn constant(truth: bool) -> u16 {
    if truth {
        TRUE
    } else {
        FALSE
    }
}

/// The next of the last binding.
pub const NO_BINDING: u16 = 65_535;

#[derive(Clone, Copy, PartialEq, Eq, Debug)]
pub enum Term {
    Truth(bool),
    Word(Word),
    FreeTruth(u16),
    FreeWord(u16),
    Operator {
        op: u8,
        a: u16,
        b: u16,
    },
    Choice {
        guard: u16,
        then: u16,
        other: u16,
    },
    Procedure {
        record: u16,
        bindings: u16,
        rule: u16,
    },
    Binding {
        value: u16,
        next: u16,
    },
}

/// What the kind of a term alone tells about its value.
#[derive(Clone, Copy, PartialEq, Eq, Debug)]
pub enum Sort {
    Truth,
    Word,
    Choice,
    Procedure,
    Binding,
}

impl Term {
    /// Nothing if the kind, the op or an unused field is not as laid out.
    pub fn decode(record: Record) -> Option<Term> {
        let Record { kind, op, a, b, c } = record;
        Some(match (kind, op, a, b, c) {
            (1, 0, 0 | 1, 0, 0) => Term::Truth(a == 1),
            (2, 0, low, high, 0) => Term::Word(joined(low, high)?),
            (3, 0, input, 0, 0) => Term::FreeTruth(input),
            (4, 0, input, 0, 0) => Term::FreeWord(input),
            (5, op, a, b, 0) if operator_fits(op, b) => Term::Operator { op, a, b },
            (6, 0, guard, then, other) => Term::Choice { guard, then, other },
            (7, 0, record, bindings, rule) => Term::Procedure {
                record,
                bindings,
                rule,
            },
            (8, 0, value, next, 0) => Term::Binding { value, next },
            _ => return None,
        })
    }

    pub fn encode(self) -> Record {
        let (kind, op, a, b, c) = match self {
            Term::Truth(truth) => (1, 0, u16::from(truth), 0, 0),
            Term::Word(word) => {
                let (low, high) = halves(word);
                (2, 0, low, high, 0)
            }
            Term::FreeTruth(input) => (3, 0, input, 0, 0),
            Term::FreeWord(input) => (4, 0, input, 0, 0),
            Term::Operator { op, a, b } => (5, op, a, b, 0),
            Term::Choice { guard, then, other } => (6, 0, guard, then, other),
            Term::Procedure {
                record,
                bindings,
                rule,
            } => (7, 0, record, bindings, rule),
            Term::Binding { value, next } => (8, 0, value, next, 0),
        };
        Record { kind, op, a, b, c }
    }

    pub fn sort(self) -> Sort {
        match self {
            Term::Truth(_) | Term::FreeTruth(_) => Sort::Truth,
            Term::Operator { op, .. } if shape(op).truth => Sort::Truth,
            Term::Word(_) | Term::FreeWord(_) | Term::Operator { .. } => Sort::Word,
            Term::Choice { .. } => Sort::Choice,
            Term::Procedure { .. } => Sort::Procedure,
            Term::Binding { .. } => Sort::Binding,
        }
    }

    /// The word of a word constant.
    fn word(self) -> Option<Word> {
        match self {
            Term::Word(word) => Some(word),
            _ => None,
        }
    }

    /// Whether every term it names is lower and of the right kind, and a
    /// procedure stems from an accepted rule.
    pub fn names_fit(self, lower: &[Term], accepted: u16) -> bool {
        let sort = |number: u16| lower.get(usize::from(number)).map(|term| term.sort());
        let truth = |number| sort(number) == Some(Sort::Truth);
        let binding = |number| sort(number) == Some(Sort::Binding);
        let value = |number| sort(number).is_some_and(|sort| sort != Sort::Binding);
        let operand = |op, number| match op {
            NOT | AND | OR => truth(number),
            IS_WORD | IS_PROCEDURE | TRUTH => sort(number) == Some(Sort::Choice),
            _ => value(number),
        };
        match self {
            Term::Truth(_) | Term::Word(_) | Term::FreeTruth(_) | Term::FreeWord(_) => true,
            Term::Operator { op, a, b } => {
                operand(op, a) && (shape(op).operands == 1 || operand(op, b))
            }
            Term::Choice { guard, then, other } => truth(guard) && value(then) && value(other),
            Term::Procedure {
                record,
                bindings,
                rule,
            } => record <= 4_095 && binding(bindings) && rule < accepted,
            Term::Binding { value: held, next } => {
                value(held) && (next == NO_BINDING || binding(next))
            }
        }
    }
}

/// Code 13 makes no term of its own.
fn operator_fits(op: u8, b: u16) -> bool {
    match op {
        1..=12 | IS_WORD | IS_PROCEDURE | NOT | AND | OR | TRUTH => {
            shape(op).operands == 2 || b == 0
        }
        _ => false,
    }
}

/// Mixes the eight bytes of a term, which come as one number.
#[derive(Default)]
struct TermHasher(u64);

impl Hasher for TermHasher {
    fn write(&mut self, bytes: &[u8]) {
        for &byte in bytes {
            self.write_u64(u64::from(byte));
        }
    }

    fn write_u64(&mut self, number: u64) {
        self.0 = (self.0 ^ number).wrapping_mul(0x9e37_79b9_7f4a_7c15);
    }

    fn finish(&self) -> u64 {
        self.0 ^ (self.0 >> 32)
    }
}

/// Makes terms, giving an equal term its old number.
pub struct Factory {
    terms: Vec<Term>,
    index: HashMap<u64, u16, BuildHasherDefault<TermHasher>>,
    capacity: usize,
}

impl Factory {
    /// An empty table with room for so many terms, at most 8,192.
    pub fn new(capacity: usize) -> Factory {
        Factory {
            terms: Vec::new(),
            index: HashMap::default(),
            capacity: capacity.min(8_192),
        }
    }

    pub fn terms(&self) -> &[Term] {
        &self.terms
    }

    pub fn count(&self) -> u16 {
        self.terms.len() as u16
    }

    pub fn term(&self, number: u16) -> Term {
        self.terms[usize::from(number)]
    }

    pub fn sort(&self, number: u16) -> Sort {
        self.term(number).sort()
    }

    pub fn make(&mut self, term: Term) -> Result<u16, u8> {
        let key = u64::from_le_bytes(term.encode().to_bytes());
        match self.index.entry(key) {
            Entry::Occupied(entry) => Ok(*entry.get()),
            Entry::Vacant(_) if self.terms.len() >= self.capacity => Err(11),
            Entry::Vacant(entry) => {
                let number = self.terms.len() as u16;
                self.terms.push(term);
                entry.insert(number);
                Ok(number)
            }
        }
    }

    /// Whether the term was new and there was room for it.
    pub fn make_new(&mut self, term: Term) -> bool {
        let number = self.count();
        self.make(term) == Ok(number)
    }

    pub fn bind(&mut self, value: u16, next: u16) -> Result<u16, u8> {
        self.make(Term::Binding { value, next })
    }

    /// The value a place names. Past the chain's end, where the scope test
    /// lets no place be, it is false.
    pub fn look_up(&self, environment: u16, place: u16) -> u16 {
        let mut number = environment;
        let mut left = place;
        while let Some(&Term::Binding { value, next }) = self.terms.get(usize::from(number)) {
            if left == 0 {
                return value;
            }
            left -= 1;
            number = next;
        }
        FALSE
    }

    /// An operator 1 to 12, worked out on word constants; word 0 for multiply or bitwise and with the word constant 0.
    pub fn operator(&mut self, op: u8, a: u16, b: u16) -> Result<u16, u8> {
        let (x, y) = (self.term(a).word(), self.term(b).word());
        match on_words::<u16>(op, x, y) {
            Some(Value::Word(word)) => self.make(Term::Word(word)),
            Some(Value::Truth(truth)) => Ok(constant(truth)),
            _ if matches!(op, MULTIPLY | BITWISE_AND) && (x == Some(0) || y == Some(0)) => {
                self.make(Term::Word(0))
            }
            _ => self.make(Term::Operator { op, a, b }),
        }
    }

    /// Not of a constant is the other one, not of a not its operand.
    pub fn not(&mut self, a: u16) -> Result<u16, u8> {
        match self.term(a) {
            Term::Truth(truth) => Ok(constant(!truth)),
            Term::Operator { op: NOT, a, .. } => Ok(a),
            _ => self.make(Term::Operator { op: NOT, a, b: 0 }),
        }
    }

    pub fn and(&mut self, a: u16, b: u16) -> Result<u16, u8> {
        self.join(AND, FALSE, TRUE, a, b)
    }

    pub fn or(&mut self, a: u16, b: u16) -> Result<u16, u8> {
        self.join(OR, TRUE, FALSE, a, b)
    }

    /// And and or are alike but for the constant that decides and the one that drops out.
    fn join(&mut self, op: u8, decides: u16, drops: u16, a: u16, b: u16) -> Result<u16, u8> {
        if a == decides || b == decides {
            Ok(decides)
        } else if a == drops || a == b {
            Ok(b)
        } else if b == drops {
            Ok(a)
        } else {
            self.make(Term::Operator { op, a, b })
        }
    }

    pub fn implies(&mut self, a: u16, b: u16) -> Result<u16, u8> {
        let not = self.not(a)?;
        self.or(not, b)
    }

    /// With a constant guard the chosen side, with equal sides that side.
    pub fn choice(&mut self, guard: u16, then: u16, other: u16) -> Result<u16, u8> {
        match guard {
            TRUE => Ok(then),
            FALSE => Ok(other),
            _ if then == other => Ok(then),
            _ => self.make(Term::Choice { guard, then, other }),
        }
    }

    pub fn truth(&mut self, a: u16) -> Result<u16, u8> {
        match self.sort(a) {
            Sort::Truth => Ok(a),
            Sort::Choice => self.of_choice(TRUTH, a),
            _ => Ok(TRUE),
        }
    }

    pub fn is_word(&mut self, a: u16) -> Result<u16, u8> {
        match self.sort(a) {
            Sort::Word => Ok(TRUE),
            Sort::Choice => self.of_choice(IS_WORD, a),
            _ => Ok(FALSE),
        }
    }

    pub fn is_procedure(&mut self, a: u16) -> Result<u16, u8> {
        match self.sort(a) {
            Sort::Procedure => Ok(TRUE),
            Sort::Choice => self.of_choice(IS_PROCEDURE, a),
            _ => Ok(FALSE),
        }
    }

    /// And of "is a word" for each operand the code has.
    pub fn are_words(&mut self, op: u8, a: u16, b: u16) -> Result<u16, u8> {
        let first = self.is_word(a)?;
        if shape(op).operands == 1 {
            return Ok(first);
        }
        let second = self.is_word(b)?;
        self.and(first, second)
    }

    fn of_choice(&mut self, op: u8, a: u16) -> Result<u16, u8> {
        self.make(Term::Operator { op, a, b: 0 })
    }
}
