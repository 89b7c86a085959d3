//! Clause texts taken apart, and what follows from some literals by clauses of which one literal is left; for trials.

use crate::records::Record;
use crate::words::Word;

/// The variables of a term: two tell the kind.
pub const WIRES: usize = Word::BITS as usize + 2;

pub struct Cnf {
    pub variables: usize,
    pub clauses: Vec<Vec<i64>>,
    /// For each variable the clauses that have it.
    places: Vec<Vec<usize>>,
}

impl Cnf {
    /// Nothing if a line does not end in a line feed, the first line tells other numbers than there are, or a clause is not
    /// its literals, then 0, with one space between and no leading zeros.
    pub fn parse(text: &[u8]) -> Option<Cnf> {
        let text = std::str::from_utf8(text).ok()?;
        let mut lines = text.strip_suffix('\n')?.split('\n');
        let head: Vec<&str> = lines.next()?.split(' ').collect();
        let ["p", "cnf", variables, count] = head[..] else {
            return None;
        };
        let variables = usize::try_from(number(variables)?).ok()?;
        let clauses: Vec<Vec<i64>> = lines.map(clause).collect::<Option<_>>()?;
        let within = |literal: &i64| (1..=variables as u64).contains(&literal.unsigned_abs());
        let counted = number(count) == i64::try_from(clauses.len()).ok();
        (counted && clauses.iter().flatten().all(within)).then(|| Cnf::new(variables, clauses))
    }

    fn new(variables: usize, clauses: Vec<Vec<i64>>) -> Cnf {
        let mut places = vec![Vec::new(); variables + 1];
        for (at, clause) in clauses.iter().enumerate() {
            for &literal in clause {
                places[variable(literal)].push(at);
            }
        }
        Cnf {
            variables,
            clauses,
            places,
        }
    }

    /// The first clauses alone.
    pub fn first(&self, clauses: usize) -> Cnf {
        Cnf::new(self.variables, self.clauses[..clauses].to_vec())
    }

    /// What is known of each variable, from 0 on, which is none, once some literals are given; nothing where a clause has no
    /// literal left.
    pub fn follow(&self, given: &[i64]) -> Option<Vec<Option<bool>>> {
        let mut known = vec![None; self.variables + 1];
        let mut waiting = given.to_vec();
        for clause in &self.clauses {
            waiting.extend(left(clause, &known)?);
        }
        while let Some(literal) = waiting.pop() {
            match known[variable(literal)] {
                Some(holds) if holds == (literal > 0) => continue,
                Some(_) => return None,
                None => known[variable(literal)] = Some(literal > 0),
            }
            for &at in &self.places[variable(literal)] {
                waiting.extend(left(&self.clauses[at], &known)?);
            }
        }
        Some(known)
    }
}

fn variable(literal: i64) -> usize {
    literal.unsigned_abs() as usize
}

/// The one literal that is left of a clause, if it is one; nothing where none is.
fn left(clause: &[i64], known: &[Option<bool>]) -> Option<Option<i64>> {
    let mut open = None;
    for &literal in clause {
        match known[variable(literal)] {
            Some(holds) if holds == (literal > 0) => return Some(None),
            Some(_) => {}
            None if open.is_some() => return Some(None),
            None => open = Some(literal),
        }
    }
    open.map(Some)
}

fn clause(line: &str) -> Option<Vec<i64>> {
    let mut literals: Vec<i64> = line.split(' ').map(number).collect::<Option<_>>()?;
    (literals.pop()? == 0).then_some(literals)
}

/// In base ten, without leading zeros or a sign of 0.
fn number(field: &str) -> Option<i64> {
    let digits = field.strip_prefix('-').unwrap_or(field);
    let plain = field == "0" || digits.starts_with(|digit| ('1'..='9').contains(&digit));
    field.parse().ok().filter(|_| plain)
}

/// A variable of a term.
pub fn wire(number: usize, wire: usize) -> i64 {
    (WIRES * number + 1 + wire) as i64
}

/// The literals of the free inputs' terms, as a reading under these numbers has them.
pub fn input_literals(terms: &[Record], numbers: &[Word; 16]) -> Vec<i64> {
    let mut literals = Vec::new();
    for (at, term) in terms.iter().enumerate() {
        let bits = match term.kind {
            3 => 1,
            4 => Word::BITS as usize,
            _ => 0,
        };
        for bit in 0..bits {
            let holds = numbers[usize::from(term.a)] >> bit & 1 == 1;
            let variable = wire(at, 2 + bit);
            literals.push(if holds { variable } else { -variable });
        }
    }
    literals
}
