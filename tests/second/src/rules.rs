use crate::records::{records, Record};
use crate::words::{joined, shape, Word};

/// One record of a rule. Places are counted from the nearest binding.
#[derive(Clone, Copy)]
pub enum Expression {
    Truth(bool),
    Word(Word),
    Variable(u16),
    Procedure { body: u16 },
    Call { procedure: u16, argument: u16 },
    Operator { op: u8, p: u16, q: u16 },
    Let { first: u16, second: u16 },
    If { test: u16, then: u16, other: u16 },
    Abort,
    Error,
}

/// The records of a rule that passed tests 4 to 7.
pub struct Rule {
    expressions: Vec<Expression>,
}

impl Rule {
    pub fn parse(bytes: &[u8]) -> Result<Rule, u8> {
        if bytes.is_empty() || bytes.len() > 32_768 || !bytes.len().is_multiple_of(8) {
            return Err(4);
        }
        let expressions: Option<Vec<_>> = records(bytes).map(expression).collect();
        let expressions = expressions.ok_or(5)?;
        if !is_tree(&expressions) {
            return Err(6);
        }
        if !all_in_scope(&expressions) {
            return Err(7);
        }
        Ok(Rule { expressions })
    }

    pub fn expression(&self, record: u16) -> Expression {
        self.expressions[usize::from(record)]
    }
}

pub fn test_allowance(allowance: u16) -> Result<(), u8> {
    if (1..=256).contains(&allowance) {
        Ok(())
    } else {
        Err(8)
    }
}

/// Test 5 for one record: its unused fields must be zero.
fn expression(record: Record) -> Option<Expression> {
    let Record { kind, op, a, b, c } = record;
    Some(match (kind, op, a, b, c) {
        (1, 0, 0, 0, 0) => Expression::Truth(false),
        (1, 1, 0, 0, 0) => Expression::Truth(true),
        (1, 2, low, high, 0) => Expression::Word(joined(low, high)?),
        (2, 0, place, 0, 0) => Expression::Variable(place),
        (3, 0, body, 0, 0) => Expression::Procedure { body },
        (4, 0, procedure, argument, 0) => Expression::Call {
            procedure,
            argument,
        },
        (5, op, p, q, 0) if operator_fits(op, q) => Expression::Operator { op, p, q },
        (6, 0, first, second, 0) => Expression::Let { first, second },
        (7, 0, test, then, other) => Expression::If { test, then, other },
        (8, 0, 0, 0, 0) => Expression::Abort,
        (9, 0, 0, 0, 0) => Expression::Error,
        _ => return None,
    })
}

fn operator_fits(op: u8, q: u16) -> bool {
    (1..=15).contains(&op) && (shape(op).operands == 2 || q == 0)
}

/// Each child with the count of bindings its parent puts before it.
fn children(expression: Expression) -> [Option<(u16, u16)>; 2] {
    match expression {
        Expression::Procedure { body } => [Some((body, 1)), None],
        Expression::Let { first, second } => [Some((first, 0)), Some((second, 1))],
        Expression::If { then, other, .. } => [Some((then, 0)), Some((other, 0))],
        _ => [None, None],
    }
}

/// Test 6: each child stands after its parent and is a record of the rule, and each record but 0 is a child once.
fn is_tree(expressions: &[Expression]) -> bool {
    let mut times = vec![0; expressions.len()];
    for (number, &expression) in expressions.iter().enumerate() {
        for (child, _) in children(expression).into_iter().flatten() {
            let child = usize::from(child);
            let inside = child > number && child < times.len();
            if !inside {
                return false;
            }
            times[child] += 1;
        }
    }
    times.iter().skip(1).all(|&times| times == 1)
}

/// Test 7, down a tree from record 0, which has no bindings over it. The records still to be met stand in a list: a tree may
/// be as deep as the rule is long, too deep for calls inside one another.
fn all_in_scope(expressions: &[Expression]) -> bool {
    let mut waiting = vec![(0, 0)];
    while let Some((record, bindings)) = waiting.pop() {
        let expression = expressions[usize::from(record)];
        if !in_scope(expression, bindings) {
            return false;
        }
        for (child, more) in children(expression).into_iter().flatten() {
            waiting.push((child, bindings + more));
        }
    }
    true
}

/// Test 7 for one record under its count of bindings.
fn in_scope(expression: Expression, bindings: u16) -> bool {
    let below = |place: u16| u32::from(place) < u32::from(bindings) + 16;
    match expression {
        Expression::Variable(place) => below(place),
        Expression::Call {
            procedure,
            argument,
        } => below(procedure) && below(argument),
        // The second place of a one-operand operator is zero, thus in scope.
        Expression::Operator { p, q, .. } => below(p) && below(q),
        Expression::If { test, .. } => below(test),
        _ => true,
    }
}
