//! One text with what it was made of.

use crate::readings::{under, Reached};
use crate::rules::any_rule;
use second::dice::Dice;
use second::solver::Entry;
use second::{clauses, evaluate, open, records, result_of};
use second::{Goal, Input, Record, ResultOf, Session, Word};
use std::collections::BTreeSet;

const TABLE: usize = 4_096;
const ALLOWANCE: u16 = 60;
/// Two to the power of this are read at most.
pub const MOST_BITS: usize = 16;
const FEWEST_PARTS: usize = 4;

#[derive(Clone)]
pub struct Trial {
    pub inputs: [Input; 16],
    pub rule: Vec<u8>,
    pub goal: Goal,
    pub text: Vec<u8>,
    /// Whether some reading reaches the goal.
    pub reached: bool,
    pub halted: bool,
    /// The codes of the operators that S, T and the value stand on, 100 more of a shift by a constant.
    pub parts: BTreeSet<u8>,
}

/// What an evaluation left.
pub struct Evaluated {
    pub session: Session,
    pub table: Vec<u8>,
    pub result: ResultOf,
}

impl Evaluated {
    pub fn new(inputs: &[Input; 16], rule: &[u8]) -> Option<Evaluated> {
        let mut table = vec![0; TABLE];
        let mut session = open(inputs, &mut table).ok()?;
        let result = result_of(evaluate(&mut session, &mut table, rule, ALLOWANCE))?;
        Some(Evaluated {
            session,
            table,
            result,
        })
    }

    pub fn text(&self, goal: Goal) -> Vec<u8> {
        let Evaluated {
            session,
            table,
            result,
        } = self;
        clauses(session, table, result, goal, usize::MAX).expect("a text")
    }

    pub fn reached(&self) -> Option<Reached> {
        Reached::by_all(&self.session, &self.table, &self.result, MOST_BITS)
    }

    pub fn terms(&self) -> Vec<Record> {
        let count = usize::from(self.session.count);
        records(&self.table).take(count).collect()
    }

    fn parts(&self) -> BTreeSet<u8> {
        let terms = self.terms();
        let part = |number: usize| {
            let term = terms[number];
            match (term.kind, term.op) {
                (5, 7 | 8) if terms[usize::from(term.b)].kind == 2 => Some(100 + term.op),
                (5, op) => Some(op),
                _ => None,
            }
        };
        let numbers = under(&terms, &self.result).into_iter();
        numbers.filter_map(part).collect()
    }
}

impl Trial {
    /// The goals of a random rule; nothing where it is refused, has too many readings, or few operators, or all readings give
    /// one thing.
    pub fn of_a_rule(dice: &mut Dice) -> Option<Vec<Trial>> {
        let (inputs, rule) = any_rule(dice);
        let evaluated = Evaluated::new(&inputs, &rule)?;
        let reached = evaluated.reached()?;
        let kinds = reached.words.len() + usize::from(reached.errs) + usize::from(reached.aborts);
        let parts = evaluated.parts();
        if kinds < 2 || parts.len() < FEWEST_PARTS {
            return None;
        }
        let trial = |goal| Trial {
            inputs,
            rule: rule.clone(),
            goal,
            text: evaluated.text(goal),
            reached: reached.reaches(goal),
            halted: evaluated.result.halted,
            parts: parts.clone(),
        };
        Some(goals(dice, &reached).into_iter().map(trial).collect())
    }

    pub fn entry(&self, name: String) -> Entry {
        Entry {
            name,
            table: TABLE,
            inputs: self.inputs,
            allowance: ALLOWANCE,
            rule: self.rule.clone(),
            goal: self.goal,
            reached: self.reached,
        }
    }
}

/// An error, an abort, and words of which one is given by few readings or none.
fn goals(dice: &mut Dice, reached: &Reached) -> Vec<Goal> {
    let mut goals = vec![Goal::Errs, Goal::Aborts];
    let words: Vec<Word> = reached.words.iter().copied().collect();
    if words.is_empty() {
        goals.push(Goal::Gives(dice.word()));
        return goals;
    }
    let given = dice.pick(&words);
    goals.push(Goal::Gives(given));
    // one near it that no reading gives
    let near = (0..Word::BITS).map(|bit| given ^ 1 << bit);
    let other = near.chain([dice.word()]).find(|word| !words.contains(word));
    goals.extend(other.map(Goal::Gives));
    goals
}
