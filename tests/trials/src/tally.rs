//! Counts comparisons; the first few differences are told on standard error, and the counts at the end.

use std::collections::BTreeSet;
use std::fmt::Debug;

const TOLD: u64 = 20;

#[derive(Default)]
pub struct Tally {
    pub comparisons: u64,
    pub differences: u64,
    ends_at_first: bool,
    seen: BTreeSet<(&'static str, u8)>,
}

impl Tally {
    /// The first difference ends the program.
    pub fn ending_at_first() -> Tally {
        Tally {
            ends_at_first: true,
            ..Tally::default()
        }
    }

    /// The second evaluator gave this answer.
    pub fn saw(&mut self, operation: &'static str, answer: u8) {
        self.seen.insert((operation, answer));
    }

    /// An answer that no trial had is a difference too.
    pub fn require(&mut self, operation: &'static str, answer: u8) {
        let seen = self.seen.contains(&(operation, answer));
        let what = format!("{operation} answered {answer}");
        self.same(&what, seen, true);
    }

    pub fn same<T: PartialEq + Debug>(&mut self, what: &str, desk: T, second: T) {
        self.comparisons += 1;
        if desk == second {
            return;
        }
        self.differs(|| format!("{what}: desk {desk:?}, second {second:?}"));
    }

    /// Long lists, of which only the first place that differs is told.
    pub fn same_list<T: PartialEq>(&mut self, what: &str, desk: &[T], second: &[T]) {
        self.comparisons += 1;
        if desk == second {
            return;
        }
        self.differs(|| {
            let at = desk.iter().zip(second).position(|(a, b)| a != b);
            let lengths = (desk.len(), second.len());
            format!("{what}: first difference at {at:?}, lengths {lengths:?}")
        });
    }

    fn differs(&mut self, difference: impl Fn() -> String) {
        self.differences += 1;
        if self.differences <= TOLD {
            eprintln!("{}", difference());
        }
        if self.ends_at_first {
            self.tell();
        }
    }

    /// Ends the program where there are differences.
    pub fn tell(&self) {
        println!(
            "trials: {} comparisons, {} differences",
            self.comparisons, self.differences
        );
        if self.differences != 0 {
            std::process::exit(1);
        }
    }
}
