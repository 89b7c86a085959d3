//! Sessions over tables that are made by hand, from an opening by the desk.

use crate::desk;
use second::{Input, Record, Session, Word};

pub const FALSE: Input = Input { kind: 0, value: 0 };
pub const TRUE: Input = Input { kind: 0, value: 1 };
pub const FREE_TRUTH: Input = Input { kind: 2, value: 0 };
pub const FREE_WORD: Input = Input { kind: 3, value: 0 };

pub fn word_input(value: Word) -> Input {
    Input { kind: 1, value }
}

/// Truths at even places and words at odd ones, all free: an opening of 34 terms.
pub fn free_inputs() -> [Input; 16] {
    std::array::from_fn(|i| if i % 2 == 0 { FREE_TRUTH } else { FREE_WORD })
}

#[derive(Clone)]
pub struct Made {
    pub session: Session,
    pub table: Vec<u8>,
}

impl Made {
    /// What the desk opens over so many records.
    pub fn open(inputs: &[Input; 16], records: usize) -> Made {
        let mut session = Session {
            inputs: *inputs,
            count: 0,
            s: 1,
            t: 1,
            halted: false,
            accepted: 0,
        };
        let mut table = vec![0; 8 * records];
        let mut form = desk::session_bytes(&session);
        let refusal = desk::open(&desk::inputs_bytes(inputs), &mut table, &mut form);
        assert_eq!(refusal, 0, "a good opening");
        session.count = table.chunks_exact(8).filter(|term| term[0] != 0).count() as u16;
        Made { session, table }
    }

    /// The same, with the session changed.
    pub fn but(&self, change: impl FnOnce(&mut Session)) -> Made {
        let mut made = self.clone();
        change(&mut made.session);
        made
    }

    /// The same, with a term in place of one, or of what stands behind the count.
    pub fn put(&self, number: u16, term: Record) -> Made {
        let mut made = self.clone();
        let at = 8 * usize::from(number);
        made.table[at..at + 8].copy_from_slice(&term.to_bytes());
        made
    }

    /// The same, with one term more.
    pub fn more(&self, term: Record) -> Made {
        let made = self.put(self.session.count, term);
        made.but(|session| session.count += 1)
    }

    /// The same, over a table of so many bytes.
    pub fn over(&self, bytes: usize) -> Made {
        let mut made = self.clone();
        made.table.resize(bytes, 0);
        made
    }

    pub fn term(&self, number: u16) -> Record {
        let bytes = &self.table[8 * usize::from(number)..];
        second::records(bytes).next().expect("a record")
    }

    pub fn holds(&self, term: Record) -> bool {
        (0..self.session.count).any(|number| self.term(number) == term)
    }
}
