use crate::terms::{Factory, FALSE};

/// What is assumed and what is asserted, as truth terms.
#[derive(Clone, Copy, PartialEq, Eq, Debug)]
pub struct State {
    pub s: u16,
    pub t: u16,
}

impl State {
    pub fn halts(self) -> bool {
        self.s == FALSE || self.t == FALSE
    }

    pub fn assume(self, factory: &mut Factory, guard: u16) -> Result<State, u8> {
        let claim = factory.implies(self.t, guard)?;
        let s = factory.and(self.s, claim)?;
        Ok(State { s, ..self })
    }

    pub fn assert(self, factory: &mut Factory, guard: u16) -> Result<State, u8> {
        let claim = factory.implies(self.s, guard)?;
        let t = factory.and(self.t, claim)?;
        Ok(State { t, ..self })
    }
}

/// The end of an expression; a halt has no value.
#[derive(Clone, Copy)]
pub struct Finish {
    pub state: State,
    pub value: Option<u16>,
}

impl Finish {
    pub fn with(state: State, value: u16) -> Finish {
        Finish {
            state,
            value: Some(value),
        }
    }

    pub fn halt(state: State) -> Finish {
        Finish { state, value: None }
    }
}

/// How one side of an if, or one target of a call, ended.
pub struct Branch {
    pub guard: u16,
    pub finish: Finish,
}

/// Joins branches over the state before them: S, then T, then the value.
pub fn merge(factory: &mut Factory, before: State, branches: &[Branch]) -> Result<Finish, u8> {
    let State { mut s, mut t } = before;
    for branch in branches {
        let claim = factory.implies(branch.guard, branch.finish.state.s)?;
        s = factory.and(s, claim)?;
    }
    for branch in branches {
        let claim = factory.implies(branch.guard, branch.finish.state.t)?;
        t = factory.and(t, claim)?;
    }
    let state = State { s, t };
    // The value's choices are made even where the merged state halts.
    Ok(match merge_values(factory, branches)? {
        Some(value) if !state.halts() => Finish::with(state, value),
        _ => Finish::halt(state),
    })
}

/// Halted branches give no value; with none left there is nothing.
fn merge_values(factory: &mut Factory, branches: &[Branch]) -> Result<Option<u16>, u8> {
    let mut merged = None;
    for branch in branches.iter().rev() {
        if let Some(value) = branch.finish.value {
            merged = Some(match merged {
                None => value,
                Some(rest) => factory.choice(branch.guard, value, rest)?,
            });
        }
    }
    Ok(merged)
}
