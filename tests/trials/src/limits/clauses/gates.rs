//! The clauses of single gates, for terms that are made of few; `o` is the wire that a gate gives.

pub type Clause = Vec<i64>;

/// Wires that are fixed, each by one clause.
pub fn fixed(wires: impl IntoIterator<Item = (i64, bool)>) -> Vec<Clause> {
    let literal = |(wire, holds): (i64, bool)| if holds { wire } else { -wire };
    wires.into_iter().map(|wire| vec![literal(wire)]).collect()
}

pub fn copy(o: i64, x: i64) -> Vec<Clause> {
    vec![vec![o, -x], vec![-o, x]]
}

pub fn and2(o: i64, x: i64, y: i64) -> Vec<Clause> {
    vec![vec![-o, x], vec![-o, y], vec![o, -x, -y]]
}

pub fn or2(o: i64, x: i64, y: i64) -> Vec<Clause> {
    vec![vec![o, -x], vec![o, -y], vec![-o, x, y]]
}

pub fn and3(o: i64, x: i64, y: i64, z: i64) -> Vec<Clause> {
    vec![vec![-o, x], vec![-o, y], vec![-o, z], vec![o, -x, -y, -z]]
}

/// x and (y or z)
pub fn and_or(o: i64, x: i64, y: i64, z: i64) -> Vec<Clause> {
    vec![
        vec![-o, x],
        vec![-o, y, z],
        vec![o, -x, -y],
        vec![o, -x, -z],
    ]
}

/// x and (y differs from z)
pub fn and_xor(o: i64, x: i64, y: i64, z: i64) -> Vec<Clause> {
    let (falls, rises) = (
        [vec![-o, x], vec![-o, y, z], vec![-o, -y, -z]],
        [vec![o, -x, -y, z], vec![o, -x, y, -z]],
    );
    falls.into_iter().chain(rises).collect()
}

/// y if x, else z
pub fn choose(o: i64, x: i64, y: i64, z: i64) -> Vec<Clause> {
    vec![
        vec![o, -x, -y],
        vec![-o, -x, y],
        vec![o, x, -z],
        vec![-o, x, z],
    ]
}

/// If x then not y, else y or z.
pub fn passing(o: i64, x: i64, y: i64, z: i64) -> Vec<Clause> {
    vec![
        vec![-o, x, y, z],
        vec![-o, -x, -y],
        vec![o, -x, y],
        vec![o, x, -y],
        vec![o, x, -z],
    ]
}
