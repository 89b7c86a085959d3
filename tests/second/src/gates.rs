//! Gates over literals, and the circuits that operators are made of. `docs/CLAUSES.md` fixes their clauses and their order.

use Function::{And2, And3, AndOr, AndXor, Choose, Fixed, Majority, Or2, Passing, Xor2};

/// A variable, or minus it for its opposite.
pub type Literal = i32;

/// What a gate gives its wire, of literals x, y and z.
#[derive(Clone, Copy)]
pub enum Function {
    /// The wire holds.
    Fixed,
    Copy(Literal),
    And2(Literal, Literal),
    Or2(Literal, Literal),
    Xor2(Literal, Literal),
    And3(Literal, Literal, Literal),
    /// x and (y or z)
    AndOr(Literal, Literal, Literal),
    /// x and (y differs from z)
    AndXor(Literal, Literal, Literal),
    /// y if x, else z
    Choose(Literal, Literal, Literal),
    /// Two or three of them.
    Majority(Literal, Literal, Literal),
    /// If x then not y, else y or z.
    Passing(Literal, Literal, Literal),
}

/// A wire, or for a fixed one its opposite, and what it is given.
#[derive(Clone, Copy)]
pub struct Gate {
    wire: Literal,
    is: Function,
}

impl Gate {
    /// Hands on its clauses, one after another.
    pub fn each_clause(self, mut put: impl FnMut(&[Literal])) {
        let o = self.wire;
        let clauses: &[&[Literal]] = match self.is {
            Fixed => &[&[o]],
            Function::Copy(x) => &[&[o, -x], &[-o, x]],
            And2(x, y) => &[&[-o, x], &[-o, y], &[o, -x, -y]],
            Or2(x, y) => &[&[o, -x], &[o, -y], &[-o, x, y]],
            Xor2(x, y) => &[&[-o, x, y], &[-o, -x, -y], &[o, -x, y], &[o, x, -y]],
            And3(x, y, z) => &[&[-o, x], &[-o, y], &[-o, z], &[o, -x, -y, -z]],
            AndOr(x, y, z) => &[&[-o, x], &[-o, y, z], &[o, -x, -y], &[o, -x, -z]],
            AndXor(x, y, z) => &[
                &[-o, x],
                &[-o, y, z],
                &[-o, -y, -z],
                &[o, -x, -y, z],
                &[o, -x, y, -z],
            ],
            Choose(x, y, z) => &[&[o, -x, -y], &[-o, -x, y], &[o, x, -z], &[-o, x, z]],
            Majority(x, y, z) => &[
                &[-o, x, y],
                &[-o, x, z],
                &[-o, y, z],
                &[o, -x, -y],
                &[o, -x, -z],
                &[o, -y, -z],
            ],
            Passing(x, y, z) => &[
                &[-o, x, y, z],
                &[-o, -x, -y],
                &[o, -x, y],
                &[o, x, -y],
                &[o, x, -z],
            ],
        };
        for clause in clauses {
            put(clause);
        }
    }
}

/// Which way a shift moves.
#[derive(Clone, Copy, PartialEq, Eq)]
pub enum Way {
    Up,
    Down,
}

/// Gates in their order, over helpers that are numbered as they are given. Words are literals, lowest bit first.
pub struct Circuit {
    gates: Vec<Gate>,
    next_helper: Literal,
    /// A literal that holds in every text.
    truth: Literal,
}

impl Circuit {
    pub fn new(first_helper: Literal, truth: Literal) -> Circuit {
        Circuit {
            gates: Vec::new(),
            next_helper: first_helper,
            truth,
        }
    }

    /// The gates since they were taken last.
    pub fn take(&mut self) -> impl Iterator<Item = Gate> + '_ {
        self.gates.drain(..)
    }

    /// All variables up to the last helper.
    pub fn variables(&self) -> Literal {
        self.next_helper - 1
    }

    pub fn truth(&self) -> Literal {
        self.truth
    }

    /// The opposite of what holds.
    pub fn none(&self) -> Literal {
        -self.truth
    }

    pub fn give(&mut self, wire: Literal, is: Function) {
        self.gates.push(Gate { wire, is });
    }

    pub fn fix(&mut self, wire: Literal, holds: bool) {
        self.give(if holds { wire } else { -wire }, Fixed);
    }

    pub fn helper(&mut self, is: Function) -> Literal {
        let wire = self.next_helper;
        self.next_helper += 1;
        self.give(wire, is);
        wire
    }

    /// Into own wires, if both operands are words.
    pub fn sum(
        &mut self,
        own: &[Literal],
        both: Literal,
        x: &[Literal],
        y: &[Literal],
        carry: Literal,
    ) {
        let mut carry = carry;
        for ((&own, &x), &y) in own.iter().zip(x).zip(y) {
            let t = self.helper(Xor2(x, y));
            self.give(own, AndXor(both, t, carry));
            carry = self.helper(Choose(t, carry, y));
        }
    }

    /// The bits of the sum and its last carry; of no bits nothing.
    fn addition(&mut self, x: &[Literal], y: &[Literal]) -> Vec<Literal> {
        let mut bits = Vec::with_capacity(x.len() + 1);
        let mut carry = None;
        for (&x, &y) in x.iter().zip(y) {
            let t = self.helper(Xor2(x, y));
            match carry {
                None => {
                    bits.push(t);
                    carry = Some(self.helper(And2(x, y)));
                }
                Some(c) => {
                    bits.push(self.helper(Xor2(t, c)));
                    carry = Some(self.helper(Choose(t, c, y)));
                }
            }
        }
        bits.extend(carry);
        bits
    }

    /// One row of a product.
    fn row(&mut self, y0: Literal, x: &[Literal]) -> Vec<Literal> {
        x.iter().map(|&x| self.helper(And2(y0, x))).collect()
    }

    /// The product of two words, in as many bits as each has.
    fn rows(&mut self, x: &[Literal], y: &[Literal]) -> Vec<Literal> {
        let ([below_top @ .., _], [y0, above_y0 @ ..]) = (x, y) else {
            return Vec::new();
        };
        let above = self.rows(below_top, above_y0);
        let mut bits = self.row(*y0, &x[..1]);
        let row = self.row(*y0, &x[1..]);
        let sum = self.addition(&row, &above);
        bits.extend(&sum[..above.len()]);
        bits
    }

    /// Into own wires, if both operands are words.
    pub fn product(&mut self, own: &[Literal], both: Literal, x: &[Literal], y: &[Literal]) {
        let top = x.len() - 1;
        let above = self.rows(&x[..top], &y[1..]);
        let row = self.row(y[0], &x[1..]);
        self.give(own[0], And3(both, y[0], x[0]));
        self.sum(&own[1..], both, &row, &above, self.none());
    }

    /// Into own wires, if both operands are words.
    pub fn shift(
        &mut self,
        own: &[Literal],
        both: Literal,
        x: &[Literal],
        y: &[Literal],
        way: Way,
    ) {
        let (amount, over) = y.split_at(x.len().ilog2() as usize);
        let within = over
            .iter()
            .fold(both, |within, &y| self.helper(And2(within, -y)));
        let mut x = x.to_vec();
        for (i, &y) in amount.iter().enumerate() {
            let next = |j| self.helper(Choose(y, self.moved(&x, way, 1 << i, j), x[j]));
            x = (0..x.len()).map(next).collect();
        }
        for (&own, x) in own.iter().zip(x) {
            self.give(own, And2(within, x));
        }
    }

    /// What stands at a bit of a word once it is moved by so many.
    pub fn moved(&self, x: &[Literal], way: Way, amount: usize, bit: usize) -> Literal {
        let from = match way {
            Way::Up => bit.checked_sub(amount),
            Way::Down => bit.checked_add(amount),
        };
        let at = from.and_then(|from| x.get(from));
        at.copied().unwrap_or(self.none())
    }

    /// How many of the bits hold; there are as many as some power of two.
    pub fn count(&mut self, bits: &[Literal]) -> Vec<Literal> {
        if let [bit] = bits {
            return vec![*bit];
        }
        let (lower, upper) = bits.split_at(bits.len() / 2);
        let lower = self.count(lower);
        let upper = self.count(upper);
        self.addition(&lower, &upper)
    }

    /// For each bit whether it and all above it are zero.
    pub fn leading(&mut self, x: &[Literal]) -> Vec<Literal> {
        let mut zeros = x.to_vec();
        let mut above = self.truth;
        for zero in zeros.iter_mut().rev() {
            above = self.helper(And2(above, -*zero));
            *zero = above;
        }
        zeros
    }

    /// The last carry of x and the opposites of y's bits and one: that x is not less than y.
    pub fn not_less(&mut self, x: &[Literal], y: &[Literal]) -> Literal {
        let pairs = x.iter().zip(y);
        pairs.fold(self.truth, |carry, (&x, &y)| {
            self.helper(Majority(x, -y, carry))
        })
    }

    /// Whether both operands are words, and those words equal.
    pub fn equal(&mut self, both: Literal, x: &[Literal], y: &[Literal]) -> Literal {
        let pairs = x.iter().zip(y);
        pairs.fold(both, |equal, (&x, &y)| self.helper(AndXor(equal, x, -y)))
    }
}
