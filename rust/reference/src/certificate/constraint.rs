//! Constraints, "sum of coefficient times value is at most bound": those of
//! the file, refusal 15, and those an equation's clauses call for.

use super::literal::at;
use super::BLOCK;
use crate::answer::{Place, Refusal};
use crate::node::{Node, Type};

/// 01: "term count (0 to 8)".
const MAX_TERMS: usize = 8;
/// 01: "i64 bound (within ±100,000,000,000)".
const MAX_BOUND: u64 = 100_000_000_000;
/// 01: "non-zero coefficients within ±1,000,000,000".
const MAX_COEFFICIENT: u32 = 1_000_000_000;

/// A coefficient times an int stream's value at an offset.
#[derive(Clone, Copy, Debug, PartialEq, Eq)]
pub struct Term {
    /// 64·offset + stream.
    pub variable: u16,
    /// The coefficient.
    pub coefficient: i64,
}

impl Term {
    const ZERO: Term = Term {
        variable: 0,
        coefficient: 0,
    };

    /// The variable itself.
    const fn of(variable: u16) -> Self {
        Term::ZERO.with(variable, 1)
    }

    const fn with(self, variable: u16, coefficient: i64) -> Self {
        Term {
            variable,
            coefficient,
        }
    }

    const fn negated(self) -> Self {
        self.with(self.variable, -self.coefficient)
    }
}

/// A constraint. Its terms rise strictly by variable and none is zero, so
/// that constraints of the same content have the same terms in the same order.
#[derive(Clone, Copy, Debug)]
pub struct Constraint {
    terms: [Term; MAX_TERMS],
    count: usize,
    bound: i64,
}

impl Constraint {
    /// "0 at most `bound`", to which terms are added.
    const fn empty(bound: i64) -> Self {
        Constraint {
            terms: [Term::ZERO; MAX_TERMS],
            count: 0,
            bound,
        }
    }

    /// The terms.
    pub fn terms(&self) -> &[Term] {
        &self.terms[..self.count]
    }

    /// The bound.
    pub fn bound(&self) -> i64 {
        self.bound
    }

    /// Reads all constraints, or refuses the lowest against a rule by 15.
    pub fn read_all(
        node: &Node,
        depth: u8,
        blocks: &[[u8; BLOCK]],
    ) -> Result<Vec<Constraint>, Refusal> {
        let mut constraints = Vec::with_capacity(blocks.len());
        for (i, block) in blocks.iter().enumerate() {
            let constraint = Constraint::read(node, depth, block);
            constraints.push(constraint.ok_or(Refusal::new(15, Place::Constraint(i)))?);
        }
        Ok(constraints)
    }

    /// 01: "term count (0 to 8), seven zero bytes, i64 bound (within
    /// ±100,000,000,000), eight terms"; "Used terms name int streams, rise
    /// strictly by offset and then stream"; "Unused terms are zero."
    fn read(node: &Node, depth: u8, block: &[u8; BLOCK]) -> Option<Self> {
        let [count, 0, 0, 0, 0, 0, 0, 0, b0, b1, b2, b3, b4, b5, b6, b7, terms @ ..] = block else {
            return None;
        };
        let bound = i64::from_le_bytes([*b0, *b1, *b2, *b3, *b4, *b5, *b6, *b7]);
        let (used, unused) = terms.as_chunks().0.split_at_checked(usize::from(*count))?;
        if bound.unsigned_abs() > MAX_BOUND || unused.iter().any(|term| *term != [0; 8]) {
            return None;
        }
        let mut constraint = Constraint::empty(bound);
        for (slot, bytes) in constraint.terms.iter_mut().zip(used) {
            *slot = read_term(node, depth, bytes)?;
        }
        constraint.count = used.len();
        let rises = |pair: &[Term]| pair[0].variable < pair[1].variable;
        constraint
            .terms()
            .windows(2)
            .all(rises)
            .then_some(constraint)
    }
}

/// 01: "u16 stream, u8 offset (0 to k), zero byte, i32 coefficient", the
/// stream an int one, the coefficient "non-zero" and "within
/// ±1,000,000,000".
fn read_term(node: &Node, depth: u8, bytes: &[u8; 8]) -> Option<Term> {
    let [s0, s1, offset, 0, coefficient @ ..] = *bytes else {
        return None;
    };
    let stream = u16::from_le_bytes([s0, s1]);
    let coefficient = i32::from_le_bytes(coefficient);
    let right = node.type_of(stream) == Some(Type::Int)
        && offset <= depth
        && coefficient != 0
        && coefficient.unsigned_abs() <= MAX_COEFFICIENT;
    right.then(|| Term {
        variable: at(s0, offset),
        coefficient: i64::from(coefficient),
    })
}

/// One side of "x ≤ y": up to two terms and a constant.
#[derive(Clone, Copy, Debug)]
pub struct Side {
    terms: [Term; 2],
    constant: i64,
}

impl Side {
    const fn new(first: Term, second: Term, constant: i64) -> Self {
        let terms = [first, second];
        Side { terms, constant }
    }

    /// A variable.
    pub const fn variable(x: u16) -> Self {
        Side::new(Term::of(x), Term::ZERO, 0)
    }

    /// K.
    pub fn constant(k: i32) -> Self {
        Side::new(Term::ZERO, Term::ZERO, i64::from(k))
    }

    /// a + b.
    pub const fn sum(a: u16, b: u16) -> Self {
        Side::new(Term::of(a), Term::of(b), 0)
    }

    /// a − b.
    pub const fn difference(a: u16, b: u16) -> Self {
        Side::new(Term::of(a), Term::of(b).negated(), 0)
    }

    /// K·a.
    pub fn multiple(k: i32, a: u16) -> Self {
        Side::new(Term::ZERO.with(a, i64::from(k)), Term::ZERO, 0)
    }

    /// 01: "“x ≤ y” is the constraint x − y at most 0, equal variables
    /// summed, zeros dropped"; "constants go to the bound".
    pub fn at_most(self, y: Side) -> Constraint {
        self.minus(y, 0)
    }

    /// 01: "“x < y” has bound −1".
    pub fn below(self, y: Side) -> Constraint {
        self.minus(y, -1)
    }

    /// "x − y at most `bound`". Four terms and a bound of a few constants:
    /// there is room for them, and their sums are far from overflow.
    fn minus(self, y: Side, bound: i64) -> Constraint {
        let [first, second] = self.terms;
        let [third, fourth] = y.terms.map(Term::negated);
        let mut terms = [first, second, third, fourth];
        terms.sort_unstable_by_key(|term| term.variable);
        let mut constraint = Constraint::empty(bound - self.constant + y.constant);
        for run in terms.chunk_by(|left, right| left.variable == right.variable) {
            let coefficient: i64 = run.iter().map(|term| term.coefficient).sum();
            if coefficient != 0 {
                constraint.terms[constraint.count] = run[0].with(run[0].variable, coefficient);
                constraint.count += 1;
            }
        }
        constraint
    }
}
