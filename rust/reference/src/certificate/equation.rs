//! The clauses that an operator's equation gives, in 01's order.

use super::constraint::{Constraint, Side};
use super::literal::{at, Literal};
use super::Part;
use crate::node::{Equation, Node, Type};

/// A place in a clause of 01's list.
#[derive(Clone, Copy, Debug)]
pub enum Item {
    /// A literal on a bool stream.
    Literal(Literal),
    /// A constraint, unnegated, or a multiple of it.
    Constraint(Constraint),
}

impl From<Literal> for Item {
    fn from(literal: Literal) -> Self {
        Item::Literal(literal)
    }
}

impl From<Constraint> for Item {
    fn from(constraint: Constraint) -> Self {
        Item::Constraint(constraint)
    }
}

/// A clause of 01's list: one to three items.
#[derive(Clone, Copy, Debug)]
pub enum Clause {
    /// One item.
    One([Item; 1]),
    /// Two items.
    Two([Item; 2]),
    /// Three items.
    Three([Item; 3]),
}

impl Clause {
    /// The items in order.
    pub fn items(&self) -> &[Item] {
        match self {
            Clause::One(items) => items,
            Clause::Two(items) => items,
            Clause::Three(items) => items,
        }
    }
}

fn one(x: impl Into<Item>) -> Option<Clause> {
    Some(Clause::One([x.into()]))
}

fn two(x: impl Into<Item>, y: impl Into<Item>) -> Option<Clause> {
    Some(Clause::Two([x.into(), y.into()]))
}

fn three(x: impl Into<Item>, y: impl Into<Item>, z: impl Into<Item>) -> Option<Clause> {
    Some(Clause::Three([x.into(), y.into(), z.into()]))
}

/// 01: "clause r, counted from 0, of stream p at offset q"; nothing if there
/// is none. That `offset` is one the part allows is for the caller to check.
pub fn clause(node: &Node, part: Part, p: u16, offset: u8, r: u16) -> Option<Clause> {
    let stream = u8::try_from(p).ok()?;
    let equation = *node.equations().get(usize::from(stream))?;
    match (equation, node.type_of(p)?) {
        // 01: "Operator 0 gives none."
        (Equation::Input, _) => None,
        (Equation::AtMost { .. } | Equation::Equal { .. }, _) => {
            comparison_clause(equation, stream, offset, r)
        }
        (_, Type::Bool) => bool_clause(equation, part, stream, offset, r),
        (_, Type::Int) => int_clause(equation, part, stream, offset, r),
    }
}

/// The clauses over bool streams alone: operators 2 to 5, and 1, 11, 12, 13
/// where s is bool.
fn bool_clause(equation: Equation, part: Part, stream: u8, offset: u8, r: u16) -> Option<Clause> {
    let now = |stream| Literal::stream(stream, offset);
    let s = now(stream);
    match equation {
        // 1 bool: s or !s.
        Equation::Constant { k } => match r {
            0 => one(if k == 1 { s } else { !s }),
            _ => None,
        },
        // 2: {s, a} {!s, !a}.
        Equation::Not { a } => match r {
            0 => two(s, now(a)),
            1 => two(!s, !now(a)),
            _ => None,
        },
        // 3: {!s, a} {!s, b} {s, !a, !b}.
        Equation::And { a, b } => match r {
            0 => two(!s, now(a)),
            1 => two(!s, now(b)),
            2 => three(s, !now(a), !now(b)),
            _ => None,
        },
        // 4: {s, !a} {s, !b} {!s, a, b}.
        Equation::Or { a, b } => match r {
            0 => two(s, !now(a)),
            1 => two(s, !now(b)),
            2 => three(!s, now(a), now(b)),
            _ => None,
        },
        // 5: {!s, !a, b} {!s, a, !b} {s, a, b} {s, !a, !b}.
        Equation::Same { a, b } => match r {
            0 => three(!s, !now(a), now(b)),
            1 => three(!s, now(a), !now(b)),
            2 => three(s, now(a), now(b)),
            3 => three(s, !now(a), !now(b)),
            _ => None,
        },
        // 11 bool: {!c, !s, a} {!c, s, !a} {c, !s, b} {c, s, !b}.
        Equation::Choice { a, b, c } => match r {
            0 => three(!now(c), !s, now(a)),
            1 => three(!now(c), s, !now(a)),
            2 => three(now(c), !s, now(b)),
            3 => three(now(c), s, !now(b)),
            _ => None,
        },
        // 12, 13: {!s, t} {s, !t}.
        _ => {
            let (stream, offset) = chosen(equation, part, offset)?;
            let t = Literal::stream(stream, offset);
            match r {
                0 => two(!s, t),
                1 => two(s, !t),
                _ => None,
            }
        }
    }
}

/// The clauses of an int stream s: operators 1, 6, 7, 8 and 11 to 15.
fn int_clause(equation: Equation, part: Part, stream: u8, offset: u8, r: u16) -> Option<Clause> {
    let number = |stream| at(stream, offset);
    let variable = |stream| Side::variable(number(stream));
    let s = variable(stream);
    match equation {
        Equation::Constant { k } => equality(s, Side::constant(k), r),
        Equation::Sum { a, b } => equality(s, Side::sum(number(a), number(b)), r),
        Equation::Difference { a, b } => equality(s, Side::difference(number(a), number(b)), r),
        Equation::Multiple { k, a } => equality(s, Side::multiple(k, number(a)), r),
        Equation::Choice { a, b, c } => {
            let c = Literal::stream(c, offset);
            choice(s, c, variable(a), variable(b), r)
        }
        Equation::Lesser { a, b } => lesser(s, variable(a), variable(b), r),
        Equation::Greater { a, b } => greater(s, variable(a), variable(b), r),
        _ => {
            let (stream, offset) = chosen(equation, part, offset)?;
            equality(s, Side::variable(at(stream, offset)), r)
        }
    }
}

/// 01: "with e the right side: {s ≤ e} {e ≤ s}".
fn equality(s: Side, e: Side, r: u16) -> Option<Clause> {
    match r {
        0 => one(s.at_most(e)),
        1 => one(e.at_most(s)),
        _ => None,
    }
}

/// 11 int: {!c, s ≤ a} {!c, a ≤ s} {c, s ≤ b} {c, b ≤ s}.
fn choice(s: Side, c: Literal, a: Side, b: Side, r: u16) -> Option<Clause> {
    match r {
        0 => two(!c, s.at_most(a)),
        1 => two(!c, a.at_most(s)),
        2 => two(c, s.at_most(b)),
        3 => two(c, b.at_most(s)),
        _ => None,
    }
}

/// 14: {s ≤ a} {s ≤ b} {a ≤ s, b ≤ s}.
fn lesser(s: Side, a: Side, b: Side, r: u16) -> Option<Clause> {
    match r {
        0 => one(s.at_most(a)),
        1 => one(s.at_most(b)),
        2 => two(a.at_most(s), b.at_most(s)),
        _ => None,
    }
}

/// 15, "the mirror": {a ≤ s} {b ≤ s} {s ≤ a, s ≤ b}.
fn greater(s: Side, a: Side, b: Side, r: u16) -> Option<Clause> {
    match r {
        0 => one(a.at_most(s)),
        1 => one(b.at_most(s)),
        2 => two(s.at_most(a), s.at_most(b)),
        _ => None,
    }
}

/// Operators 9 and 10, a bool s over int operands.
fn comparison_clause(equation: Equation, stream: u8, offset: u8, r: u16) -> Option<Clause> {
    let s = Literal::stream(stream, offset);
    let number = |stream| Side::variable(at(stream, offset));
    match equation {
        // 9: {!s, a ≤ b} {s, b < a}.
        Equation::AtMost { a, b } => match r {
            0 => two(!s, number(a).at_most(number(b))),
            1 => two(s, number(b).below(number(a))),
            _ => None,
        },
        // 10: {!s, a ≤ b} {!s, b ≤ a} {s, a < b, b < a}.
        Equation::Equal { a, b } => {
            let [a, b] = [a, b].map(number);
            match r {
                0 => two(!s, a.at_most(b)),
                1 => two(!s, b.at_most(a)),
                2 => three(s, a.below(b), b.below(a)),
                _ => None,
            }
        }
        _ => None,
    }
}

/// 01: "12, 13 with t the operand chosen"; "Base: t is a at offset 0; later b
/// at the same offset (12) or one lower (13)." 02: "operator 12 at step offset
/// 0 takes b. Operator 13 still gives nothing there."
fn chosen(equation: Equation, part: Part, offset: u8) -> Option<(u8, u8)> {
    match (equation, part, offset) {
        (Equation::Arrow { a, .. } | Equation::ArrowPre { a, .. }, Part::Base, 0) => Some((a, 0)),
        (Equation::Arrow { b, .. }, _, _) => Some((b, offset)),
        (Equation::ArrowPre { b, .. }, _, _) => Some((b, offset.checked_sub(1)?)),
        _ => None,
    }
}
