//! The lines: refusals 16 to 20 and 22.

mod arithmetic;

use super::constraint::Constraint;
use super::equation::{self, Item};
use super::layout::Layout;
use super::literal::{Atom, Literal};
use super::{Part, BLOCK, MAX_DEPTH};
use crate::answer::{Place, Refusal};
use crate::node::{Node, Type, MAX_STREAMS};
use std::ops::Range;

/// 01: "literal count byte (0 to 12)".
const MAX_LITERALS: usize = 12;
/// The largest multiplier.
const MAX_MULTIPLIER: u32 = 1_000_000;
/// One number for each stream at each offset.
const VARIABLES: usize = MAX_STREAMS * (MAX_DEPTH as usize + 1);

/// A line's kind. 01: "Kinds: 1. Equation", "2. Property", "3. Join",
/// "4. Arithmetic"; 02's kind 5 is a cut.
#[derive(Clone, Copy, Debug, PartialEq, Eq)]
enum Kind {
    Equation,
    Property,
    Join,
    Arithmetic,
    Cut,
}

impl Kind {
    fn decode(byte: u8) -> Option<Self> {
        match byte {
            1 => Some(Kind::Equation),
            2 => Some(Kind::Property),
            3 => Some(Kind::Join),
            4 => Some(Kind::Arithmetic),
            5 => Some(Kind::Cut),
            _ => None,
        }
    }

    /// The number of a line of this kind "not as above".
    fn refusal(self) -> u8 {
        match self {
            Kind::Equation => 17,
            Kind::Property => 18,
            Kind::Join => 19,
            Kind::Arithmetic => 20,
            Kind::Cut => 22,
        }
    }
}

/// The literals of a line, a clause.
#[derive(Clone, Copy, Debug)]
pub struct Clause {
    literals: [Literal; MAX_LITERALS],
    /// At most twelve.
    count: usize,
}

impl Clause {
    /// The literals that a line lists, whatever else it holds. A line that no
    /// turn has checked may count more than there is room for: it lists twelve.
    pub fn decode(block: &[u8; BLOCK]) -> Self {
        let [_, count, _, _, _, _, _, _, rest @ ..] = block;
        let mut clause = Clause {
            literals: [Literal::from_number(0); MAX_LITERALS],
            count: usize::from(*count).min(MAX_LITERALS),
        };
        for (slot, bytes) in clause.literals.iter_mut().zip(rest.as_chunks().0) {
            *slot = Literal::from_number(u16::from_le_bytes(*bytes));
        }
        clause
    }

    /// Whether there are no literals.
    pub fn is_empty(&self) -> bool {
        self.count == 0
    }

    fn literals(&self) -> &[Literal] {
        &self.literals[..self.count]
    }

    fn contains(&self, literal: Literal) -> bool {
        self.literals().contains(&literal)
    }

    /// Whether each literal of `self` but `struck` stands in `other`.
    fn stands_in(&self, other: &Clause, struck: Literal) -> bool {
        let mut kept = self.literals().iter().filter(|literal| **literal != struck);
        kept.all(|literal| other.contains(*literal))
    }
}

/// 01: "kind byte, literal count byte (0 to 12), u16 p, q, r, twelve u16
/// literals, twelve u32 multipliers".
#[derive(Clone, Copy, Debug)]
struct Line {
    kind: Kind,
    p: u16,
    q: u16,
    r: u16,
    clause: Clause,
    multipliers: [u32; MAX_LITERALS],
}

impl Line {
    /// The line, or nothing if its kind, its count, a multiplier or an unused
    /// field is against refusal 16.
    fn decode(block: &[u8; BLOCK]) -> Option<Self> {
        let [kind, count, p0, p1, q0, q1, r0, r1, rest @ ..] = block;
        if usize::from(*count) > MAX_LITERALS {
            return None;
        }
        let mut line = Line {
            kind: Kind::decode(*kind)?,
            p: u16::from_le_bytes([*p0, *p1]),
            q: u16::from_le_bytes([*q0, *q1]),
            r: u16::from_le_bytes([*r0, *r1]),
            clause: Clause::decode(block),
            multipliers: [0; MAX_LITERALS],
        };
        let multipliers = rest.split_at(2 * MAX_LITERALS).1;
        for (slot, bytes) in line.multipliers.iter_mut().zip(multipliers.as_chunks().0) {
            *slot = u32::from_le_bytes(*bytes);
        }
        line.is_well_formed().then_some(line)
    }

    /// 01: "What its kind and count don't use is zero." Kinds 1 and 3 use p,
    /// q and r, kind 2 uses q, kind 4 the multipliers of its literals, kind 5
    /// those and r. 02: "22, a kind 5 line not as described, multipliers
    /// included", so that 16 limits those of kind 4 alone.
    fn is_well_formed(&self) -> bool {
        let count = self.clause.count;
        let (fields_right, used) = match self.kind {
            Kind::Equation | Kind::Join => (true, 0),
            Kind::Property => (self.p == 0 && self.r == 0, 0),
            Kind::Arithmetic => (self.p == 0 && self.q == 0 && self.r == 0, count),
            Kind::Cut => (self.p == 0 && self.q == 0, count),
        };
        fields_right
            && self.clause.literals[count..]
                .iter()
                .all(|l| l.number() == 0)
            && (self.kind == Kind::Cut || self.multipliers[..used].iter().all(is_multiplier))
            && self.multipliers[used..].iter().all(|m| *m == 0)
    }

    /// The literals with their multipliers.
    fn weighted(&self) -> impl DoubleEndedIterator<Item = Weighted> + '_ {
        let multipliers = self.multipliers[..self.clause.count].iter();
        self.clause
            .literals()
            .iter()
            .copied()
            .zip(multipliers.copied())
    }
}

/// A literal with its multiplier.
type Weighted = (Literal, u32);

/// 01: "multipliers (1 to 1,000,000)".
fn is_multiplier(multiplier: &u32) -> bool {
    (1..=MAX_MULTIPLIER).contains(multiplier)
}

/// The checker of lines, with what the lines speak of.
pub struct Checker<'a> {
    node: &'a Node<'a>,
    layout: &'a Layout<'a>,
    constraints: &'a [Constraint],
    /// The sum of coefficients at each variable, of kinds 4 and 5. It is all
    /// zero between lines: a line that leaves a sum other than 0 is refused, and no line
    /// follows a refused one.
    sums: [i128; VARIABLES],
}

impl<'a> Checker<'a> {
    /// A checker before its first line.
    pub fn new(node: &'a Node<'a>, layout: &'a Layout<'a>, constraints: &'a [Constraint]) -> Self {
        Checker {
            node,
            layout,
            constraints,
            sums: [0; VARIABLES],
        }
    }

    /// Checks these lines of the certificate in order, up to the first that is
    /// refused. 01: "lines are taken one at a time, 16 before its kind's number."
    pub fn check_lines(mut self, numbers: Range<usize>) -> Result<(), Refusal> {
        for number in numbers {
            let refuse = |refusal| Refusal::new(refusal, Place::Line(number));
            let block = &self.layout.lines[number];
            let line = self.read_line(block).ok_or(refuse(16))?;
            if !self.is_justified(&line, number) {
                return Err(refuse(line.kind.refusal()));
            }
        }
        Ok(())
    }

    /// The line, or nothing if it is against refusal 16: "kind, count, listed
    /// literal naming no atom, kind 4 multiplier, unused field not 0".
    fn read_line(&self, block: &[u8; BLOCK]) -> Option<Line> {
        let line = Line::decode(block)?;
        let mut literals = line.clause.literals().iter();
        literals.all(|l| self.names_atom(*l)).then_some(line)
    }

    /// 01: "64·offset + stream for a bool stream at offsets 0 to k; 576 + i
    /// for constraint i".
    fn names_atom(&self, literal: Literal) -> bool {
        match literal.atom() {
            Atom::Constraint(i) => i < self.constraints.len(),
            Atom::Stream { stream, offset } => {
                offset <= u16::from(self.layout.depth)
                    && self.node.type_of(stream) == Some(Type::Bool)
            }
        }
    }

    /// Whether the line of this number is as its kind says.
    fn is_justified(&mut self, line: &Line, number: usize) -> bool {
        let part = self.layout.part_of(number);
        let lower = self.layout.lines_of(part).start..number;
        match line.kind {
            Kind::Equation => self.is_equation(line, part),
            Kind::Property => self.is_property(line, part),
            Kind::Join => self.is_join(line, &lower),
            Kind::Arithmetic => self.is_arithmetic(line),
            Kind::Cut => self.is_cut(line),
        }
    }

    /// Kind 1: "clause r, counted from 0, of stream p at offset q". 01 has
    /// "step: up to k", and 02 "the base covers instants 0 to k".
    ///
    /// "Literals equal the list below in its order, constraints unnegated";
    /// 02 says how these match.
    fn is_equation(&self, line: &Line, part: Part) -> bool {
        let allowed = |q: &u8| *q <= self.layout.depth;
        let Some(offset) = u8::try_from(line.q).ok().filter(allowed) else {
            return false;
        };
        let Some(listed) = equation::clause(self.node, part, line.p, offset, line.r) else {
            return false;
        };
        let literals = line.clause.literals();
        let items = listed.items();
        literals.len() == items.len()
            && literals
                .iter()
                .zip(items)
                .all(|(literal, item)| self.is_item(*literal, item))
    }

    fn is_item(&self, literal: Literal, item: &Item) -> bool {
        match (item, literal.atom()) {
            (Item::Literal(listed), _) => literal == *listed,
            (Item::Constraint(defined), Atom::Constraint(i)) => {
                let written = self.constraints.get(i);
                !literal.is_negated() && written.is_some_and(|w| w.is_multiple_of(defined))
            }
            (Item::Constraint(_), Atom::Stream { .. }) => false,
        }
    }

    /// Kind 2. Base: "q = 0 and not-prop at offsets", "rising", which by 02
    /// are those that the base covers, "0 to k". "Step: prop at q where q is
    /// below k; not-prop where q = k."
    fn is_property(&self, line: &Line, part: Part) -> bool {
        let literals = line.clause.literals();
        let holds = |offset| Literal::stream(self.node.property(), offset);
        match (part, u8::try_from(line.q)) {
            (Part::Base, Ok(0)) => literals
                .iter()
                .copied()
                .eq((0..=self.layout.depth).map(|o| !holds(o))),
            (Part::Step, Ok(q)) if q < self.layout.depth => literals == [holds(q)],
            (Part::Step, Ok(q)) if q == self.layout.depth => literals == [!holds(q)],
            _ => false,
        }
    }

    /// Kind 3: "p and q are lower lines of the same part; literal r stands in
    /// p, its opposite in q. Each literal of p but r, and of q but the
    /// opposite, stands in this line. More may stand here."
    ///
    /// The file is read for them, whether or not they were checked.
    fn is_join(&self, line: &Line, lower: &Range<usize>) -> bool {
        let cited = |number: u16| {
            let number = usize::from(number);
            let stands = lower.contains(&number);
            stands.then(|| Clause::decode(&self.layout.lines[number]))
        };
        let (Some(p), Some(q)) = (cited(line.p), cited(line.q)) else {
            return false;
        };
        let r = Literal::from_number(line.r);
        p.contains(r)
            && q.contains(!r)
            && p.stands_in(&line.clause, r)
            && q.stands_in(&line.clause, !r)
    }
}
