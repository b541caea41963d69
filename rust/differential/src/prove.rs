//! Whole refutations of nodes whose property follows by unit steps from
//! constants, the base's first instant, the step's assumptions and that the
//! step begins after the first instant: every operator, both types, every
//! depth. A proof holds only what it needs.

use crate::clauses::{clauses, Item};
use crate::draft::Draft;
use crate::linear::{Linear, Variable, MAX_BOUND};
use reference::build::{lit, opp, Constraint, NodeFile, Record, BOOL};
use reference::certificate::Part;
use std::collections::HashMap;

/// What is known of each stream at each offset of a part.
#[derive(Clone, Debug)]
pub struct Known(Vec<Vec<Option<i128>>>);

impl Known {
    /// What follows in this part; a step may assume a property below its
    /// last offset. Streams are gone through until nothing more follows, since
    /// their records stand in any order.
    pub fn of(node: &NodeFile, part: Part, depth: u8, assumed: Option<u16>) -> Self {
        let mut known = Known(Vec::new());
        for q in 0..=depth {
            let mut row = vec![None; node.records.len()];
            if let Some(p) = assumed.filter(|_| part == Part::Step && q < depth) {
                row[usize::from(p)] = Some(1);
            }
            known.0.push(row);
            while known.has_more(node, part, q) {}
        }
        known
    }

    /// Adds what follows from what is known, and says whether anything did.
    fn has_more(&mut self, node: &NodeFile, part: Part, q: u8) -> bool {
        let mut more = false;
        for (p, record) in node.records.iter().enumerate() {
            if self.0[usize::from(q)][p].is_none() {
                let value = self.follows(record, part, q);
                let kept = value.filter(|value| value.abs() <= MAX_BOUND);
                self.0[usize::from(q)][p] = kept;
                more |= kept.is_some();
            }
        }
        more
    }

    /// The value of a stream at an offset, if it is known.
    pub fn at(&self, (offset, stream): Variable) -> Option<i128> {
        let row = self.0.get(usize::from(offset))?;
        row.get(usize::from(stream)).copied().flatten()
    }

    fn follows(&self, record: &Record, part: Part, q: u8) -> Option<i128> {
        let (a, b) = (self.at((q, record.a)), self.at((q, record.b)));
        let k = i128::from(record.k);
        match record.operator {
            1 => Some(k),
            2 => a.map(|a| 1 - a),
            3 if a == Some(0) || b == Some(0) => Some(0),
            4 if a == Some(1) || b == Some(1) => Some(1),
            3 => Some(a? * b?),
            4 => Some(a?.max(b?)),
            5 | 10 => Some(i128::from(a? == b?)),
            6 => Some(a? + b?),
            7 => Some(a? - b?),
            8 if k.abs() <= 1_000_000 => Some(k * a?),
            9 => Some(i128::from(a? <= b?)),
            11 if self.at((q, record.c))? == 1 => a,
            11 => b,
            12 | 13 if q == 0 && part == Part::Base => a,
            12 => b,
            13 => self.at((q.checked_sub(1)?, record.b)),
            14 => Some(a?.min(b?)),
            15 => Some(a?.max(b?)),
            _ => None,
        }
    }

    /// Whether an item of a clause is known to fail.
    fn fails(&self, item: &Item) -> bool {
        match item {
            Item::Literal(literal) => {
                let variable = ((literal / 128) as u8, literal / 2 % 64);
                self.at(variable) == Some(i128::from(literal & 1))
            }
            Item::AtMost(constraint) => {
                let sum = Linear::of(constraint);
                self.left(&sum).is_some_and(|left| left > sum.bound)
            }
        }
    }

    /// Whether an item of a clause, times the sign, bounds a stream by its
    /// value or closer: not so "lesser of a and b is at most a" where b is the
    /// lesser.
    fn bounds(&self, item: &Item, own: Variable, sign: i128) -> bool {
        let Item::AtMost(constraint) = item else {
            return false;
        };
        let sum = Linear::of(constraint);
        let is_own = sum.terms.get(&own) == Some(&sign);
        is_own && self.left(&sum).is_some_and(|left| left >= sum.bound)
    }

    /// What the terms add up to.
    fn left(&self, sum: &Linear) -> Option<i128> {
        let terms = sum.used().map(|(variable, c)| Some(c * self.at(variable)?));
        terms.sum()
    }
}

/// The bool streams that can be proved so, each as the property.
pub fn provable(node: &NodeFile, depth: u8) -> Vec<u16> {
    let base = Known::of(node, Part::Base, depth, None);
    let numbered = (0u16..).zip(&node.records);
    let bools = numbered.filter(|(_, record)| record.type_byte == BOOL);
    let based = bools.filter(|(p, _)| (0..=depth).all(|q| base.at((q, *p)) == Some(1)));
    let stepped = based.filter(|(p, _)| {
        let step = Known::of(node, Part::Step, depth, Some(*p));
        step.at((depth, *p)) == Some(1)
    });
    stepped.map(|(p, _)| p).collect()
}

/// What a line of one literal says.
#[derive(Clone, Copy, PartialEq, Eq, Hash)]
enum Unit {
    /// A bool stream has its value.
    Is(Variable),
    /// An int stream is at most its value.
    Under(Variable),
    /// An int stream is at least its value.
    Over(Variable),
}

/// A part's refutation being written.
struct Prover<'d, 'n> {
    draft: &'d mut Draft<'n>,
    known: Known,
    units: HashMap<Unit, u16>,
}

/// Adds the lines that refute the draft's part; nothing if there is no room
/// or the property does not follow.
pub fn refute(draft: &mut Draft) -> Option<()> {
    let (part, depth, property) = (draft.part(), draft.depth, draft.node.property);
    let known = Known::of(draft.node, part, depth, Some(property));
    let offsets = draft.shown();
    let mut left = draft.fails()?;
    let units = HashMap::new();
    let mut prover = Prover {
        draft,
        known,
        units,
    };
    for q in offsets {
        let holds = prover.unit(Unit::Is((q, property)))?;
        let literal = opp(lit(property, q.into()));
        left = prover.draft.strike(left, literal, holds)?;
    }
    Some(())
}

impl Prover<'_, '_> {
    /// The line of this unit, written if it is not there yet.
    fn unit(&mut self, unit: Unit) -> Option<u16> {
        if let Some(line) = self.units.get(&unit) {
            return Some(*line);
        }
        let line = match unit {
            Unit::Is(variable) => self.assumed(variable).or_else(|| self.is(variable)),
            Unit::Under(variable) => self.bounded(unit, variable, 1),
            Unit::Over(variable) => self.bounded(unit, variable, -1),
        }?;
        self.units.insert(unit, line);
        Some(line)
    }

    /// The step's assumption of its property.
    fn assumed(&mut self, (q, p): Variable) -> Option<u16> {
        let draft = &mut self.draft;
        let assumed = draft.part() == Part::Step && q < draft.depth && p == draft.node.property;
        assumed.then(|| draft.property(q))?
    }

    /// A bool stream's value: a clause whose other items fail.
    fn is(&mut self, (q, p): Variable) -> Option<u16> {
        let negated = u16::from(self.known.at((q, p))? == 0);
        let wanted = Item::Literal(lit(p, q.into()) | negated);
        let listed = clauses(&self.draft.node.records, self.draft.part(), p, q);
        let others_fail = |c: &Vec<Item>| {
            c.contains(&wanted) && c.iter().all(|i| *i == wanted || self.known.fails(i))
        };
        let r = listed.iter().position(others_fail)?;
        let line = self.draft.equation(p, q, r)?;
        self.without(line, listed[r].iter().filter(|item| **item != wanted))
    }

    /// The line without items that fail.
    fn without<'i>(&mut self, mut line: u16, items: impl Iterator<Item = &'i Item>) -> Option<u16> {
        for item in items {
            line = match item {
                Item::Literal(literal) if !self.draft.clause(line).contains(literal) => line,
                Item::Literal(literal) => {
                    let variable = ((literal / 128) as u8, literal / 2 % 64);
                    let fails = self.unit(Unit::Is(variable))?;
                    self.draft.strike(line, *literal, fails)?
                }
                Item::AtMost(constraint) => self.without_constraint(line, constraint)?,
            };
        }
        Some(line)
    }

    /// The line without a constraint that the bounds of its variables make
    /// fail.
    fn without_constraint(&mut self, line: u16, constraint: &Constraint) -> Option<u16> {
        let literal = self.draft.literal_on(*constraint)?;
        if !self.draft.clause(line).contains(&literal) {
            return Some(line);
        }
        let units = self.supports(constraint, None);
        let clash = self.combine(vec![(opp(literal), 1)], &units)?;
        let line = self.draft.strike(line, literal, clash)?;
        self.discharge(line, &units)
    }

    /// The bounds that cancel a constraint's variables, with multipliers.
    fn supports(&self, constraint: &Constraint, but: Option<Variable>) -> Vec<(Unit, u32)> {
        let sum = Linear::of(constraint);
        let others = sum.used().filter(|(variable, _)| Some(*variable) != but);
        let support = |(variable, c): (Variable, i128)| match c > 0 {
            true => (Unit::Over(variable), c as u32),
            false => (Unit::Under(variable), (-c) as u32),
        };
        others.map(support).collect()
    }

    /// A line of kind 4: these literals, and not these bounds.
    fn combine(&mut self, mut weighted: Vec<(u16, u32)>, units: &[(Unit, u32)]) -> Option<u16> {
        for (unit, times) in units {
            weighted.push((opp(self.literal(*unit)?), *times));
        }
        self.draft.arithmetic(&weighted)
    }

    /// The line without the negations of these bounds.
    fn discharge(&mut self, mut line: u16, units: &[(Unit, u32)]) -> Option<u16> {
        for (unit, _) in units {
            let holds = self.unit(*unit)?;
            let literal = opp(self.literal(*unit)?);
            line = self.draft.strike(line, literal, holds)?;
        }
        Some(line)
    }

    /// The literal of a bound.
    fn literal(&mut self, unit: Unit) -> Option<u16> {
        let (sign, variable) = match unit {
            Unit::Is((q, p)) => return Some(lit(p, q.into())),
            Unit::Under(variable) => (1, variable),
            Unit::Over(variable) => (-1, variable),
        };
        let bound = sign * self.known.at(variable)?;
        let constraint = Linear::bounded(bound).plus(sign, variable).constraint()?;
        self.draft.literal_on(constraint)
    }

    /// An int stream's bound: a clause whose bool literals fail and whose
    /// constraints, one or two, bound the stream.
    fn bounded(&mut self, unit: Unit, own: Variable, sign: i128) -> Option<u16> {
        let (q, p) = own;
        let listed = clauses(&self.draft.node.records, self.draft.part(), p, q);
        let fits = |c: &Vec<Item>| {
            c.iter().all(|i| match i {
                Item::Literal(_) => self.known.fails(i),
                Item::AtMost(_) => self.known.bounds(i, own, sign),
            })
        };
        let r = listed.iter().position(fits)?;
        let mut line = self.draft.equation(p, q, r)?;
        let mut constraints = Vec::new();
        for item in &listed[r] {
            match item {
                Item::Literal(_) => line = self.without(line, [item].into_iter())?,
                Item::AtMost(constraint) => constraints.push(constraint),
            }
        }
        for constraint in constraints {
            line = self.with_bound(line, unit, own, constraint)?;
        }
        Some(line)
    }

    /// The line with a stream's bound for a constraint that it follows from.
    fn with_bound(
        &mut self,
        line: u16,
        unit: Unit,
        own: Variable,
        constraint: &Constraint,
    ) -> Option<u16> {
        let (literal, wanted) = (self.draft.literal_on(*constraint)?, self.literal(unit)?);
        if literal == wanted || !self.draft.clause(line).contains(&literal) {
            return Some(line);
        }
        let units = self.supports(constraint, Some(own));
        let clash = self.combine(vec![(wanted, 1), (opp(literal), 1)], &units)?;
        let line = self.draft.strike(line, literal, clash)?;
        self.discharge(line, &units)
    }
}
