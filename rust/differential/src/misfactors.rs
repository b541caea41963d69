//! Equation lines whose constraint is no multiple of the defined one, and
//! lines of other kinds that take a multiple for the defined one: each way
//! makes of any right equation line one that is refused, or passes it by.

use crate::clauses::{clauses, Item};
use crate::draft::Draft;
use crate::factors::{self, Multiple};
use crate::grow::constraint;
use crate::linear::{Linear, Variable};
use crate::random::Random;
use reference::build::{opp, Constraint, Line};

/// A right equation line with a multiple, by a factor of at least 2, of one
/// of its constraints.
struct Right {
    line: Line,
    /// The place of the multiple.
    at: usize,
    multiple: Multiple,
}

/// Makes a wrong line of a right one; nothing if it can't.
type Spoil = fn(&mut Random, &mut Draft, Right) -> Option<Line>;

/// A way to go wrong.
pub struct Way {
    /// What is off.
    pub name: &'static str,
    /// The number that refuses it.
    pub number: u8,
    spoil: Spoil,
}

impl Way {
    const fn new(name: &'static str, number: u8, spoil: Spoil) -> Self {
        Way {
            name,
            number,
            spoil,
        }
    }
}

/// All ways.
pub const WAYS: [Way; 19] = [
    Way::new("factor 0", 17, |_, d, right| right.by(d, 0)),
    Way::new("factor −1", 17, |_, d, right| right.by(d, -1)),
    Way::new("negative factor", 17, |_, d, right| {
        let factor = right.multiple.factor;
        right.by(d, -factor)
    }),
    Way::new("bound not scaled", 17, bound_left),
    Way::new("bound alone scaled", 17, bound_alone),
    Way::new("bound one up", 17, |_, d, right| moved_bound(d, right, 1)),
    Way::new("bound one down", 17, |_, d, right| {
        moved_bound(d, right, -1)
    }),
    Way::new("bound of another factor", 17, bound_of_another),
    Way::new("coefficient not scaled", 17, coefficient_left),
    Way::new("coefficient of another factor", 17, coefficient_of_another),
    Way::new("coefficient one off", 17, coefficient_one_off),
    Way::new("coefficient left out", 17, coefficient_left_out),
    Way::new("coefficient more", 17, coefficient_more),
    Way::new("variable at another offset", 17, another_offset),
    Way::new("negated", 17, |_, _, right| {
        let mut line = right.line;
        line.literals[right.at] ^= 1;
        Some(line)
    }),
    Way::new("join on the defined one", 19, join_on_defined),
    Way::new("join to the multiple", 19, join_to_multiple),
    Way::new("sum with the defined one", 20, sum_with_defined),
    Way::new("cut to a multiple", 22, cut_to_multiple),
];

/// Adds a line that goes wrong in one way, if the draft has what the way
/// needs.
pub fn spoiled(random: &mut Random, draft: &mut Draft, way: &Way) -> Option<u16> {
    (0..64).find_map(|_| {
        let right = right(random, draft)?;
        let line = (way.spoil)(random, draft, right)?;
        draft.add(line)
    })
}

/// Adds a line that goes wrong in some way.
pub fn misfactor(random: &mut Random, draft: &mut Draft) -> Option<u16> {
    let way = &WAYS[random.below(WAYS.len())];
    spoiled(random, draft, way)
}

/// A clause with a constraint of some stream, written with a multiple of it.
fn right(random: &mut Random, draft: &mut Draft) -> Option<Right> {
    let p = random.below(draft.node.records.len()) as u16;
    let q = random.within(0, draft.last_offset().into()) as u8;
    let listed = clauses(&draft.node.records, draft.part(), p, q);
    let r = random.below(listed.len());
    let clause = listed.get(r)?;
    let places = (0..clause.len()).filter(|i| matches!(clause[*i], Item::AtMost(_)));
    let at = random.pick(&places.collect::<Vec<_>>())?;
    let (mut literals, mut multiple) = (Vec::new(), None);
    for (i, item) in clause.iter().enumerate() {
        literals.push(match item {
            Item::Literal(literal) => *literal,
            Item::AtMost(defined) if i == at => {
                let factor = factors::factor(random, defined)?;
                let written = Multiple::new(draft, *defined, factor)?;
                multiple.insert(written).literal
            }
            Item::AtMost(defined) => draft.literal_on(*defined)?,
        });
    }
    Some(Right {
        line: Line::equation(p, q.into(), r as u16, &literals),
        at,
        multiple: multiple?,
    })
}

impl Right {
    /// What is defined.
    fn defined(&self) -> Linear {
        Linear::of(&self.multiple.defined)
    }

    /// What is written, which is right.
    fn written(&self) -> Linear {
        Linear::of(&self.multiple.defined.times(self.multiple.factor))
    }

    /// Whether the defined constraint has terms.
    fn has_terms(&self) -> bool {
        self.multiple.defined.count > 0
    }

    /// Whether two numbers of the defined constraint are not 0: a single one
    /// can be off and be right by another factor.
    fn has_two(&self) -> bool {
        self.defined().used().count() + usize::from(self.multiple.defined.bound != 0) > 1
    }

    /// The line with something else for the multiple.
    fn with(self, draft: &mut Draft, sum: &Linear) -> Option<Line> {
        let mut line = self.line;
        line.literals[self.at] = draft.literal_on(sum.constraint()?)?;
        Some(line)
    }

    /// The line with another multiple.
    fn by(self, draft: &mut Draft, factor: i64) -> Option<Line> {
        let sum = Linear::default().plus_all(factor.into(), &self.multiple.defined);
        self.with(draft, &sum)
    }

    /// A variable of the constraint, if it has one.
    fn variable(&self, random: &mut Random) -> Option<Variable> {
        let variables: Vec<Variable> = self.defined().used().map(|(v, _)| v).collect();
        random.pick(&variables)
    }

    /// The line with the multiple's coefficient set at one variable.
    fn with_coefficient(
        self,
        draft: &mut Draft,
        variable: Variable,
        coefficient: i128,
    ) -> Option<Line> {
        let mut sum = self.written();
        sum.terms.insert(variable, coefficient);
        self.with(draft, &sum)
    }

    /// The line with the multiple's bound set.
    fn with_bound(self, draft: &mut Draft, bound: i128) -> Option<Line> {
        let mut sum = self.written();
        sum.bound = bound;
        self.with(draft, &sum)
    }
}

/// Whether terms and bound both tell the factor.
fn both_tell(right: &Right) -> bool {
    right.has_terms() && right.multiple.defined.bound != 0
}

fn bound_left(_: &mut Random, draft: &mut Draft, right: Right) -> Option<Line> {
    let own = right.defined().bound;
    both_tell(&right).then(|| right.with_bound(draft, own))?
}

fn bound_alone(_: &mut Random, draft: &mut Draft, right: Right) -> Option<Line> {
    let mut sum = right.defined();
    sum.bound = right.written().bound;
    both_tell(&right).then(|| right.with(draft, &sum))?
}

/// Without terms another bound may be right too.
fn moved_bound(draft: &mut Draft, right: Right, by: i128) -> Option<Line> {
    let bound = right.written().bound + by;
    right.has_terms().then(|| right.with_bound(draft, bound))?
}

fn bound_of_another(random: &mut Random, draft: &mut Draft, right: Right) -> Option<Line> {
    let own = right.defined().bound;
    let bound = right.written().bound + random.of([own, -own]);
    both_tell(&right).then(|| right.with_bound(draft, bound))?
}

fn coefficient_left(random: &mut Random, draft: &mut Draft, right: Right) -> Option<Line> {
    let variable = right.variable(random)?;
    let own = right.defined().terms[&variable];
    let two = right.has_two();
    two.then(|| right.with_coefficient(draft, variable, own))?
}

fn coefficient_of_another(random: &mut Random, draft: &mut Draft, right: Right) -> Option<Line> {
    let variable = right.variable(random)?;
    let own = right.defined().terms[&variable];
    let other = right.written().terms[&variable] + random.of([own, -own]);
    let two = right.has_two();
    two.then(|| right.with_coefficient(draft, variable, other))?
}

fn coefficient_one_off(random: &mut Random, draft: &mut Draft, right: Right) -> Option<Line> {
    let variable = right.variable(random)?;
    let off = right.written().terms[&variable] + random.of([1, -1]);
    let two = right.has_two();
    two.then(|| right.with_coefficient(draft, variable, off))?
}

fn coefficient_left_out(random: &mut Random, draft: &mut Draft, right: Right) -> Option<Line> {
    let variable = right.variable(random)?;
    right.with_coefficient(draft, variable, 0)
}

/// One more at a variable that the constraint has not.
fn coefficient_more(random: &mut Random, draft: &mut Draft, right: Right) -> Option<Line> {
    let drawn = Linear::of(&constraint(random, draft));
    let (variable, coefficient) = drawn.used().next()?;
    let more = !right.defined().terms.contains_key(&variable);
    more.then(|| right.with_coefficient(draft, variable, coefficient))?
}

fn another_offset(random: &mut Random, draft: &mut Draft, right: Right) -> Option<Line> {
    let (offset, stream) = right.variable(random)?;
    let other = random.within(0, draft.depth.into()) as u8;
    let mut sum = right.written();
    let coefficient = sum.terms.remove(&(offset, stream))?;
    let moved = other != offset && !sum.terms.contains_key(&(other, stream));
    moved.then(|| right.with(draft, &sum.plus(coefficient, (other, stream))))?
}

/// Adds the line that a constraint holds or does not.
fn either(draft: &mut Draft, literal: u16) -> Option<u16> {
    draft.arithmetic(&[(literal, 1), (opp(literal), 1)])
}

/// A join on the defined constraint, where the multiple stands.
fn join_on_defined(random: &mut Random, draft: &mut Draft, right: Right) -> Option<Line> {
    let defined = draft.literal_on(right.multiple.defined)?;
    let unmultiplied = right.line.literals.contains(&defined);
    let equation = draft.add(right.line)?;
    let other = either(draft, random.of([defined, right.multiple.literal]))?;
    let literals = [right.line.clause(), &[defined, opp(right.multiple.literal)]].concat();
    (!unmultiplied).then(|| Line::join(equation, other, defined, &literals))
}

/// A join that keeps the multiple, where the defined constraint stands.
fn join_to_multiple(_: &mut Random, draft: &mut Draft, right: Right) -> Option<Line> {
    let defined = draft.literal_on(right.multiple.defined)?;
    let mut equation = right.line;
    equation.literals[right.at] = defined;
    let equation = draft.add(equation)?;
    let other = either(draft, defined)?;
    let kept = !right.line.clause().contains(&defined);
    kept.then(|| Line::join(equation, other, defined, right.line.clause()))
}

/// The multiple and not the defined one, as if they were one: the terms do
/// not cancel. Or what is one more at the bound than the multiple, as if it
/// were less than a factor more: their bounds add up to 0.
fn sum_with_defined(random: &mut Random, draft: &mut Draft, right: Right) -> Option<Line> {
    let multiple = right.multiple.literal;
    if right.has_terms() && random.once_in(2) {
        let defined = draft.literal_on(right.multiple.defined)?;
        return Some(Line::arithmetic(&[(opp(multiple), 1), (defined, 1)]));
    }
    let mut more = right.written();
    more.bound += 1;
    let more = draft.literal_on(more.constraint()?)?;
    Some(Line::arithmetic(&[(multiple, 1), (opp(more), 1)]))
}

/// A cut by the factor to a multiple of what it gives.
fn cut_to_multiple(random: &mut Random, draft: &mut Draft, right: Right) -> Option<Line> {
    let r = u16::try_from(right.multiple.factor).ok()?;
    let defined: Constraint = right.multiple.defined;
    let other = draft.literal_on(defined.times(factors::factor(random, &defined)?))?;
    Some(Line::cut(
        r,
        &[(opp(right.multiple.literal), 1), (other, 0)],
    ))
}
