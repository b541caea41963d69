//! Random lines that are right: equations of every operator, part and offset,
//! property lines, joins of lines that clash, arithmetic whose last
//! constraint is made to fit, and cuts. A certificate so grown passes to its
//! last line.

use crate::cuts;
use crate::draft::Draft;
use crate::linear::Linear;
use crate::nodes;
use crate::random::Random;
use reference::build::proof::resolvent;
use reference::build::{lit, on, opp, Constraint, Line, BOOL, INT};

/// How often each kind of line is drawn.
#[derive(Clone, Copy, Debug)]
pub struct Mix {
    /// Equations.
    pub equations: usize,
    /// Joins.
    pub joins: usize,
    /// Arithmetic.
    pub arithmetic: usize,
    /// Cuts.
    pub cuts: usize,
}

impl Mix {
    /// Some of each.
    pub const ALL: Mix = Mix {
        equations: 4,
        joins: 4,
        arithmetic: 2,
        cuts: 2,
    };

    /// Equations, and now and then another.
    pub const EQUATIONS: Mix = Mix {
        equations: 7,
        joins: 1,
        arithmetic: 1,
        cuts: 1,
    };

    /// Cuts, and now and then an equation.
    pub const CUTS: Mix = Mix {
        equations: 1,
        joins: 0,
        arithmetic: 0,
        cuts: 9,
    };
}

/// Adds up to `count` lines to the draft's part.
pub fn grow(random: &mut Random, draft: &mut Draft, mix: Mix, count: usize) {
    for _ in 0..count {
        grow_one(random, draft, mix);
    }
}

fn grow_one(random: &mut Random, draft: &mut Draft, mix: Mix) -> Option<u16> {
    let sums = mix.arithmetic + mix.cuts;
    let drawn = random.below(mix.equations + mix.joins + sums);
    if random.once_in(24) {
        property(random, draft)
    } else if drawn < mix.equations {
        equation(random, draft)
    } else if drawn < mix.equations + mix.joins {
        join(random, draft).or_else(|| equation(random, draft))
    } else if drawn < mix.equations + mix.joins + mix.arithmetic {
        arithmetic(random, draft)
    } else {
        cut(random, draft)
    }
}

fn property(random: &mut Random, draft: &mut Draft) -> Option<u16> {
    let q = match draft.first() {
        0 => 0,
        _ => random.within(0, draft.depth.into()) as u8,
    };
    draft.property(q)
}

/// A clause of some stream; streams and offsets that give none are passed by.
fn equation(random: &mut Random, draft: &mut Draft) -> Option<u16> {
    (0..8).find_map(|_| {
        let p = random.below(draft.node.records.len()) as u16;
        let q = random.within(0, draft.last_offset().into()) as u8;
        let r = random.below(4);
        draft
            .equation(p, q, r)
            .or_else(|| draft.equation(p, q, r % 2))
    })
}

/// A join of two lines that clash, at times with more literals than need be.
fn join(random: &mut Random, draft: &mut Draft) -> Option<u16> {
    let own = draft.lines.len() - draft.first();
    (0..8).find_map(|_| {
        let p = (draft.first() + random.below(own)) as u16;
        if own == 0 {
            return None;
        }
        let r = random.pick(draft.clause(p))?;
        let q = random.pick(draft.holders(opp(r)))?;
        let mut literals = resolvent(draft.clause(p), draft.clause(q), r);
        if random.once_in(6) {
            widen(random, draft, &mut literals);
        }
        let fits = literals.len() <= 12;
        fits.then(|| draft.add(Line::join(p, q, r, &literals)))?
    })
}

/// More literals, some of them twice, in any order.
fn widen(random: &mut Random, draft: &Draft, literals: &mut Vec<u16>) {
    for _ in 0..random.within(1, 4) {
        let again = random.pick(literals).filter(|_| random.once_in(3));
        literals.extend(again.or_else(|| any_literal(random, draft)));
    }
    random.shuffle(literals);
}

/// A literal on some atom, if there is any.
pub fn any_literal(random: &mut Random, draft: &Draft) -> Option<u16> {
    let sign = u16::from(random.byte() & 1);
    let count = draft.constraints.len();
    if count > 0 && random.once_in(2) {
        return Some(on(random.below(count) as u16) | sign);
    }
    let types: Vec<u8> = draft.node.records.iter().map(|r| r.type_byte).collect();
    let stream = random.pick(&nodes::streams(&types, types.len(), BOOL))?;
    let offset = random.within(0, draft.depth.into()) as u16;
    Some(lit(stream, offset) | sign)
}

/// A multiplier: mostly small, at times at its limit.
pub fn multiplier(random: &mut Random) -> u32 {
    random.of([1, 1, 1, 1, 2, 3, 7, 1_000, 999_999, 1_000_000])
}

/// A line of kind 4: some constraints, and one more that makes their sum 0
/// and its bound −1 or a little less.
fn arithmetic(random: &mut Random, draft: &mut Draft) -> Option<u16> {
    let mut weighted = Vec::new();
    let mut sum = Linear::default();
    for _ in 0..random.of([0, 1, 1, 2, 2, 3, 5, 11]) {
        let (literal, times) = (some_constraint(random, draft)?, multiplier(random));
        let constraint = draft.constraint_of(literal)?;
        sum = sum.plus_opposite(times, literal & 1 == 1, constraint);
        weighted.push((literal, times));
    }
    match closing(random, draft, &sum) {
        Some(literal) => weighted.push((literal, 1)),
        None => weighted = tautology(random, draft)?,
    }
    random.shuffle(&mut weighted);
    draft.arithmetic(&weighted)
}

/// The literal that closes a sum, if a constraint may say it.
fn closing(random: &mut Random, draft: &mut Draft, sum: &Linear) -> Option<u16> {
    let target = -1 - random.of([0, 0, 0, 1, 5]);
    if random.once_in(2) {
        let closing = sum.negated(target - sum.bound).constraint()?;
        return Some(opp(draft.literal_on(closing)?));
    }
    let mut closing = sum.clone();
    closing.bound = sum.bound - 1 - target;
    draft.literal_on(closing.constraint()?)
}

/// One to six constraints and their negations, each pair equally often.
fn tautology(random: &mut Random, draft: &mut Draft) -> Option<Vec<(u16, u32)>> {
    let mut weighted = Vec::new();
    for _ in 0..random.within(1, 6) {
        let (literal, times) = (some_constraint(random, draft)?, multiplier(random));
        weighted.extend([(literal, times), (opp(literal), times)]);
    }
    Some(weighted)
}

/// A cut, or at times the arithmetic line that it is like.
fn cut(random: &mut Random, draft: &mut Draft) -> Option<u16> {
    let cut = cuts::cut(random, draft)?;
    draft.add(match random.below(5) {
        0 => cuts::arithmetic(cut),
        _ => cut,
    })
}

/// A literal on a constraint: one that is there, an equal one, or a new one.
pub fn some_constraint(random: &mut Random, draft: &mut Draft) -> Option<u16> {
    let count = draft.constraints.len();
    let known = (count > 0).then(|| random.below(count));
    let sign = u16::from(random.byte() & 1);
    let literal = match (known, random.below(12)) {
        (Some(i), 0) => draft.another(draft.constraints[i]),
        (Some(i), 1..10) => Some(on(i as u16)),
        _ => {
            let fresh = constraint(random, draft);
            draft.literal_on(fresh)
        }
    };
    literal.or(known.map(|i| on(i as u16))).map(|l| l | sign)
}

/// A constraint of 0 to 8 terms over the node's int streams.
pub fn constraint(random: &mut Random, draft: &Draft) -> Constraint {
    let types: Vec<u8> = draft.node.records.iter().map(|r| r.type_byte).collect();
    let ints = nodes::streams(&types, types.len(), INT);
    let bound = random.of([
        0,
        0,
        -1,
        1,
        12,
        99_999_999_999,
        100_000_000_000,
        -100_000_000_000,
    ]);
    let mut sum = Linear::bounded(bound);
    for _ in 0..random.of([0, 1, 1, 2, 2, 3, 8]) {
        if let Some(stream) = random.pick(&ints) {
            let offset = random.within(0, draft.depth.into()) as u8;
            let c = random.of([1, -1, 1, -1, 2, -3, 1_000_000_000, -1_000_000_000]);
            sum.terms.insert((offset, stream), c);
        }
    }
    sum.constraint().unwrap_or_default()
}
