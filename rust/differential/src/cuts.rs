//! Random cuts that are right: others whose sum is a multiple of r at every
//! variable, and the constraint that the sum is when divided by r.

use crate::draft::{constraint_of, Draft};
use crate::grow::{constraint, multiplier, some_constraint};
use crate::linear::{Linear, MAX_COEFFICIENT};
use crate::random::Random;
use reference::build::{opp, Constraint, Line};

/// Literals with multipliers.
pub type Weighted = Vec<(u16, u32)>;

/// The most literals before the last one.
const MAX_OTHERS: usize = 11;
/// A multiplier's limit.
const MAX_MULTIPLIER: u32 = 1_000_000;

/// A cut, its constraints in the draft.
pub fn cut(random: &mut Random, draft: &mut Draft) -> Option<Line> {
    let r = divisor(random);
    let mut others = match random.below(10) {
        0 => Vec::new(),
        1 => itself(random, draft, r)?,
        _ => others(random, draft, r)?,
    };
    random.shuffle(&mut others);
    let last = quotient(draft, r, &others).or_else(|| {
        others = opposed(random, draft)?;
        quotient(draft, r, &others)
    })?;
    others.push((last, 0));
    Some(Line::cut(r, &others))
}

/// The arithmetic line with a cut's literals, right where the cut is: it has
/// multiplier r on the last one.
pub fn arithmetic(cut: Line) -> Line {
    let mut line = Line {
        kind: 4,
        r: 0,
        ..cut
    };
    line.multipliers[usize::from(cut.count) - 1] = cut.r.into();
    line
}

/// A divisor: small ones as often as large ones.
fn divisor(random: &mut Random) -> u16 {
    let any = random.within(1, 65_535) as u16;
    random.of([1, 2, 2, 3, 7, 10, 256, 1_000, 65_534, 65_535, any, any])
}

/// The sum of the opposites, times their multipliers.
pub fn sum(constraints: &[Constraint], others: &[(u16, u32)]) -> Option<Linear> {
    others
        .iter()
        .try_fold(Linear::default(), |sum, (l, times)| {
            let on = constraint_of(constraints, *l)?;
            Some(sum.plus_opposite(*times, l & 1 == 1, on))
        })
}

/// The literal that ends the cut by r of these others, if a constraint may
/// say it.
fn quotient(draft: &mut Draft, r: u16, others: &[(u16, u32)]) -> Option<u16> {
    let divided = sum(&draft.constraints, others)?.divided(r)?;
    draft.literal_on(divided.constraint()?)
}

/// Up to eleven literals, drawn some at a time.
fn others(random: &mut Random, draft: &mut Draft, r: u16) -> Option<Weighted> {
    let wanted = random.of([1, 1, 2, 2, 3, 4, 5, 7, 9, 11]);
    let mut others = Vec::new();
    while others.len() < wanted {
        let more = match random.below(5) {
            0 => whole(random, draft, r),
            1 => twice(random, draft, r),
            2 => both_signs(random, draft),
            3 => multiple(random, draft, r),
            _ => bound_alone(random, draft, r),
        }?;
        if others.len() + more.len() > MAX_OTHERS {
            break;
        }
        others.extend(more);
    }
    Some(others)
}

/// A literal r times, or a few times r.
fn whole(random: &mut Random, draft: &mut Draft, r: u16) -> Option<Weighted> {
    let most = (MAX_MULTIPLIER / u32::from(r)).min(3);
    let times = random.within(1, most as usize) as u32;
    Some(vec![(
        some_constraint(random, draft)?,
        u32::from(r) * times,
    )])
}

/// A literal twice, together r times.
fn twice(random: &mut Random, draft: &mut Draft, r: u16) -> Option<Weighted> {
    if r == 1 {
        return whole(random, draft, r);
    }
    let literal = some_constraint(random, draft)?;
    let first = random.within(1, usize::from(r) - 1) as u32;
    Some(vec![(literal, first), (literal, u32::from(r) - first)])
}

/// A literal and its opposite, equally often.
fn both_signs(random: &mut Random, draft: &mut Draft) -> Option<Weighted> {
    let (literal, times) = (some_constraint(random, draft)?, multiplier(random));
    Some(vec![(literal, times), (opp(literal), times)])
}

/// A literal on r times a constraint, but for its bound, a few times.
fn multiple(random: &mut Random, draft: &mut Draft, r: u16) -> Option<Weighted> {
    let mut sum = Linear::of(&constraint(random, draft));
    let most = MAX_COEFFICIENT / i128::from(r);
    for coefficient in sum.terms.values_mut() {
        *coefficient = (*coefficient).clamp(-most, most) * i128::from(r);
    }
    sum.bound += random.of([0, 1, -1, 1_000, -1_000]);
    let literal = draft.literal_on(sum.constraint()?)?;
    let sign = u16::from(random.byte() & 1);
    Some(vec![(literal | sign, random.of([1, 1, 1, 2, 3]))])
}

/// A literal on a constraint without terms, below or above r.
fn bound_alone(random: &mut Random, draft: &mut Draft, r: u16) -> Option<Weighted> {
    let near = random.within(0, 2 * usize::from(r)) as i64 - i64::from(r);
    let bound = random.of([near, near, 0, 1, -1]);
    let literal = draft.literal_on(Constraint::new(&[], bound))?;
    let sign = u16::from(random.byte() & 1);
    Some(vec![(literal | sign, random.of([1, 1, 1, 2, 1_000_000]))])
}

/// A constraint r times, and at times less than r at its bound: the last
/// constraint is the same.
fn itself(random: &mut Random, draft: &mut Draft, r: u16) -> Option<Weighted> {
    let literal = some_constraint(random, draft)? | 1;
    let mut others = vec![(literal, u32::from(r))];
    if random.once_in(2) {
        let less = random.below(r.into()) as i64;
        let more = draft.literal_on(Constraint::new(&[], less))?;
        others.push((opp(more), 1));
    }
    Some(others)
}

/// One to five literals and their opposites: their sum is 0 at each variable.
fn opposed(random: &mut Random, draft: &mut Draft) -> Option<Weighted> {
    let mut others = Vec::new();
    for _ in 0..random.within(1, 5) {
        others.extend(both_signs(random, draft)?);
    }
    random.shuffle(&mut others);
    Some(others)
}
