//! Constraints of equation lines multiplied through, and the lines that bring
//! them back to what the clause lists.

use crate::damage::{constraints, lines};
use crate::draft::{constraint_of, Draft};
use crate::linear::{Linear, MAX_BOUND, MAX_COEFFICIENT};
use crate::random::Random;
use reference::build::{opp, Constraint, Line};
use reference::list::fields;

/// A multiplier's limit.
const MAX_MULTIPLIER: i64 = 1_000_000;

/// The largest factor that leaves a constraint within its limits; of "0 at
/// most 0" every multiple is itself, and that is 1.
pub fn largest(defined: &Constraint) -> i64 {
    let sum = Linear::of(defined);
    let most = |limit: i128, number: i128| limit.checked_div(number.abs());
    let terms = sum.used().map(|(_, c)| most(MAX_COEFFICIENT, c));
    let factors = terms.chain([most(MAX_BOUND, sum.bound)]).flatten();
    factors.min().unwrap_or(1) as i64
}

/// A factor of at least 2, if there is one: small ones as often as large ones.
pub fn factor(random: &mut Random, defined: &Constraint) -> Option<i64> {
    let largest = largest(defined);
    let any = random.within(2, 100_000) as i64;
    let drawn = random.of([2, 2, 3, 10, 1_000, 65_535, 1_000_000, any, largest, largest]);
    Some(drawn.min(largest)).filter(|factor| *factor >= 2)
}

/// A defined constraint, and the literal on a multiple of it.
#[derive(Clone, Copy, Debug)]
pub struct Multiple {
    /// What the clause lists.
    pub defined: Constraint,
    /// How many times it is written.
    pub factor: i64,
    /// The literal on what is written.
    pub literal: u16,
}

impl Multiple {
    /// A multiple of a defined constraint, in the draft.
    pub fn new(draft: &mut Draft, defined: Constraint, factor: i64) -> Option<Self> {
        let literal = draft.literal_on(defined.times(factor))?;
        Some(Multiple {
            defined,
            factor,
            literal,
        })
    }

    /// Adds the line with the defined constraint in place of the multiple.
    pub fn struck(&self, draft: &mut Draft, line: u16) -> Option<u16> {
        if self.factor == 1 || !draft.clause(line).contains(&self.literal) {
            return Some(line);
        }
        let back = self.back(draft)?;
        draft.strike(line, self.literal, back)
    }

    /// Adds the line "not the multiple, or the defined one". What is past a
    /// multiplier's limit goes by a smaller multiple.
    fn back(&self, draft: &mut Draft) -> Option<u16> {
        let (multiple, defined) = (opp(self.literal), draft.literal_on(self.defined)?);
        let (quotient, rest) = (self.factor / MAX_MULTIPLIER, self.factor % MAX_MULTIPLIER);
        if quotient == 0 || self.factor == MAX_MULTIPLIER {
            return draft.add(single(multiple, defined, self.factor));
        }
        let smaller = Multiple::new(draft, self.defined, quotient)?;
        let mut weighted = vec![(multiple, 1), (smaller.literal, MAX_MULTIPLIER as u32)];
        if rest > 0 {
            weighted.push((defined, rest as u32));
        }
        let line = draft.arithmetic(&weighted)?;
        smaller.struck(draft, line)
    }
}

/// The same in one line: by a cut where the factor is odd and may be cut by.
fn single(multiple: u16, defined: u16, factor: i64) -> Line {
    match u16::try_from(factor) {
        Ok(r) if r % 2 == 1 => Line::cut(r, &[(multiple, 1), (defined, 0)]),
        _ => Line::arithmetic(&[(multiple, 1), (defined, factor as u32)]),
    }
}

/// The factor of an equation line's constraint: every defined one has 1 or −1
/// among its numbers, or no number but 0.
pub fn factor_of(written: &Constraint) -> i128 {
    let sum = Linear::of(written);
    let numbers = sum.used().map(|(_, c)| c).chain([sum.bound]);
    numbers.fold(0, |a, b| common(a.abs(), b.abs()))
}

/// The greatest common divisor.
fn common(a: i128, b: i128) -> i128 {
    match b {
        0 => a,
        _ => common(b, a % b),
    }
}

/// The constraints of an accepted certificate file's equation lines that are
/// multiplied through, with the lines, and whether each is a step line.
pub fn multiplied(certificate: &[u8]) -> impl Iterator<Item = (bool, Line, Constraint)> + '_ {
    let constraints = constraints(certificate).iter().map(fields::constraint);
    let constraints: Vec<_> = constraints.collect();
    let equations = lines(certificate).filter(|(_, line)| line[0] == 1);
    equations.flat_map(move |(step, line)| {
        let line = fields::line(line);
        let literals = line.clause().iter();
        let written = literals.filter_map(|l| constraint_of(&constraints, *l).copied());
        let multiples = written.filter(|c| factor_of(c) > 1);
        multiples.map(|c| (step, line, c)).collect::<Vec<_>>()
    })
}
