//! Sums of coefficient times variable, and the constraints they make.

use reference::build::Constraint;
use std::collections::BTreeMap;

/// A stream at an offset, in 01's order: offset, then stream.
pub type Variable = (u8, u16);

/// A bound's limit, 100,000,000,000.
pub const MAX_BOUND: i128 = 100_000_000_000;
/// A coefficient's limit, 1,000,000,000.
pub const MAX_COEFFICIENT: i128 = 1_000_000_000;

/// "Sum at most bound", with numbers of any size.
#[derive(Clone, Debug, Default, PartialEq, Eq)]
pub struct Linear {
    /// The coefficient of each variable; 0 where there is none.
    pub terms: BTreeMap<Variable, i128>,
    /// The bound.
    pub bound: i128,
}

impl Linear {
    /// "0 at most `bound`", to which terms are added.
    pub fn bounded(bound: i128) -> Self {
        Linear {
            terms: BTreeMap::new(),
            bound,
        }
    }

    /// The content of a constraint.
    pub fn of(constraint: &Constraint) -> Self {
        Linear::default().plus_all(1, constraint)
    }

    /// With one more term; equal variables are summed.
    pub fn plus(mut self, coefficient: i128, variable: Variable) -> Self {
        *self.terms.entry(variable).or_default() += coefficient;
        self
    }

    /// With a multiple of a constraint.
    pub fn plus_all(mut self, factor: i128, constraint: &Constraint) -> Self {
        self.bound += factor * i128::from(constraint.bound);
        let used = &constraint.terms[..usize::from(constraint.count)];
        used.iter().fold(self, |sum, term| {
            let variable = (term.offset, term.stream);
            sum.plus(factor * i128::from(term.coefficient), variable)
        })
    }

    /// With a multiple of a literal's opposite, where the literal is on this
    /// constraint. 01: "The negation of “sum at most B” is “minus sum at most
    /// −B − 1”."
    pub fn plus_opposite(self, multiplier: u32, negated: bool, on: &Constraint) -> Self {
        let factor = i128::from(multiplier);
        if negated {
            return self.plus_all(factor, on);
        }
        let mut sum = self.plus_all(-factor, on);
        sum.bound -= factor;
        sum
    }

    /// Minus the sum, with a bound.
    pub fn negated(&self, bound: i128) -> Self {
        let terms = self.terms.iter().map(|(variable, c)| (*variable, -c));
        Linear {
            terms: terms.collect(),
            bound,
        }
    }

    /// The sum divided by r, its bound rounded toward minus infinity, if r
    /// divides each coefficient.
    pub fn divided(&self, r: u16) -> Option<Self> {
        let r = i128::from(r);
        let divide = |(variable, c): (Variable, i128)| (c % r == 0).then_some((variable, c / r));
        Some(Linear {
            terms: self.used().map(divide).collect::<Option<_>>()?,
            bound: self.bound.div_euclid(r),
        })
    }

    /// The terms that are not zero.
    pub fn used(&self) -> impl Iterator<Item = (Variable, i128)> + '_ {
        let terms = self.terms.iter().map(|(variable, c)| (*variable, *c));
        terms.filter(|(_, coefficient)| *coefficient != 0)
    }

    /// The constraint with this content, if one may say it.
    pub fn constraint(&self) -> Option<Constraint> {
        let fits = self.used().count() <= 8
            && self.bound.abs() <= MAX_BOUND
            && self.used().all(|(_, c)| c.abs() <= MAX_COEFFICIENT);
        fits.then(|| {
            let terms: Vec<_> = self.used().map(|((o, s), c)| (s, o, c as i32)).collect();
            Constraint::new(&terms, self.bound as i64)
        })
    }
}
