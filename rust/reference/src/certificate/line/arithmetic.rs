//! Sums of the opposites of a line's literals: kind 4, and kind 5, the cut.

use super::{is_multiplier, Checker, Clause, Line, Weighted};
use crate::certificate::constraint::Constraint;
use crate::certificate::literal::{Atom, Literal};

impl<'a> Checker<'a> {
    /// Kind 4: "at least one literal, all on constraints. The opposites,
    /// times their multipliers (1 to 1,000,000), sum to coefficient 0 at each
    /// variable and to a bound of at most −1."
    pub(super) fn is_arithmetic(&mut self, line: &Line) -> bool {
        let Some(bound) = self.add_opposites(line.weighted()) else {
            return false;
        };
        line.clause.count > 0 && bound <= -1 && self.sums_vanish(&line.clause)
    }

    /// Kind 5. 02: "Its last literal is an unnegated constraint with
    /// multiplier 0. The other literals are constraints too, with kind 4's
    /// multipliers"; "With r from 1 to 65,535, each A is r times that
    /// constraint's coefficient, and its bound is B divided by r, rounded
    /// toward minus infinity."
    pub(super) fn is_cut(&mut self, line: &Line) -> bool {
        let mut others = line.weighted();
        let Some((last, 0)) = others.next_back() else {
            return false;
        };
        let (Some(cut), Some(bound)) = (self.constraint(last), self.add_opposites(others)) else {
            return false;
        };
        let r = i128::from(line.r);
        // By a positive r the Euclidean quotient is the floor.
        !last.is_negated()
            && r > 0
            && bound.div_euclid(r) == i128::from(cut.bound())
            && self.sums_are(r, cut, &line.clause)
    }

    /// 02: "their opposites, times multipliers, sum to coefficients A, one
    /// for every variable (0 where none has it), and bound B": adds to the
    /// sums and gives the bound, or nothing if a literal is on no constraint
    /// or its multiplier is not within the limits.
    fn add_opposites(&mut self, weighted: impl Iterator<Item = Weighted>) -> Option<i128> {
        let mut bound = 0;
        for (literal, multiplier) in weighted {
            let constraint = self.constraint(literal)?;
            if !is_multiplier(&multiplier) {
                return None;
            }
            let multiplier = i128::from(multiplier);
            bound += multiplier * opposite_bound(literal, constraint);
            let factor = if literal.is_negated() {
                multiplier
            } else {
                -multiplier
            };
            for term in constraint.terms() {
                self.sums[usize::from(term.variable)] += factor * i128::from(term.coefficient);
            }
        }
        Some(bound)
    }

    /// Whether the sum is r times the cut's coefficient at each of its
    /// variables, and 0 at each other one. The sums compared are taken away,
    /// so that none is left where it is so.
    fn sums_are(&mut self, r: i128, cut: &Constraint, clause: &Clause) -> bool {
        let agree = cut.terms().iter().all(|term| {
            let sum = std::mem::take(&mut self.sums[usize::from(term.variable)]);
            sum == r * i128::from(term.coefficient)
        });
        agree && self.sums_vanish(clause)
    }

    /// The constraint a literal is on.
    fn constraint(&self, literal: Literal) -> Option<&'a Constraint> {
        match literal.atom() {
            Atom::Constraint(i) => self.constraints.get(i),
            Atom::Stream { .. } => None,
        }
    }

    /// Whether the sum is 0 at each variable of the clause's constraints.
    fn sums_vanish(&self, clause: &Clause) -> bool {
        let mut constraints = clause.literals().iter().filter_map(|l| self.constraint(*l));
        constraints.all(|constraint| {
            let mut terms = constraint.terms().iter();
            terms.all(|term| self.sums[usize::from(term.variable)] == 0)
        })
    }
}

/// The bound of a literal's opposite. 01: "The negation of “sum at most B” is
/// “minus sum at most −B − 1”."
fn opposite_bound(literal: Literal, constraint: &Constraint) -> i128 {
    let bound = i128::from(constraint.bound());
    if literal.is_negated() {
        bound
    } else {
        -bound - 1
    }
}
