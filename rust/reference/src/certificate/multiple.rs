//! Constraints that a solver has multiplied through.

use super::constraint::Constraint;

impl Constraint {
    /// 02: "a written constraint matches if it is the defined one times one
    /// whole number of at least 1, bound and coefficients alike." Such a
    /// number makes no coefficient 0, so that the variables stay the same.
    pub fn is_multiple_of(&self, defined: &Constraint) -> bool {
        let factor = self.factor_over(defined);
        let is_times = |written: i64, own: i64| i128::from(written) == factor * i128::from(own);
        let mut terms = self.terms().iter().zip(defined.terms());
        factor >= 1
            && is_times(self.bound(), defined.bound())
            && self.terms().len() == defined.terms().len()
            && terms.all(|(written, own)| {
                written.variable == own.variable && is_times(written.coefficient, own.coefficient)
            })
    }

    /// The only factor that may do: the quotient of the first coefficients
    /// or, without terms, of the bounds, whether or not it is exact. Of "0 at
    /// most 0" every multiple is itself, and 1 stands for all factors.
    fn factor_over(&self, defined: &Constraint) -> i128 {
        let quotient = match (self.terms(), defined.terms()) {
            ([written, ..], [own, ..]) => written.coefficient.checked_div(own.coefficient),
            _ => self.bound().checked_div(defined.bound()),
        };
        quotient.map_or(1, i128::from)
    }
}
