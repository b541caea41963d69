//! Constraints multiplied through.

use super::{CertificateFile, Constraint};

impl Constraint {
    /// The constraint with its bound and each of its coefficients times a
    /// factor; a coefficient that no field holds becomes the largest.
    pub fn times(mut self, factor: i64) -> Self {
        self.bound = self.bound.saturating_mul(factor);
        for term in &mut self.terms {
            let product = i64::from(term.coefficient).saturating_mul(factor);
            term.coefficient = i32::try_from(product).unwrap_or(i32::MAX);
        }
        self
    }
}

impl CertificateFile {
    /// The certificate with every constraint times a factor. A right one
    /// stays right if the numbers fit and all literals of its arithmetic
    /// lines are negated, and it has no cuts.
    pub fn times(mut self, factor: i64) -> Self {
        for constraint in &mut self.constraints {
            *constraint = constraint.times(factor);
        }
        self
    }
}
