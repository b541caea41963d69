//! Whole numbers wide enough for every value an instant works out.
//!
//! A value is signed 64-bit and |K| is at most 1,000,000,000, so a sum, a
//! difference or a multiple of values lies within ±2^94: 128 bits hold it
//! exactly, and only [`narrow`] decides whether it is a value again.

/// The least value, −2^63.
pub const LOWEST: i128 = -(1 << 63);
/// The greatest value, 2^63 − 1.
pub const HIGHEST: i128 = (1 << 63) - 1;

/// a + b, exactly.
pub fn sum(a: i64, b: i64) -> i128 {
    i128::from(a) + i128::from(b)
}

/// a − b, exactly.
pub fn difference(a: i64, b: i64) -> i128 {
    i128::from(a) - i128::from(b)
}

/// k·a, exactly.
pub fn product(k: i32, a: i64) -> i128 {
    i128::from(k) * i128::from(a)
}

/// The number as a value, or nothing if it is "outside −2^63 to 2^63 − 1"
/// (01, refusal 34).
pub fn narrow(number: i128) -> Option<i64> {
    if (LOWEST..=HIGHEST).contains(&number) {
        i64::try_from(number).ok()
    } else {
        None
    }
}

#[cfg(test)]
mod tests {
    use super::*;

    #[test]
    fn narrow_stops_at_both_ends() {
        assert_eq!(narrow(LOWEST), Some(i64::MIN));
        assert_eq!(narrow(HIGHEST), Some(i64::MAX));
        assert_eq!(narrow(LOWEST - 1), None);
        assert_eq!(narrow(HIGHEST + 1), None);
    }

    #[test]
    fn the_widest_results_are_exact() {
        assert_eq!(sum(i64::MIN, i64::MIN), 2 * LOWEST);
        assert_eq!(difference(i64::MAX, i64::MIN), HIGHEST - LOWEST);
        assert_eq!(product(-1_000_000_000, i64::MIN), (1_000_000_000 << 63));
        assert_eq!(product(i32::MIN, i64::MIN), 1 << 94);
    }
}
