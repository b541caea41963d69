//! Whole numbers of any size, as the equations have them: no range ends one.

#![allow(dead_code)]

/// Two's complement, 32 bits a digit, the lowest first. There is a last digit,
/// whose highest bit is the sign.
#[derive(Clone, Debug, PartialEq, Eq)]
pub struct Whole(Vec<u32>);

impl Whole {
    /// This one and the other.
    pub fn sum(&self, other: &Whole) -> Whole {
        combine((1, self), (1, other))
    }

    /// This one without the other.
    pub fn difference(&self, other: &Whole) -> Whole {
        combine((1, self), (-1, other))
    }

    /// This one so many times, at most 2^30 or −2^30.
    pub fn times(&self, k: i32) -> Whole {
        combine((k, self), (0, self))
    }

    /// Whether this one is at most the other.
    pub fn is_at_most(&self, other: &Whole) -> bool {
        !other.difference(self).is_negative()
    }

    /// The number, where it is one of −2^63 to 2^63 − 1.
    pub fn narrow(&self) -> Option<i64> {
        match self.0[..] {
            [low] => Some(i64::from(low.cast_signed())),
            [low, high] => Some(i64::from(high.cast_signed()) << 32 | i64::from(low)),
            _ => None,
        }
    }

    fn is_negative(&self) -> bool {
        self.0[self.0.len() - 1] >> 31 == 1
    }

    /// A digit, those past the last one too.
    fn digit(&self, at: usize) -> i64 {
        let past = if self.is_negative() { u32::MAX } else { 0 };
        i64::from(self.0.get(at).copied().unwrap_or(past))
    }

    /// The same number without a last digit that says no more than the sign of
    /// the one before.
    fn trimmed(mut self) -> Whole {
        while let [.., before, last] = self.0[..] {
            if last != if before >> 31 == 1 { u32::MAX } else { 0 } {
                break;
            }
            self.0.pop();
        }
        self
    }
}

impl From<i64> for Whole {
    fn from(number: i64) -> Self {
        Whole(vec![low(number), low(number >> 32)]).trimmed()
    }
}

/// The lowest 32 bits.
fn low(number: i64) -> u32 {
    u32::try_from(number & 0xFFFF_FFFF).unwrap()
}

/// x so many times and y so many times, digit by digit with a carry: two digits
/// more than the longer one hold it.
fn combine((a, x): (i32, &Whole), (b, y): (i32, &Whole)) -> Whole {
    let length = x.0.len().max(y.0.len()) + 2;
    let mut carry = 0;
    let digits = (0..length).map(|at| {
        let digit = i64::from(a) * x.digit(at) + i64::from(b) * y.digit(at) + carry;
        carry = digit >> 32;
        low(digit)
    });
    Whole(digits.collect()).trimmed()
}
