//! The order in which an instant's streams are worked out: refusal 23.

use super::MAX_STREAMS;

/// The streams, each after those that it needs now.
pub type Order = [u8; MAX_STREAMS];

/// 02: "each time the lowest-numbered record whose operands needed now are all
/// placed". What record i needs now are the bits of `needed[i]`, one a stream.
///
/// Where there is no such order, the lowest record never placed.
pub fn of(needed: &[u64]) -> Result<Order, usize> {
    let mut order = [0; MAX_STREAMS];
    let mut left = first(needed.len());
    for place in order.iter_mut().take(needed.len()) {
        *place = lowest_ready(needed, left).ok_or_else(|| lowest(left))?;
        left &= !(1 << *place);
    }
    Ok(order)
}

/// Of the records left, the lowest that needs none of them.
fn lowest_ready(needed: &[u64], left: u64) -> Option<u8> {
    let mut untried = left;
    while untried != 0 {
        let record = lowest(untried);
        if needed[record] & left == 0 {
            return u8::try_from(record).ok();
        }
        untried &= untried - 1;
    }
    None
}

/// The lowest of a set that is not empty.
fn lowest(set: u64) -> usize {
    usize::try_from(set.trailing_zeros()).unwrap_or(MAX_STREAMS)
}

/// The set of the first `count` streams, at most 64.
fn first(count: usize) -> u64 {
    (0..count).fold(0, |set, stream| set | 1 << stream)
}
