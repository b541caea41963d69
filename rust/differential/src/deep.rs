//! Nodes of 64 streams that a look-up follows far down, through all instants:
//! where a stream were worked out anew each time that it is visited, it would
//! not end.

use crate::random::Random;
use crate::reorder::renumbering;
use reference::build::{NodeFile, Record, BOOL, INT};

/// The last stream.
pub const LAST: u16 = 63;

/// 62 doublings of an input, the last of them stream 63.
pub fn doublings() -> NodeFile {
    let mut records = vec![Record::constant(BOOL, 1), Record::input(INT)];
    records.extend((1..LAST).map(|before| Record::sum(before, before)));
    NodeFile::new(records, 0)
}

/// A chain of bools: 0 is an input, 1 is the last stream one instant before, at
/// first the input, and each of the others is whether that before it is the same
/// as the input. From the last stream all are visited at every instant, 63 of
/// them one below the other.
pub fn chain() -> NodeFile {
    let mut records = vec![Record::input(BOOL), Record::arrow_pre(BOOL, 0, LAST)];
    records.extend((1..LAST).map(|before| Record::same(before, 0)));
    NodeFile::new(records, LAST)
}

/// A chain of ints, by operators that mostly stay inside the range: a bool and
/// an int input, the last stream one instant before, and streams each of which
/// reads the one before it. At times in another order.
pub fn drawn(random: &mut Random) -> NodeFile {
    let mut records = vec![
        Record::input(BOOL),
        Record::input(INT),
        Record::arrow_pre(INT, 1, LAST),
    ];
    for own in 3..=LAST {
        let lower = random.within(1, usize::from(own) - 1) as u16;
        let other = random.of([own - 1, own - 2, lower]);
        records.push(link(random, own - 1, other));
    }
    let node = NodeFile::new(records, 0);
    if random.once_in(2) {
        return renumbering(random, &node).node(&node);
    }
    node
}

/// A record that reads the stream before it, and another or that again.
fn link(random: &mut Random, before: u16, other: u16) -> Record {
    match random.below(16) {
        0..4 => Record::lesser(before, other),
        4..8 => Record::greater(other, before),
        8 | 9 => Record::choice(INT, 0, before, other),
        10 | 11 => Record::choice(INT, 0, other, before),
        12 => Record::arrow(INT, before, before),
        13 => {
            let earlier = random.of([before, other, LAST]);
            Record::arrow_pre(INT, before, earlier)
        }
        14 => Record::difference(before, other),
        _ => random.of([Record::sum(before, other), Record::multiple(-1, before)]),
    }
}
