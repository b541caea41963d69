//! 02's rule of tables of ranges, written once more and over the writers'
//! records: by formulas, where the reference tries the ends.

use crate::checker::{Place, Refusal};
use reference::build::{NodeFile, Record, INT};

/// The limit of a range's ends, 4,000,000,000.
pub const LIMIT: i64 = 4_000_000_000;

/// The range that every other lies in.
pub const WHOLE: Range = Range::new(-LIMIT as i128, LIMIT as i128);

/// The numbers from one to another.
#[derive(Clone, Copy, Debug, PartialEq, Eq)]
pub struct Range {
    /// The least of them.
    pub least: i128,
    /// The greatest of them.
    pub greatest: i128,
}

impl Range {
    /// The numbers from `least` to `greatest`.
    pub const fn new(least: i128, greatest: i128) -> Self {
        Range { least, greatest }
    }

    /// A range as a table has it.
    pub fn of([least, greatest]: [i64; 2]) -> Self {
        Range::new(least.into(), greatest.into())
    }

    /// Whether another lies inside.
    pub fn holds(self, other: Range) -> bool {
        self.least <= other.least && other.greatest <= self.greatest
    }

    /// The least range that holds both.
    pub fn joined(self, other: Range) -> Self {
        let (least, greatest) = (self.least.min(other.least), self.greatest);
        Range::new(least, greatest.max(other.greatest))
    }

    fn plus(self, other: Range) -> Self {
        Range::new(self.least + other.least, self.greatest + other.greatest)
    }

    /// A negative factor swaps the ends.
    fn times(self, k: i128) -> Self {
        let [least, greatest] = [self.least, self.greatest].map(|end| k * end);
        match k < 0 {
            true => Range::new(greatest, least),
            false => Range::new(least, greatest),
        }
    }
}

/// What a record of an int stream gives, each operand by itself anywhere in
/// its range. Nothing for an input, or while the range of an operand needed
/// now is not known; b of operator 13 adds what is known of it.
pub fn results(record: &Record, range: impl Fn(u16) -> Option<Range>) -> Option<Range> {
    let (a, b) = (|| range(record.a), || range(record.b));
    let k = i128::from(record.k);
    match record.operator {
        1 => Some(Range::new(k, k)),
        6 => Some(a()?.plus(b()?)),
        7 => Some(a()?.plus(b()?.times(-1))),
        8 => Some(a()?.times(k)),
        11 | 12 => Some(a()?.joined(b()?)),
        13 => Some(b().map_or(a()?, |b| b.joined(a().unwrap_or(b)))),
        14 => extreme(a()?, b()?, i128::min),
        15 => extreme(a()?, b()?, i128::max),
        _ => None,
    }
}

/// The lesser, or the greater, of two numbers.
fn extreme(a: Range, b: Range, of: fn(i128, i128) -> i128) -> Option<Range> {
    Some(Range::new(of(a.least, b.least), of(a.greatest, b.greatest)))
}

/// The answer to a table for a right node.
pub fn answer(node: &NodeFile, table: &[i64]) -> Result<(), Refusal> {
    let (ends, rest) = table.as_chunks();
    let records = &node.records;
    let whole = rest.is_empty() && ends.len() == records.len();
    if !(whole && records.iter().zip(ends).all(is_range)) {
        return Err(Refusal::file(71));
    }
    let outside = |own: &usize| !is_inside(&records[*own], *own, ends);
    match (0..records.len()).find(outside) {
        Some(own) => Err(Refusal::new(72, Place::Record(own))),
        None => Ok(()),
    }
}

/// Whether a table may have these ends for a stream.
fn is_range((record, ends): (&Record, &[i64; 2])) -> bool {
    let [least, greatest] = ends;
    match record.type_byte {
        INT => least <= greatest && WHOLE.holds(Range::of(*ends)),
        _ => *ends == [0, 0],
    }
}

/// Whether what a stream's record gives lies in its range.
fn is_inside(record: &Record, own: usize, ends: &[[i64; 2]]) -> bool {
    let range = |stream: u16| Some(Range::of(ends[usize::from(stream)]));
    let given = (record.type_byte == INT).then(|| results(record, range));
    given
        .flatten()
        .is_none_or(|given| Range::of(ends[own]).holds(given))
}
