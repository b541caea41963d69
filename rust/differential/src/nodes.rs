//! Node files that are right by construction: 1 to 64 streams, every
//! operator, both types, records in any order, with or without a note.

use crate::random::Random;
use crate::reorder::renumbering;
use reference::build::{NodeFile, Record, BOOL, INT};
use reference::list::fields;

/// How a node is drawn.
#[derive(Clone, Copy, Debug)]
pub struct Taste {
    /// The number of streams, 1 to 64.
    pub size: usize,
    /// How often a stream is an int one, in ten.
    pub ints: usize,
    /// How often an input is kept when drawn, in ten.
    pub inputs: usize,
    /// Whether lessers and greaters are drawn.
    pub extremes: bool,
    /// Whether constants at the limits are drawn.
    pub large: bool,
    /// Whether the first record drawn is true; it is then the property.
    pub truth: bool,
    /// Whether the records are put into another order in the end. Before that
    /// an operand needed now is lower than its record.
    pub reordered: bool,
}

impl Taste {
    /// Mostly small nodes, at times one of 64 streams.
    pub fn any(random: &mut Random) -> Self {
        let size = match random.below(16) {
            0 => 64,
            1 => random.within(1, 64),
            2 => random.within(1, 3),
            _ => random.within(3, 16),
        };
        Taste {
            size,
            ints: random.of([2, 5, 5, 8]),
            inputs: random.of([1, 3, 10]),
            extremes: true,
            large: random.once_in(3),
            truth: random.once_in(2),
            reordered: random.once_in(3),
        }
    }
}

/// A node of this taste. The property is a bool stream; one there is.
pub fn node(random: &mut Random, taste: Taste) -> NodeFile {
    let mut types: Vec<u8> = (0..taste.size)
        .map(|_| u8::from(random.below(10) < taste.ints))
        .collect();
    let property = if taste.truth {
        0
    } else {
        random.below(taste.size)
    };
    types[property] = BOOL;
    let mut records: Vec<Record> = (0..taste.size)
        .map(|own| record(random, taste, &types, own))
        .collect();
    if taste.truth {
        records[0] = Record::constant(BOOL, 1);
    }
    let node = NodeFile::new(records, property as u16);
    if taste.reordered {
        return renumbering(random, &node).node(&node);
    }
    node
}

/// The records of a node file that passes 1 to 4.
pub fn records(file: &[u8]) -> Vec<Record> {
    let (front, trailer) = file.split_at(file.len() - 16);
    let count = usize::from(u16::from_le_bytes([trailer[4], trailer[5]]));
    let blocks = front.as_rchunks().1;
    let blocks = &blocks[blocks.len() - count..];
    blocks.iter().map(fields::record).collect()
}

/// A note: none, a few bytes, or any that leave room for `length` bytes.
pub fn note(random: &mut Random, length: usize) -> Vec<u8> {
    let room = 65_535usize.saturating_sub(length);
    let wanted = match random.below(200) {
        0..140 => 0,
        140..198 => random.within(1, 40),
        198 => random.below(4_000),
        _ => room,
    };
    random.bytes(wanted.min(room))
}

/// The streams below `limit` of a type.
pub fn streams(types: &[u8], limit: usize, wanted: u8) -> Vec<u16> {
    let numbered = (0u16..).zip(types).take(limit);
    let fitting = numbered.filter(|(_, own)| **own == wanted);
    fitting.map(|(stream, _)| stream).collect()
}

fn record(random: &mut Random, taste: Taste, types: &[u8], own: usize) -> Record {
    let lower = [BOOL, INT].map(|wanted| streams(types, own, wanted));
    loop {
        if let Some(record) = attempt(random, taste, types, own, &lower) {
            return record;
        }
    }
}

/// A record with some operator, if there are operands for it.
fn attempt(
    random: &mut Random,
    taste: Taste,
    types: &[u8],
    own: usize,
    [bools, ints]: &[Vec<u16>; 2],
) -> Option<Record> {
    let kind = types[own];
    let same = if kind == BOOL { bools } else { ints };
    let operator = match kind {
        BOOL => random.of([0, 1, 2, 3, 4, 5, 9, 10, 11, 12, 13]),
        _ if taste.extremes => random.of([0, 1, 6, 7, 8, 11, 12, 13, 14, 15]),
        _ => random.of([0, 1, 6, 7, 8, 11, 12, 13]),
    };
    match operator {
        0 if own > 0 && random.below(10) >= taste.inputs => None,
        0 => Some(Record::input(kind)),
        1 if kind == BOOL => Some(Record::constant(BOOL, random.of([0, 1]))),
        1 => Some(Record::constant(INT, constant(random, taste))),
        2 => Some(Record::not(random.pick(bools)?)),
        3..=5 => over(random, operator, BOOL, bools),
        6 | 7 | 14 | 15 => over(random, operator, INT, ints),
        8 => Some(Record::multiple(
            constant(random, taste),
            random.pick(ints)?,
        )),
        9 | 10 => over(random, operator, BOOL, ints),
        11 => {
            let c = random.pick(bools)?;
            let record = over(random, 11, kind, same)?;
            Some(Record { c, ..record })
        }
        12 => over(random, 12, kind, same),
        _ => {
            let any = streams(types, types.len(), kind);
            Some(Record::arrow_pre(
                kind,
                random.pick(same)?,
                random.pick(&any)?,
            ))
        }
    }
}

/// A record of two operands from these.
fn over(random: &mut Random, operator: u8, type_byte: u8, from: &[u16]) -> Option<Record> {
    Some(Record {
        operator,
        type_byte,
        a: random.pick(from)?,
        b: random.pick(from)?,
        ..Record::default()
    })
}

/// A constant: small, or at the limits where the taste is for large ones.
fn constant(random: &mut Random, taste: Taste) -> i32 {
    if taste.large && random.once_in(3) {
        return random.of([
            1_000_000_000,
            -1_000_000_000,
            999_999_999,
            1_000_001,
            -65_536,
        ]);
    }
    random.of([-7, -3, -2, -1, 0, 1, 1, 2, 3, 10])
}
