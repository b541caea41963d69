//! Random nodes on which look-ups visit much, and random histories.

#![allow(dead_code)]

use reference::build::random::{self, Random};
use reference::build::renumber::Renumbering;
use reference::build::{NodeFile, Record, BOOL, INT};

/// A constant as large as may be, or a small one.
pub fn any_constant(random: &mut Random) -> i32 {
    let all = [1_000_000_000, -1_000_000_000, 999_999_937, -2, -1, 0, 1, 2];
    random.pick(&all).unwrap()
}

/// A record of a node whose streams mostly read those just before them.
fn steep_record(random: &mut Random, types: &[u8], own: usize) -> Record {
    let streams = |kind: u8| {
        let numbered = (0u16..).zip(types);
        let of_kind = numbered.filter(move |(_, own)| **own == kind);
        of_kind.map(|(stream, _)| stream)
    };
    let mut near = |kind: u8| {
        let mut lower: Vec<u16> = streams(kind).filter(|i| usize::from(*i) < own).collect();
        lower.reverse();
        lower.truncate(5);
        random.pick(&lower).unwrap()
    };
    let kind = types[own];
    let (a, b, c, x, y) = (near(kind), near(kind), near(BOOL), near(INT), near(INT));
    let any = random.pick(&streams(kind).collect::<Vec<_>>()).unwrap();
    match (kind, random.below(16)) {
        (_, 0 | 1) => Record::choice(kind, c, a, b),
        (_, 2) => Record::arrow(kind, a, b),
        (_, 3 | 4) => Record::arrow_pre(kind, a, any),
        (INT, 5) => Record::input(INT),
        (BOOL, 6) => Record::not(a),
        (BOOL, 7) => Record::and(a, b),
        (BOOL, 8) => Record::or(a, b),
        (BOOL, 9) => Record::same(a, b),
        (BOOL, 10) => Record::equal(x, y),
        (BOOL, _) => Record::at_most(x, y),
        (_, 6 | 7) => Record::lesser(a, b),
        (_, 8 | 9) => Record::greater(a, b),
        (_, 10) => Record::multiple(any_constant(random), a),
        (_, 11) => Record::constant(INT, any_constant(random)),
        (_, 12 | 13) => Record::sum(a, b),
        (_, _) => Record::difference(a, b),
    }
}

/// A node of so many streams, and of three at least, on which much is visited.
fn steep_node(random: &mut Random, size: usize) -> NodeFile {
    let mut types = vec![BOOL, INT, INT];
    types.extend((3..size).map(|_| u8::from(random.below(4) > 0)));
    let first = types[..3].iter().map(|kind| Record::input(*kind));
    let mut records: Vec<Record> = first.collect();
    records.extend((3..types.len()).map(|own| steep_record(random, &types, own)));
    NodeFile::new(records, 0)
}

/// A node of either kind, its records in any order.
pub fn any_node(random: &mut Random) -> NodeFile {
    let size = any_size(random);
    let mut node = match random.below(3) {
        0 => random::node(random, size),
        _ => steep_node(random, size),
    };
    for record in &mut node.records {
        if matches!((record.operator, record.type_byte), (1 | 8, INT)) && random.below(3) == 0 {
            record.k = any_constant(random);
        }
    }
    let count = u16::try_from(node.records.len()).unwrap();
    Renumbering::random(random, count).node(&node)
}

/// A size: mostly small, at times as large as may be.
fn any_size(random: &mut Random) -> usize {
    match random.below(10) {
        0 => 64,
        1 | 2 => 1 + random.below(64),
        _ => 1 + random.below(24),
    }
}

/// What the inputs of a history are like.
#[derive(Clone, Copy, Default)]
pub struct Inputs {
    /// Whether ints are so large that most sums leave the range.
    pub are_large: bool,
    /// Whether a bool may be 2 or -1.
    pub are_odd: bool,
}

impl Inputs {
    /// Typed ones, small or large.
    pub fn typed(random: &mut Random) -> Self {
        Inputs {
            are_large: random.below(3) == 0,
            are_odd: false,
        }
    }

    fn draw(self, random: &mut Random, type_byte: u8) -> i64 {
        match (type_byte, random.below(40)) {
            (BOOL, 0) if self.are_odd => 2,
            (BOOL, 1) if self.are_odd => -1,
            (INT, 1..) if self.are_large => random.bits().cast_signed() >> random.below(3),
            _ => random.input(type_byte),
        }
    }

    /// The inputs of so many instants, of streams of these types.
    pub fn history(self, random: &mut Random, types: &[u8], instants: usize) -> Vec<i64> {
        let all = types.iter().cycle().take(types.len() * instants);
        all.map(|own| self.draw(random, *own)).collect()
    }
}

/// The type bytes of the inputs, in record order.
pub fn input_types(node: &NodeFile) -> Vec<u8> {
    let inputs = node.records.iter().filter(|record| record.operator == 0);
    inputs.map(|record| record.type_byte).collect()
}
