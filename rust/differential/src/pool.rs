//! Nodes with certificates that need more than unit steps: induction over
//! ints and cases, found by the reference's search once a run, and cuts.

use crate::delays::delay;
use crate::nodes::{self, Taste};
use crate::random::Random;
use reference::build::proof::two_bands_node;
use reference::build::{multiples, search, CertificateFile, NodeFile, Record, BOOL, INT};

/// A node and its certificate.
pub type Certified = (NodeFile, CertificateFile);

/// The families at every depth that is found soon, and random nodes.
pub fn pool(random: &mut Random) -> Vec<Certified> {
    let mut found = Vec::new();
    for (node, depths) in families(random) {
        for depth in depths {
            found.extend(certified(node.clone(), depth));
        }
    }
    found.extend((0..60).map(|_| no_multiple(random)));
    for _ in 0..500 {
        let taste = Taste {
            size: random.within(3, 8),
            ints: 5,
            inputs: 3,
            extremes: true,
            large: false,
            truth: false,
            reordered: random.once_in(3),
        };
        let node = nodes::node(random, taste);
        found.extend(certified(node, random.of([1, 1, 2, 3])));
    }
    found
}

/// A multiple of m is never k, where m does not divide k.
fn no_multiple(random: &mut Random) -> Certified {
    let large = random.within(2, 65_535) as u16;
    let m = random.of([2, 2, 3, 10, 255, 256, 65_534, 65_535, large]);
    let least = random.within(1, usize::from(m) - 1) as i32;
    let times = random.of([0, 0, 1, 2, 1_000, 15_000]);
    let k = (least + i32::from(m) * times) * random.of([1, -1]);
    let depth = random.within(1, 8) as u8;
    let certificate = multiples::certificate(m, k, depth, multiples::bounds(m, k));
    (multiples::node(m, k), certificate)
}

fn certified(node: NodeFile, depth: u8) -> Option<Certified> {
    let found = search::certificate(&node.bytes(), depth)?;
    Some((node, found))
}

/// Nodes whose property holds, with depths at which that is found.
fn families(random: &mut Random) -> Vec<(NodeFile, Vec<u8>)> {
    let k = random.within(0, 20) as i32;
    let mut all = vec![
        (two_bands_node(), vec![1, 2, 3, 8]),
        (counter(k, 3), vec![1, 2, 3, 4]),
        (counter(-k, 1_000_000_000), vec![1, 2]),
        (stopping(k), vec![1, 2]),
        (scaled(-7), vec![1, 2, 8]),
        (scaled(1_000_000_000), vec![1]),
        (twins(k), vec![1, 2]),
        (absolute(), vec![1, 2, 4]),
        (successor(), vec![1, 2, 8]),
        (mirror(), vec![1, 5, 8]),
        (held(k, Record::lesser, 1), vec![1, 2]),
        (held(-k, Record::greater, -1), vec![1, 2]),
        (between(), vec![1, 2, 8]),
    ];
    for depth in 1..=8 {
        all.push((ring(depth), vec![depth]));
        all.push((int_ring(depth), vec![depth]));
        all.push((late(depth), vec![depth]));
        all.push((int_late(depth), vec![depth]));
    }
    all
}

/// 2 counts up from k by `step` and is never below k.
fn counter(k: i32, step: i32) -> NodeFile {
    let records = vec![
        Record::constant(INT, k),
        Record::constant(INT, step),
        Record::arrow_pre(INT, 0, 3),
        Record::sum(2, 1),
        Record::at_most(0, 2),
    ];
    NodeFile::new(records, 4)
}

/// A counter that stays at k + 1 and is never above it.
fn stopping(k: i32) -> NodeFile {
    let records = vec![
        Record::constant(INT, 0),
        Record::constant(INT, 1),
        Record::constant(INT, k),
        Record::constant(INT, k + 1),
        Record::arrow_pre(INT, 0, 7),
        Record::at_most(4, 2),
        Record::sum(4, 1),
        Record::choice(INT, 5, 6, 4),
        Record::at_most(4, 3),
    ];
    NodeFile::new(records, 8)
}

/// Nothing times k is nothing.
fn scaled(k: i32) -> NodeFile {
    let records = vec![
        Record::constant(INT, 0),
        Record::arrow_pre(INT, 0, 2),
        Record::multiple(k, 1),
        Record::equal(1, 0),
    ];
    NodeFile::new(records, 3)
}

/// Two counters that are always equal.
fn twins(k: i32) -> NodeFile {
    let records = vec![
        Record::constant(INT, k),
        Record::input(INT),
        Record::multiple(-1, 1),
        Record::arrow_pre(INT, 0, 5),
        Record::arrow_pre(INT, 0, 6),
        Record::sum(3, 1),
        Record::difference(4, 2),
        Record::equal(3, 4),
    ];
    NodeFile::new(records, 7)
}

/// If 0 is not negative then 0 else minus 0: not negative.
fn absolute() -> NodeFile {
    let records = vec![
        Record::input(INT),
        Record::constant(INT, 0),
        Record::at_most(1, 0),
        Record::difference(1, 0),
        Record::choice(INT, 2, 0, 3),
        Record::at_most(1, 4),
    ];
    NodeFile::new(records, 5)
}

/// No number is equal to itself plus 1.
fn successor() -> NodeFile {
    let records = vec![
        Record::input(INT),
        Record::constant(INT, 1),
        Record::sum(0, 1),
        Record::equal(0, 2),
        Record::not(3),
    ];
    NodeFile::new(records, 4)
}

/// Everything is the same as itself.
fn mirror() -> NodeFile {
    NodeFile::new(vec![Record::input(BOOL), Record::same(0, 0)], 1)
}

/// A counter by single steps from 0 that an operator holds at k, and 6 says
/// that it does not pass k.
fn held(k: i32, by: fn(u16, u16) -> Record, step: i32) -> NodeFile {
    let (level, limit) = (3, 2);
    let [a, b] = if step > 0 {
        [level, limit]
    } else {
        [limit, level]
    };
    let records = vec![
        Record::constant(INT, 0),
        Record::constant(INT, step),
        Record::constant(INT, k),
        Record::arrow_pre(INT, 0, 5),
        Record::sum(3, 1),
        by(4, 2),
        Record::at_most(a, b),
    ];
    NodeFile::new(records, 6)
}

/// The lesser of two numbers is at most the greater.
fn between() -> NodeFile {
    let records = vec![
        Record::input(INT),
        Record::input(INT),
        Record::lesser(0, 1),
        Record::greater(1, 0),
        Record::at_most(2, 3),
    ];
    NodeFile::new(records, 4)
}

/// 4 is true, later 1 or not 1, and 4 was true k instants before: the step
/// comes down to its offset 0.
fn late(depth: u8) -> NodeFile {
    let mut records = vec![
        Record::constant(BOOL, 1),
        Record::input(BOOL),
        Record::not(1),
        Record::or(1, 2),
        Record::arrow(BOOL, 0, 3),
    ];
    let property = delay(&mut records, 0, depth);
    NodeFile::new(records, property)
}

/// The same over ints: 3 is 0, later the greater of 0 and 1, and was not
/// negative.
fn int_late(depth: u8) -> NodeFile {
    let mut records = vec![
        Record::constant(INT, 0),
        Record::input(INT),
        Record::greater(0, 1),
        Record::arrow(INT, 0, 2),
    ];
    let last = delay(&mut records, 0, depth);
    records.push(Record::at_most(0, last));
    NodeFile::new(records, last + 1)
}

/// A ring of delays, false to begin with: the first stays false.
fn ring(depth: u8) -> NodeFile {
    let size = u16::from(depth);
    let mut records = vec![Record::constant(BOOL, 0)];
    records.extend((1..=size).map(|i| Record::arrow_pre(BOOL, 0, i % size + 1)));
    records.push(Record::not(1));
    NodeFile::new(records, size + 1)
}

/// The ring over ints: the first is equal to zero.
fn int_ring(depth: u8) -> NodeFile {
    let size = u16::from(depth);
    let mut records = vec![Record::constant(INT, 0)];
    records.extend((1..=size).map(|i| Record::arrow_pre(INT, 0, i % size + 1)));
    records.push(Record::equal(1, 0));
    NodeFile::new(records, size + 1)
}
