//! Nodes whose properties hold, with depths that suffice.

#![allow(dead_code)]

use reference::build::proof::{two_bands_certificate, two_bands_node, Proof};
use reference::build::{
    lit, on, opp, CertificateFile, Constraint, Line, NodeFile, Record, BOOL, INT,
};
use reference::build::{multiples, orders, search};
use std::ops::RangeInclusive;

/// Clause r of stream p at offset q, as p, q and r, and the constraint that is
/// all of it.
pub type Unit = ([u16; 3], u16);

/// Adds the line that these constraints, and the `given` one, cannot all hold,
/// and joins it with the clauses that say that they do.
pub fn clash(proof: &mut Proof, given: Option<u16>, units: &[Unit]) -> u16 {
    let constraints = given.into_iter().chain(units.iter().map(|unit| unit.1));
    let weighted: Vec<_> = constraints.map(|i| (opp(on(i)), 1)).collect();
    let mut left = proof.arithmetic(&weighted);
    for ([p, q, r], i) in units {
        let line = proof.equation(*p, *q, *r, &[on(*i)]);
        left = proof.join(line, left, on(*i));
    }
    left
}

/// The line `fails` without its literal on a comparison at an offset: were it
/// false, the `below` constraint would hold, which clashes with the units.
pub fn contrary(
    proof: &mut Proof,
    fails: u16,
    [comparison, q]: [u16; 2],
    below: u16,
    units: &[Unit],
) -> u16 {
    let holds = lit(comparison, q);
    let either = proof.equation(comparison, q, 1, &[holds, on(below)]);
    let is_below = proof.join(either, fails, holds);
    let clash = clash(proof, Some(below), units);
    proof.join(is_below, clash, on(below))
}

/// 0 zero; 1 one; 2 c = zero -> pre (c + one); 4 c is not below zero.
pub fn counter() -> NodeFile {
    let records = vec![
        Record::constant(INT, 0),
        Record::constant(INT, 1),
        Record::arrow_pre(INT, 0, 3),
        Record::sum(2, 1),
        Record::at_most(0, 2),
    ];
    NodeFile::new(records, 4)
}

/// Operator 11: a counter that stays at ten, and is never above it.
pub fn ten_at_most() -> NodeFile {
    let records = vec![
        Record::constant(INT, 0),
        Record::constant(INT, 1),
        Record::constant(INT, 9),
        Record::constant(INT, 10),
        Record::arrow_pre(INT, 0, 7),
        Record::at_most(4, 2),
        Record::sum(4, 1),
        Record::choice(INT, 5, 6, 4),
        Record::at_most(4, 3),
    ];
    NodeFile::new(records, 8)
}

/// Operators 8 and 10: nothing times minus seven is nothing.
pub fn nothing_doubled() -> NodeFile {
    let records = vec![
        Record::constant(INT, 0),
        Record::arrow_pre(INT, 0, 2),
        Record::multiple(-7, 1),
        Record::equal(1, 0),
    ];
    NodeFile::new(records, 3)
}

/// Operator 12: true -> false, and later what it was, are never both true.
pub fn first_only() -> NodeFile {
    let records = vec![
        Record::constant(BOOL, 1),
        Record::constant(BOOL, 0),
        Record::arrow(BOOL, 0, 1),
        Record::arrow_pre(BOOL, 1, 2),
        Record::and(2, 3),
        Record::not(4),
    ];
    NodeFile::new(records, 5)
}

/// Operator 12 over ints: 5 -> x - x is at most 5.
pub fn five_then_nothing() -> NodeFile {
    let records = vec![
        Record::input(INT),
        Record::constant(INT, 5),
        Record::difference(0, 0),
        Record::arrow(INT, 1, 2),
        Record::at_most(3, 1),
    ];
    NodeFile::new(records, 4)
}

/// Two counters that are always equal, one stepping by an input and one by
/// minus its negation (operators 7, 8, 10, 13).
pub fn twins() -> NodeFile {
    let records = vec![
        Record::constant(INT, 3),
        Record::input(INT),
        Record::multiple(-1, 1),
        Record::arrow_pre(INT, 0, 5),
        Record::arrow_pre(INT, 0, 6),
        Record::sum(3, 1),
        Record::difference(4, 2),
        Record::equal(3, 4),
    ];
    NodeFile::new(records, 7)
}

/// Operators 14 and 15: the greater of an input and 0, and of this and ten the
/// lesser, is at least 0 and at most ten.
pub fn brought_inside() -> NodeFile {
    let records = vec![
        Record::input(INT),
        Record::constant(INT, 0),
        Record::constant(INT, 10),
        Record::greater(0, 1),
        Record::lesser(3, 2),
        Record::at_most(1, 4),
        Record::at_most(4, 2),
        Record::and(5, 6),
    ];
    NodeFile::new(records, 7)
}

/// Operator 14: a counter that stays at ten, as the lesser of itself and ten.
pub fn ten_is_the_lesser() -> NodeFile {
    let records = vec![
        Record::constant(INT, 0),
        Record::constant(INT, 1),
        Record::constant(INT, 10),
        Record::arrow_pre(INT, 0, 5),
        Record::sum(3, 1),
        Record::lesser(4, 2),
        Record::at_most(3, 2),
    ];
    NodeFile::new(records, 6)
}

/// A ring of delays, false to begin with; that the first is false holds by
/// induction of just this depth.
pub fn ring(depth: u16) -> NodeFile {
    let mut records = vec![Record::constant(BOOL, 0)];
    for i in 1..=depth {
        records.push(Record::arrow_pre(BOOL, 0, i % depth + 1));
    }
    records.push(Record::not(1));
    NodeFile::new(records, depth + 1)
}

/// The ring over ints: the first is equal to zero.
pub fn int_ring(depth: u16) -> NodeFile {
    let mut records = vec![Record::constant(INT, 0)];
    for i in 1..=depth {
        records.push(Record::arrow_pre(INT, 0, i % depth + 1));
    }
    records.push(Record::equal(1, 0));
    NodeFile::new(records, depth + 1)
}

/// 0 an int input; 1 one; 2 their sum; 3 the input at most the sum.
pub fn one_more() -> NodeFile {
    let records = vec![
        Record::input(INT),
        Record::constant(INT, 1),
        Record::sum(0, 1),
        Record::at_most(0, 2),
    ];
    NodeFile::new(records, 3)
}

/// The three constraints of [`one_more`] at an offset: 2 − 0 at most −1,
/// 0 + 1 − 2 at most 0, and minus 1 at most −1.
fn one_more_constraints(offset: u8) -> [Constraint; 3] {
    let at = |stream, coefficient| (stream, offset, coefficient);
    [
        Constraint::new(&[at(0, -1), at(2, 1)], -1),
        Constraint::new(&[at(0, 1), at(1, 1), at(2, -1)], 0),
        Constraint::new(&[at(1, -1)], -1),
    ]
}

/// One part of [`one_more`]'s certificate, written by hand.
fn one_more_part(first: usize, offsets: RangeInclusive<u16>) -> Vec<Line> {
    let mut proof = Proof::new(first);
    let mut left = proof.fails(3, offsets.clone());
    for q in offsets {
        let units = [([2, q, 1], 3 * q + 1), ([1, q, 1], 3 * q + 2)];
        left = contrary(&mut proof, left, [3, q], 3 * q, &units);
    }
    proof.lines
}

/// [`one_more`]'s certificate, written by hand.
pub fn one_more_certificate() -> CertificateFile {
    let base = one_more_part(0, 0..=1);
    let step = one_more_part(base.len(), 1..=1);
    let constraints = [one_more_constraints(0), one_more_constraints(1)];
    CertificateFile {
        note: Vec::new(),
        depth: 1,
        constraints: constraints.concat(),
        base,
        step,
    }
}

/// 2 is 5 -> 0 and 3 is 0 -> pre 2, which is 0, 5, 0 and so on; that it is at
/// most 5 is the property.
pub fn late_five() -> NodeFile {
    let records = vec![
        Record::constant(INT, 5),
        Record::constant(INT, 0),
        Record::arrow(INT, 0, 1),
        Record::arrow_pre(INT, 1, 2),
        Record::at_most(3, 0),
    ];
    NodeFile::new(records, 4)
}

/// The constraints of [`late_five`]'s certificate.
fn late_five_constraints() -> Vec<Constraint> {
    let difference = |x: (u16, u8), y: (u16, u8), bound| {
        let mut terms = [(x.0, x.1, 1), (y.0, y.1, -1)];
        terms.sort_unstable_by_key(|(stream, offset, _)| (*offset, *stream));
        Constraint::new(&terms, bound)
    };
    vec![
        difference((0, 0), (3, 0), -1),
        difference((3, 0), (1, 0), 0),
        Constraint::new(&[(1, 0, 1)], 0),
        Constraint::new(&[(0, 0, -1)], -5),
        difference((0, 1), (3, 1), -1),
        difference((3, 1), (2, 0), 0),
        difference((2, 0), (0, 0), 0),
        difference((2, 0), (1, 0), 0),
        Constraint::new(&[(0, 0, 1)], 5),
        Constraint::new(&[(0, 1, -1)], -5),
    ]
}

/// [`late_five`]'s certificate, written by hand. At offset 0 stream 2 is 5 in
/// the base, and 0 in the step.
pub fn late_five_certificate() -> CertificateFile {
    let mut base = Proof::new(0);
    let fails = base.fails(4, 0..=1);
    let first = [([3, 0, 0], 1), ([1, 0, 0], 2), ([0, 0, 1], 3)];
    let fails = contrary(&mut base, fails, [4, 0], 0, &first);
    let (before, last) = (([3, 1, 0], 5), ([0, 1, 1], 9));
    let second = [before, ([2, 0, 0], 6), ([0, 0, 0], 8), last];
    contrary(&mut base, fails, [4, 1], 4, &second);
    let mut step = Proof::new(base.lines.len());
    let fails = step.fails(4, 1..=1);
    let units = [before, ([2, 0, 0], 7), ([1, 0, 0], 2), last];
    contrary(&mut step, fails, [4, 1], 4, &units);
    CertificateFile {
        note: Vec::new(),
        depth: 1,
        constraints: late_five_constraints(),
        base: base.lines,
        step: step.lines,
    }
}

/// Every node here with a depth at which a certificate is found.
pub fn provable() -> Vec<(NodeFile, u8)> {
    let mut nodes = vec![
        (two_bands_node(), 1),
        (one_more(), 1),
        (counter(), 1),
        (ten_at_most(), 1),
        (nothing_doubled(), 1),
        (first_only(), 1),
        (five_then_nothing(), 1),
        (twins(), 1),
        (late_five(), 1),
        (brought_inside(), 1),
        (ten_is_the_lesser(), 1),
        (nothing_doubled(), 2),
        (first_only(), 2),
        (twins(), 2),
        (two_bands_node(), 8),
        (five_then_nothing(), 8),
    ];
    for depth in 1..=8 {
        nodes.push((ring(u16::from(depth)), depth));
        nodes.push((int_ring(u16::from(depth)), depth));
    }
    nodes
}

/// A multiple of m is never k: by cuts, which no search finds.
pub fn never(m: u16, k: i32, depth: u8) -> (NodeFile, CertificateFile) {
    let bounds = multiples::bounds(m, k);
    let certificate = multiples::certificate(m, k, depth, bounds);
    (multiples::node(m, k), certificate)
}

/// The certificates of [`provable`], and those written by hand.
pub fn certified() -> Vec<(NodeFile, CertificateFile)> {
    let mut pairs = vec![
        (two_bands_node(), two_bands_certificate()),
        (one_more(), one_more_certificate()),
        (one_more(), one_more_certificate().times(2)),
        (late_five(), late_five_certificate()),
        (orders::node(), orders::certificate([2, 3])),
        never(2, 7, 1),
        never(3, -5, 2),
    ];
    for (node, depth) in provable() {
        let found = search::certificate(&node.bytes(), depth).expect("a certificate");
        pairs.push((node, found));
    }
    pairs
}
