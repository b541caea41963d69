//! 02: "A step window that begins after the first instant." What would let in a
//! property that fails, were a part to take what is said for the other.

mod common;
#[path = "common/examples.rs"]
mod examples;

use common::{accepted, property_values, refused, refused_bytes, trial};
use examples::{clash, contrary};
use reference::answer::Place::{self, Line as AtLine};
use reference::build::proof::Proof;
use reference::build::search;
use reference::build::{lit, on, opp, CertificateFile, Constraint, Line, NodeFile, Record, INT};
use reference::certificate::Part::{Base, Step};
use reference::node;
use std::ops::RangeInclusive;

/// 2 is 5 -> 0 and 3 is 0 -> pre 2; that it is at most 0 is the property,
/// which fails at instant 1 alone.
fn five_once() -> NodeFile {
    let records = vec![
        Record::constant(INT, 5),
        Record::constant(INT, 0),
        Record::arrow(INT, 0, 1),
        Record::arrow_pre(INT, 1, 2),
        Record::at_most(3, 1),
    ];
    NodeFile::new(records, 4)
}

/// A certificate of depth 1 for [`five_once`] whose base begins with a property
/// line for these offsets and says no more than that the property holds at
/// instant 0. The step is right: from instant 1 on stream 2 is 0.
fn base_at_instant_0(offsets: RangeInclusive<u16>) -> CertificateFile {
    let mut base = Proof::new(0);
    let fails = base.fails(4, offsets);
    contrary(&mut base, fails, [4, 0], 0, &[([3, 0, 0], 1)]);
    let mut step = Proof::new(base.lines.len());
    let fails = step.fails(4, 1..=1);
    five_is_over(&mut step, fails);
    CertificateFile {
        depth: 1,
        constraints: five_once_constraints(),
        base: base.lines,
        step: step.lines,
        ..CertificateFile::default()
    }
}

/// The constraints of [`base_at_instant_0`]: 1 < 3 and 3 ≤ 1 at offset 0;
/// 1 < 3 at offset 1, 3 there ≤ 2 at 0, 2 ≤ 1 and 1 ≤ 0 at 0, 0 ≤ 1 at 1.
fn five_once_constraints() -> Vec<Constraint> {
    vec![
        Constraint::new(&[(1, 0, 1), (3, 0, -1)], -1),
        Constraint::new(&[(1, 0, -1), (3, 0, 1)], 0),
        Constraint::new(&[(1, 1, 1), (3, 1, -1)], -1),
        Constraint::new(&[(2, 0, -1), (3, 1, 1)], 0),
        Constraint::new(&[(1, 0, -1), (2, 0, 1)], 0),
        Constraint::new(&[(1, 0, 1)], 0),
        Constraint::new(&[(1, 1, -1)], 0),
    ]
}

/// The line `fails` without its literal at offset 1, if stream 2 takes b at
/// offset 0.
fn five_is_over(proof: &mut Proof, fails: u16) -> u16 {
    let units = [
        ([2, 0, 0], 4),
        ([3, 1, 0], 3),
        ([1, 0, 0], 5),
        ([1, 1, 1], 6),
    ];
    contrary(proof, fails, [4, 1], 2, &units)
}

/// Operator 12 at step offset 0 takes b, so the step says nothing of the
/// window that starts at instant 0: the base has to, at instants 0 to k. A
/// base that covers no more than 0 to k − 1, as in version 1, would let in a
/// property that fails.
#[test]
fn the_base_covers_instant_k() {
    let node = five_once();
    assert_eq!(property_values(&node, 4), [1, 0, 1, 1]);
    let old_base = base_at_instant_0(0..=0);
    assert_eq!(old_base.base.last().unwrap().count, 0);
    refused(&node, &old_base, 18, AtLine(0));
    refused_bytes(
        &node.bytes(),
        &old_base.bytes_of_version(1),
        12,
        Place::File,
    );
    // With the right property line no line is wrong, in either part, but the
    // base is left with {!4 at 1}.
    let open = base_at_instant_0(0..=1);
    assert_eq!(open.base.last().unwrap().clause(), [opp(lit(4, 1))]);
    assert_eq!(open.step.last().unwrap().count, 0);
    refused(&node, &open, 21, Place::Base);
}

/// At base offset 0, which is instant 0, operator 12 takes a: what the step
/// says is wrong there.
#[test]
fn base_offset_0_is_instant_0() {
    let node = five_once();
    let mut certificate = base_at_instant_0(0..=1);
    let mut base = Proof::new(0);
    base.lines = certificate.base;
    let left = u16::try_from(base.lines.len()).unwrap() - 1;
    five_is_over(&mut base, left);
    certificate.base = base.lines;
    certificate.step.clear();
    assert_eq!(certificate.base.last().unwrap().count, 0);
    refused(&node, &certificate, 17, AtLine(10));
}

/// No search refutes the base: the first instants are a solution of it in
/// which the property fails. The step alone is refuted.
#[test]
fn no_base_of_a_property_that_fails_is_found() {
    let (bad, good) = (five_once().bytes(), examples::late_five().bytes());
    let found = |file: &[u8], depth, part| {
        let node = node::read(file).unwrap();
        search::part(&node, depth, part, 0, &mut Vec::new()).is_some()
    };
    for depth in 1..=3 {
        assert_eq!([Base, Step].map(|p| found(&bad, depth, p)), [false, true]);
        assert_eq!([Base, Step].map(|p| found(&good, depth, p)), [true, true]);
        assert_eq!(search::certificate(&bad, depth), None);
    }
}

/// Stream 2 is 5 -> 0: that it is at most 5 at offset 0 is the base's line, that
/// it is at most 0 the step's, and neither part takes the other's.
#[test]
fn operator_12_at_step_offset_0_does_not_take_a() {
    let (node, certificate) = (examples::late_five(), examples::late_five_certificate());
    accepted(&node, &certificate);
    let takes = |constraint| Line::equation(2, 0, 0, &[on(constraint)]);
    let answer = |part, constraint| trial(&node, &certificate, part, takes(constraint));
    let (a, b) = (6, 7);
    assert_eq!([answer(Base, a), answer(Base, b)], [Ok(()), Err(17)]);
    assert_eq!([answer(Step, a), answer(Step, b)], [Err(17), Ok(())]);
}

/// Of a counter, stream 2, that its base is at most 1 and that its step has no
/// solution, for there it is taken to be 3, which is one more.
fn counter_one_more_than_itself() -> CertificateFile {
    let mut base = Proof::new(0);
    let fails = base.fails(4, 0..=1);
    let (starts, zero) = (([2, 0, 0], 2), ([0, 0, 0], 3));
    let first = [starts, zero, ([1, 0, 1], 4)];
    let fails = contrary(&mut base, fails, [4, 0], 0, &first);
    let counts = [([2, 1, 0], 5), ([3, 0, 0], 6), starts, zero];
    let second = [&counts[..], &[([1, 0, 0], 7), ([1, 1, 1], 8)]].concat();
    contrary(&mut base, fails, [4, 1], 1, &second);
    let mut step = Proof::new(base.lines.len());
    let units = [([2, 0, 1], 10), ([3, 0, 1], 9), ([1, 0, 1], 4)];
    clash(&mut step, None, &units);
    CertificateFile {
        depth: 1,
        constraints: counter_constraints(),
        base: base.lines,
        step: step.lines,
        ..CertificateFile::default()
    }
}

/// The constraints of [`counter_one_more_than_itself`].
fn counter_constraints() -> Vec<Constraint> {
    vec![
        Constraint::new(&[(1, 0, 1), (2, 0, -1)], -1),
        Constraint::new(&[(1, 1, 1), (2, 1, -1)], -1),
        Constraint::new(&[(0, 0, -1), (2, 0, 1)], 0),
        Constraint::new(&[(0, 0, 1)], 0),
        Constraint::new(&[(1, 0, -1)], -1),
        Constraint::new(&[(3, 0, -1), (2, 1, 1)], 0),
        Constraint::new(&[(1, 0, -1), (2, 0, -1), (3, 0, 1)], 0),
        Constraint::new(&[(1, 0, 1)], 1),
        Constraint::new(&[(1, 1, -1)], -1),
        Constraint::new(&[(1, 0, 1), (2, 0, 1), (3, 0, -1)], 0),
        Constraint::new(&[(2, 0, -1), (3, 0, 1)], 0),
    ]
}

/// A counter from 0, and that it is at most 1, which fails at instant 2: it is
/// 0 -> pre 3, and at step offset 0 operator 13 does not take b as 12 does.
#[test]
fn operator_13_at_step_offset_0_does_not_take_b() {
    let mut node = examples::counter();
    node.records[4] = Record::at_most(2, 1);
    assert_eq!(property_values(&node, 4), [1, 1, 0, 0]);
    let certificate = counter_one_more_than_itself();
    assert_eq!(certificate.step.last().unwrap().count, 0);
    refused(&node, &certificate, 17, AtLine(certificate.base.len() + 1));
    assert_eq!(search::certificate(&node.bytes(), 1), None);
}
