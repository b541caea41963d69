//! Records in any order: the same node in two orders has the same values by
//! name, and operands that lead back to their record are refused with 23.

use differential::checker::{Checker, Place, Record as Session, Refusal};
use differential::checkers::CHECKERS;
use differential::compare::{self, hex, Origin};
use differential::nodes::{self, Taste};
use differential::passes::Run;
use differential::random::Random;
use differential::reorder::{is_on_loop, is_reordered, looped, never_placed, renumbering, Slot};
use reference::build::proof::two_bands_certificate;
use reference::build::renumber::Renumbering;
use reference::build::{NodeFile, Record, BOOL};
use std::collections::BTreeMap;

/// How many nodes are run in two orders.
const NODES: u64 = 10_000;
/// How many instants each is run.
const INSTANTS: usize = 8;

/// The answers to one call after another.
fn answers(
    by: &dyn Checker,
    node: &NodeFile,
    calls: &[Vec<i64>],
) -> Vec<Result<Vec<i64>, Refusal>> {
    let mut session = Session::new();
    by.begin(&mut session, &node.bytes()).expect("a right node");
    let call = |inputs: &Vec<i64>| {
        let mut values = vec![0; node.records.len()];
        let answer = by.instant(&mut session, inputs, &mut values);
        answer.map(|()| values)
    };
    calls.iter().map(call).collect()
}

/// How often something was met where a node was run in two orders.
#[derive(Debug, Default)]
struct Met {
    answered: u64,
    refused: u64,
    /// Refused with 34 at two streams.
    elsewhere: u64,
}

impl Met {
    /// The two answers are the same by name; 34 may name another stream.
    fn same(&mut self, other: &Renumbering, own: &Answer, moved: &Answer) -> bool {
        match (own, moved) {
            (Ok(own), Ok(moved)) => {
                self.answered += 1;
                other.values(own) == *moved
            }
            (Err(own), Err(moved)) => {
                self.refused += 1;
                self.elsewhere += u64::from(renamed(other, own.place) != moved.place);
                [own.number, moved.number] == [34, 34]
            }
            _ => false,
        }
    }
}

type Answer = Result<Vec<i64>, Refusal>;

/// The place in the other order.
fn renamed(other: &Renumbering, place: Place) -> Place {
    match place {
        Place::Record(i) => Place::Record(other.of(i as u16).into()),
        place => place,
    }
}

/// A node and the same in another order, run beside each other by each
/// checker: the same values by name, and 34 at the same instants.
#[test]
fn values_by_name() {
    let (mut met, mut reordered) = (Met::default(), 0);
    for case in 0..NODES {
        let mut random = Random::of_case(13, case);
        let run = Run::drawn(&mut random);
        let other = renumbering(&mut random, &run.node);
        let moved = other.node(&run.node);
        let calls: Vec<_> = (0..INSTANTS).map(|_| run.inputs(&mut random)).collect();
        let moved_calls: Vec<_> = calls.iter().map(|c| other.inputs(&run.node, c)).collect();
        reordered += u64::from(is_reordered(&moved.records));
        for by in CHECKERS {
            let own = answers(*by, &run.node, &calls);
            let theirs = answers(*by, &moved, &moved_calls);
            let mut pairs = own.iter().zip(&theirs);
            assert!(
                pairs.all(|(own, moved)| met.same(&other, own, moved)),
                "case {case}, {}: {own:?}\nbut {theirs:?}\n{}\n{}",
                by.name(),
                hex(&run.node.bytes()),
                hex(&moved.bytes())
            );
        }
    }
    println!("by name: {reordered} nodes reordered, {met:?}");
    let each = CHECKERS.len() as u64;
    assert!(reordered >= NODES / 2, "{reordered}");
    assert!(met.answered >= each * NODES, "{met:?}");
    assert!(met.refused >= each * NODES / 4, "{met:?}");
    assert!(met.elsewhere >= each * NODES / 50, "{met:?}");
}

/// A record that holds these bytes, as no beginning does.
fn holding(file: &[u8]) -> Session {
    let mut session = Session::new();
    session.length = file.len();
    session.bytes[..file.len()].copy_from_slice(file);
    session
}

/// All refuse the node with 23 at this record: as a file, in a beginning, with
/// a certificate and, by 30, in a session's record.
fn refused(origin: Origin, node: &NodeFile, lowest: u16) {
    let refusal = Refusal::new(23, Place::Record(lowest.into()));
    let file = node.bytes();
    let certificate = two_bands_certificate().bytes();
    let verdict = compare::pair(CHECKERS, origin, &file, &certificate);
    assert_eq!(verdict, Err(refusal), "{origin:?}: {}", hex(&file));
    let mut session = Session::new();
    let answer = compare::begin(CHECKERS, origin, &mut session, &file);
    assert_eq!(answer, Err(refusal), "{origin:?}");
    let mut session = holding(&file);
    let no_node = Err(Refusal::file(30));
    let answer = compare::instant(CHECKERS, origin, &mut session, &[], &mut [0; 64]);
    assert_eq!(answer, no_node, "{origin:?}");
    let answer = compare::trial(CHECKERS, origin, &mut session, &[], &mut [0; 64]);
    assert_eq!(answer, no_node, "{origin:?}");
    let answer = compare::commit(CHECKERS, origin, &mut session);
    assert_eq!(answer, no_node, "{origin:?}");
}

/// The operands needed now: of each operator how many.
const NEEDED: [(u8, usize); 14] = [
    (2, 1),
    (3, 2),
    (4, 2),
    (5, 2),
    (6, 2),
    (7, 2),
    (8, 1),
    (9, 2),
    (10, 2),
    (11, 3),
    (12, 2),
    (13, 1),
    (14, 2),
    (15, 2),
];

/// Loops through every operand, of every length, and records that wait for
/// them; the place is the lowest record from which chains never end.
#[test]
fn loops() {
    let mut slots: BTreeMap<Slot, u64> = BTreeMap::new();
    let mut lengths: BTreeMap<usize, u64> = BTreeMap::new();
    let (mut waiting, mut later) = (0, 0);
    for case in 0..12_000 {
        let origin = Origin { seed: 14, case };
        let mut random = Random::of_case(14, case);
        let taste = Taste::any(&mut random);
        let node = nodes::node(&mut random, taste);
        let Some(wrong) = looped(&mut random, &node) else {
            continue;
        };
        let records = &wrong.node.records;
        let lowest = never_placed(records)[0];
        refused(origin, &wrong.node, lowest);
        *slots.entry(wrong.slot).or_default() += 1;
        *lengths.entry(wrong.length).or_default() += 1;
        waiting += u64::from(!is_on_loop(records, lowest));
        later += u64::from(lowest > 0);
    }
    println!("loops: {waiting} wait, {later} not at 0; {lengths:?}; {slots:?}");
    for (operator, operands) in NEEDED {
        for operand in 0..operands {
            let slot = Slot { operator, operand };
            assert!(slots.get(&slot) >= Some(&50), "{slot:?}: {slots:?}");
        }
    }
    assert_eq!(slots.len(), 26);
    for length in 1..=6 {
        assert!(lengths.get(&length) >= Some(&50), "{length}: {lengths:?}");
    }
    assert!(waiting >= 500 && later >= 2_000, "{waiting} {later}");
}

/// Each record the negation of the next, the last one given; in any order.
fn chain(random: &mut Random, size: u16, last: Record) -> NodeFile {
    let mut records: Vec<Record> = (1..size).map(Record::not).collect();
    records.push(last);
    let node = NodeFile::new(records, 0);
    renumbering(random, &node).node(&node)
}

/// Chains of 1 to 64 records that end, and that return to their start.
#[test]
fn whole_loops() {
    let mut random = Random::new(15);
    for (size, case) in (1..=64).flat_map(|size| (0..20).map(move |case| (size, case))) {
        let origin = Origin { seed: 15, case };
        refused(origin, &chain(&mut random, size, Record::not(0)), 0);
        let node = chain(&mut random, size, Record::input(BOOL));
        let answer = compare::begin(CHECKERS, origin, &mut Session::new(), &node.bytes());
        assert_eq!(answer, Ok(()), "{origin:?}");
        let mut session = holding(&node.bytes());
        let mut values = vec![0; size.into()];
        let answer = compare::instant(CHECKERS, origin, &mut session, &[1], &mut values);
        assert_eq!(answer, Ok(()), "{origin:?}");
        let ones = values.iter().filter(|value| **value == 1).count();
        assert_eq!(ones, usize::from(size).div_ceil(2), "{origin:?}");
    }
}

/// b of operator 13 may be any stream of its type, itself too, and closes no
/// loop.
#[test]
fn one_instant_before_is_no_loop() {
    let (mut itself, mut higher) = (0, 0);
    for case in 0..6_000 {
        let origin = Origin { seed: 16, case };
        let mut random = Random::of_case(16, case);
        let taste = Taste::any(&mut random);
        let mut node = nodes::node(&mut random, taste);
        let types: Vec<u8> = node.records.iter().map(|r| r.type_byte).collect();
        for (own, record) in (0u16..).zip(&mut node.records) {
            if record.operator == 13 {
                let same = nodes::streams(&types, types.len(), record.type_byte);
                record.b = random
                    .pick(&[own, own, same[same.len() - 1], same[0]])
                    .unwrap();
                itself += u64::from(record.b == own);
                higher += u64::from(record.b > own);
            }
        }
        let answer = compare::begin(CHECKERS, origin, &mut Session::new(), &node.bytes());
        assert_eq!(answer, Ok(()), "{origin:?}: {}", hex(&node.bytes()));
    }
    println!("13's b: {itself} times its own record, {higher} times a higher one");
    assert!(itself >= 1_000 && higher >= 500, "{itself} {higher}");
}
