//! Records in any order: refusal 23 and its place, the order worked out, and
//! sessions and certificates along it.

mod common;
#[path = "common/examples.rs"]
mod examples;

use common::{lengthened, node_accepted, node_refused, two_bands};
use reference::answer::Place::{File, Line, Record as At};
use reference::answer::Refusal;
use reference::build::random::{self, Random};
use reference::build::renumber::Renumbering;
use reference::build::{NodeFile, Record, BOOL, INT};
use reference::session::{begin, instant, Record as Session};
use reference::{certificate, node};

/// The order of an accepted node.
#[track_caller]
fn order(node: &NodeFile) -> Vec<u8> {
    node::read(&node.bytes()).unwrap().order().to_vec()
}

/// A session begun on the node.
fn begun(node: &NodeFile) -> Session {
    let mut session = Session::new();
    begin(&mut session, &node.bytes()).unwrap();
    session
}

/// The answer to one instant's call, with the values.
fn answer(session: &mut Session, inputs: &[i64], count: usize) -> Result<Vec<i64>, Refusal> {
    let mut values = vec![0; count];
    instant(session, inputs, &mut values).map(|()| values)
}

/// The number of streams.
fn count(node: &NodeFile) -> u16 {
    u16::try_from(node.records.len()).unwrap()
}

/// A chain of `size` records, each the negation of the next; the last one is
/// given.
fn chain(size: u16, last: Record) -> NodeFile {
    let mut records: Vec<Record> = (1..size).map(Record::not).collect();
    records.push(last);
    NodeFile::new(records, 0)
}

#[test]
fn a_loop_of_any_length_is_refused() {
    for size in [1, 2, 3, 5, 63, 64] {
        let whole = chain(size, Record::not(0));
        node_refused(&whole.bytes(), 23, At(0));
        node_accepted(&chain(size, Record::input(BOOL)).bytes());
        // Behind a note, the note is empty all the same.
        node_refused(&lengthened(&whole.bytes(), 5_000), 23, At(0));
    }
    // A loop of the upper half alone, and one of the last record alone.
    node_refused(&chain(64, Record::not(32)).bytes(), 23, At(0));
    node_refused(&chain(64, Record::not(63)).bytes(), 23, At(0));
    let upward = |last: Record| {
        let mut records = vec![Record::input(BOOL)];
        records.extend((0..62).map(Record::not));
        records.push(last);
        NodeFile::new(records, 0).bytes()
    };
    node_accepted(&upward(Record::not(62)));
    node_refused(&upward(Record::not(63)), 23, At(63));
}

/// For each operand needed now of each operator, a record where it is this
/// stream.
fn through_each_slot(at: u16) -> Vec<Record> {
    let mut records = vec![
        Record::not(at),
        Record::and(at, 0),
        Record::and(0, at),
        Record::or(at, 0),
        Record::or(0, at),
        Record::same(at, 0),
        Record::same(0, at),
        Record::sum(at, 1),
        Record::sum(1, at),
        Record::difference(at, 1),
        Record::difference(1, at),
        Record::multiple(0, at),
        Record::at_most(at, 1),
        Record::at_most(1, at),
        Record::equal(at, 1),
        Record::equal(1, at),
        Record::lesser(at, 1),
        Record::lesser(1, at),
        Record::greater(at, 1),
        Record::greater(1, at),
    ];
    for (kind, other) in [(BOOL, 0), (INT, 1)] {
        records.extend([
            Record::choice(kind, at, other, other),
            Record::choice(kind, 0, at, other),
            Record::choice(kind, 0, other, at),
            Record::arrow(kind, at, other),
            Record::arrow(kind, other, at),
            Record::arrow_pre(kind, at, other),
        ]);
    }
    records
}

/// Two inputs, records 2 and 3 that read each other one instant before, then
/// these.
fn among(records: &[Record]) -> Vec<u8> {
    let mut all = vec![
        Record::input(BOOL),
        Record::input(INT),
        Record::arrow_pre(INT, 1, 3),
        Record::arrow_pre(INT, 1, 2),
    ];
    all.extend(records);
    NodeFile::new(all, 0).bytes()
}

#[test]
fn a_loop_through_every_operand() {
    let own = through_each_slot(4);
    assert_eq!(own.len(), 32);
    for record in own {
        node_refused(&among(&[record]), 23, At(4));
    }
    // A loop of two, whatever the types: 23 comes before 7.
    for (record, back) in through_each_slot(5).into_iter().zip(through_each_slot(4)) {
        node_refused(&among(&[record, back]), 23, At(4));
        node_refused(&among(&[record, Record::not(4)]), 23, At(4));
        let third = [record, Record::not(6), Record::not(4)];
        node_refused(&among(&third), 23, At(4));
    }
}

#[test]
fn b_of_operator_13_closes_no_loop() {
    for kind in [BOOL, INT] {
        let first = u16::from(kind);
        let own = Record::arrow_pre(kind, first, 4);
        node_accepted(&among(&[own]));
        let ahead = [Record::arrow_pre(kind, first, 5), own];
        node_accepted(&among(&ahead));
        // a is needed now, whatever b is.
        let itself = Record::arrow_pre(kind, 4, 4);
        node_refused(&among(&[itself]), 23, At(4));
    }
    let ring = vec![
        Record::not(1),
        Record::arrow_pre(BOOL, 2, 0),
        Record::constant(BOOL, 1),
    ];
    assert_eq!(order(&NodeFile::new(ring, 0)), [2, 1, 0]);
}

#[test]
fn the_place_is_the_lowest_never_placed() {
    // 0 and 5 wait for the loop of 2 and 4; 1 and 3 are placed.
    let records = vec![
        Record::not(4),
        Record::input(BOOL),
        Record::not(4),
        Record::not(1),
        Record::not(2),
        Record::not(2),
    ];
    let mut node = NodeFile::new(records, 1);
    node_refused(&node.bytes(), 23, At(0));
    // Without 0 the loop's own lowest.
    node.records[0] = Record::not(5);
    node.records[5] = Record::not(3);
    node_refused(&node.bytes(), 23, At(2));
    // An untaken branch is needed as the others are.
    let records = vec![
        Record::constant(BOOL, 1),
        Record::choice(BOOL, 0, 0, 2),
        Record::and(0, 1),
    ];
    node_refused(&NodeFile::new(records, 0).bytes(), 23, At(1));
    // And so is a of operator 12 after instant 0, and b at instant 0.
    for arrow in [Record::arrow(BOOL, 0, 1), Record::arrow(BOOL, 1, 0)] {
        let records = vec![Record::input(BOOL), arrow];
        node_refused(&NodeFile::new(records, 0).bytes(), 23, At(1));
    }
}

#[test]
fn refusal_23_comes_after_6_and_before_7() {
    // 0 reads itself, 1 is of a wrong type, 2 reads what there is not.
    let records = vec![Record::not(0), Record::sum(0, 0), Record::not(3)];
    let mut node = NodeFile::new(records, 1);
    node_refused(&node.bytes(), 6, At(2));
    node.records[2] = Record::not(1);
    node_refused(&node.bytes(), 23, At(0));
    node.records[0] = Record::not(2);
    node_refused(&node.bytes(), 23, At(0));
    node.records[0] = Record::input(BOOL);
    node_refused(&node.bytes(), 7, At(1));
    node.records[1] = Record::multiple(0, 3);
    node.records.push(Record::input(INT));
    node_refused(&node.bytes(), 7, At(2));
    node.records[2] = Record::input(BOOL);
    node_refused(&node.bytes(), 8, At(1));
    // 5 comes before all of them.
    node.records[1] = Record::multiple(0, 1);
    node.records[2].k = 1;
    node_refused(&node.bytes(), 5, At(2));
}

#[test]
fn the_order_of_records_in_order_is_theirs() {
    let (node, _) = two_bands();
    assert_eq!(order(&node), [0, 1, 2, 3, 4, 5]);
    let mut random = Random::new(30);
    for size in 1..=64 {
        let node = random::node(&mut random, size);
        let own: Vec<u8> = (0..64).take(size).collect();
        assert_eq!(order(&node), own);
    }
}

#[test]
fn the_lowest_that_is_ready_is_next() {
    // 0 is not 6; 1 is 4 and 5; 2 is not 7; 3 a constant; 4 not 3; 5 not 4;
    // 6 an input; 7 is not 0.
    let records = vec![
        Record::not(6),
        Record::and(4, 5),
        Record::not(7),
        Record::constant(BOOL, 1),
        Record::not(3),
        Record::not(4),
        Record::input(BOOL),
        Record::not(0),
    ];
    let node = NodeFile::new(records, 0);
    assert_eq!(order(&node), [3, 4, 5, 1, 6, 0, 7, 2]);
    let mut session = begun(&node);
    let values = answer(&mut session, &[1], 8);
    assert_eq!(values, Ok(vec![0, 0, 0, 1, 0, 1, 1, 1]));
}

#[test]
fn two_bands_with_the_property_first() {
    let (node, certificate) = two_bands();
    let first = Renumbering::first(5, 6);
    let records = vec![
        Record::not(5),
        Record::input(BOOL),
        Record::input(BOOL),
        Record::not(1),
        Record::and(2, 3),
        Record::and(1, 4),
    ];
    let moved = first.node(&node);
    assert_eq!(moved, NodeFile::new(records, 0));
    assert_eq!(order(&moved), [1, 2, 3, 4, 5, 0]);
    common::accepted(&moved, &first.certificate(&certificate));
    let mut session = begun(&moved);
    let values = answer(&mut session, &[1, 1], 6);
    assert_eq!(values, Ok(vec![1, 1, 1, 0, 0, 0]));
    // The certificate of the one is not the other's.
    common::refused(&moved, &certificate, 18, Line(0));
}

#[test]
fn sixty_four_streams_wholly_reversed() {
    let node = chain(64, Record::input(BOOL));
    assert_eq!(order(&node), (0..64).rev().collect::<Vec<u8>>());
    let mut session = begun(&node);
    for input in [0, 1] {
        let expected: Vec<i64> = (0..64).map(|i| input ^ (1 - i % 2)).collect();
        assert_eq!(answer(&mut session, &[input], 64), Ok(expected));
    }
}

#[test]
fn the_first_in_the_order_is_the_place_of_34() {
    // Where all three sums leave the range, 1 is the first and 0 the lowest.
    let records = vec![
        Record::sum(3, 2),
        Record::sum(2, 2),
        Record::input(INT),
        Record::multiple(3, 2),
        Record::constant(BOOL, 1),
    ];
    let mut node = NodeFile::new(records, 4);
    assert_eq!(order(&node), [2, 1, 3, 0, 4]);
    let mut session = begun(&node);
    let at = |place| Err(Refusal::new(34, At(place)));
    let third = i64::MAX / 3;
    assert_eq!(answer(&mut session, &[i64::MAX], 5), at(1));
    assert_eq!(answer(&mut session, &[third + 1], 5), at(3));
    assert_eq!(answer(&mut session, &[third], 5), at(0));
    let fits = third / 2;
    let values = vec![4 * fits, 2 * fits, fits, 3 * fits, 1];
    assert_eq!(answer(&mut session, &[fits], 5), Ok(values));
    // In record order the lowest is the first.
    node.records.swap(0, 2);
    node.records[1] = Record::sum(0, 0);
    node.records[2] = Record::sum(3, 0);
    node.records[3] = Record::multiple(3, 0);
    assert_eq!(order(&node), [0, 1, 3, 2, 4]);
    assert_eq!(answer(&mut begun(&node), &[i64::MAX], 5), at(1));
    assert_eq!(answer(&mut begun(&node), &[third + 1], 5), at(3));
}

#[test]
fn inputs_and_33_keep_record_order() {
    let records = vec![
        Record::not(2),
        Record::sum(3, 3),
        Record::input(BOOL),
        Record::input(INT),
        Record::input(BOOL),
    ];
    let mut session = begun(&NodeFile::new(records, 0));
    let values = answer(&mut session, &[1, 20, 0], 5);
    assert_eq!(values, Ok(vec![0, 40, 1, 20, 0]));
    let at = |place| Err(Refusal::new(33, At(place)));
    assert_eq!(answer(&mut session, &[2, 20, 2], 5), at(2));
    assert_eq!(answer(&mut session, &[1, i64::MAX, 2], 5), at(4));
}

#[test]
fn an_operand_one_instant_before_is_where_it_was() {
    // 0 counts what 1 adds to it: 0 is 2 -> pre 1, 1 is 0 + 3.
    let records = vec![
        Record::arrow_pre(INT, 2, 1),
        Record::sum(0, 3),
        Record::constant(INT, 10),
        Record::constant(INT, 5),
        Record::input(BOOL),
    ];
    let node = NodeFile::new(records, 4);
    assert_eq!(order(&node), [2, 0, 3, 1, 4]);
    let mut session = begun(&node);
    for base in [10, 15, 20, 25] {
        let values = vec![base, base + 5, 10, 5, 0];
        assert_eq!(answer(&mut session, &[0], 5), Ok(values));
    }
}

#[test]
fn a_loop_is_no_node() {
    let (node, certificate) = two_bands();
    let mut wrong = node.clone();
    wrong.note = b"two bands".to_vec();
    wrong.records[2] = Record::not(4);
    let refusal = Refusal::new(23, At(2));
    let mut session = begun(&node);
    let held = session.clone();
    assert_eq!(begin(&mut session, &wrong.bytes()), Err(refusal));
    assert_eq!(session, held);
    let verdict = certificate::check(&wrong.bytes(), &certificate.bytes());
    assert_eq!(verdict, Err(refusal));
    assert_eq!(certificate::check(&wrong.bytes(), &[]), Err(refusal));
    // 30: the record holds no node that passes 23.
    session.bytes[2 * 16 + 2] = 4;
    let before = session.clone();
    let no_node = Err(Refusal::new(30, File));
    assert_eq!(answer(&mut session, &[1, 1], 6), no_node);
    assert_eq!(session, before);
    // What is higher but returns to nothing is a node.
    session.bytes[2 * 16 + 2] = 1;
    session.bytes[3 * 16 + 2] = 5;
    session.bytes[4 * 16 + 4] = 1;
    let values = answer(&mut session, &[1, 1], 6);
    assert_eq!(values, Ok(vec![1, 1, 0, 0, 1, 0]));
}

/// Every order in which each of the records comes after those it needs now.
fn orders(records: &[Record]) -> Vec<Vec<u8>> {
    let mut found = vec![Vec::new()];
    for _ in records {
        let mut longer = Vec::new();
        for order in &found {
            let is_placed = |stream: u16| order.iter().any(|i| u16::from(*i) == stream);
            let next = (0u8..).zip(records).filter(|(i, record)| {
                !order.contains(i) && record.needed_now().into_iter().all(is_placed)
            });
            longer.extend(next.map(|(i, _)| [&order[..], &[i]].concat()));
        }
        found = longer;
    }
    found
}

/// Whether a chain of operands needed now leads from one record to another.
fn leads(records: &[Record], from: u16, to: u16) -> bool {
    let mut reached = records[usize::from(from)].needed_now();
    for _ in records {
        let further = reached
            .iter()
            .flat_map(|i| records[usize::from(*i)].needed_now());
        reached.extend(further.collect::<Vec<_>>());
        reached.sort_unstable();
        reached.dedup();
    }
    reached.contains(&to)
}

/// Every list of four of these.
fn fours(kinds: &[Record]) -> impl Iterator<Item = Vec<Record>> + '_ {
    let size = kinds.len();
    let digits = move |i: usize| [0, 1, 2, 3].map(|place| i / size.pow(place) % size);
    (0..size.pow(4)).map(move |i| digits(i).map(|digit| kinds[digit]).to_vec())
}

/// 02: "It is refused just when some chain of such operands returns to its
/// start." Else its order is the first of all in which each record comes after
/// those it needs now, as words come one before the other.
#[test]
fn every_node_of_four_records() {
    let mut kinds = vec![Record::input(BOOL)];
    for a in 0..4 {
        kinds.push(Record::arrow_pre(BOOL, a, 3 - a));
        kinds.extend((a..4).map(|b| Record::and(a, b)));
    }
    let (mut refused, mut accepted) = (0, 0);
    for records in fours(&kinds) {
        let returns: Vec<u16> = (0..4).filter(|i| leads(&records, *i, *i)).collect();
        let node = NodeFile::new(records.clone(), 0);
        match orders(&records).into_iter().min() {
            Some(first) => {
                assert!(returns.is_empty());
                assert_eq!(order(&node), first);
                accepted += 1;
            }
            None => {
                let waits = |i: &u16| returns.iter().any(|to| i == to || leads(&records, *i, *to));
                let lowest = (0..4).find(waits).unwrap();
                node_refused(&node.bytes(), 23, At(lowest.into()));
                refused += 1;
            }
        }
    }
    assert_eq!(refused + accepted, 15 * 15 * 15 * 15);
    assert!(refused > 10_000 && accepted > 1_000, "{refused} {accepted}");
}

/// Accepted certificates stay accepted where records and streams are
/// renumbered together.
#[test]
fn certificates_go_with_their_nodes() {
    let mut random = Random::new(31);
    for (node, certificate) in examples::certified() {
        let n = count(&node);
        let mut all = vec![
            Renumbering::reversed(n),
            Renumbering::first(node.property, n),
        ];
        all.extend((0..20).map(|_| Renumbering::random(&mut random, n)));
        for other in all {
            common::accepted(&other.node(&node), &other.certificate(&certificate));
        }
    }
}

/// A node and the same in another order have the same values by name, and are
/// refused with 34 at the same instants.
#[test]
fn values_do_not_depend_on_the_order() {
    let mut random = Random::new(32);
    let (mut answered, mut refused) = (0, 0);
    for i in 0..3_000 {
        let node = random::node(&mut random, 1 + i % 64);
        let other = Renumbering::random(&mut random, count(&node));
        let mut sessions = [begun(&node), begun(&other.node(&node))];
        for _ in 0..6 {
            let types = node.records.iter().filter(|record| record.operator == 0);
            let inputs: Vec<i64> = types.map(|r| random.input(r.type_byte)).collect();
            let [one, two] = &mut sessions;
            let own = answer(one, &inputs, node.records.len());
            let moved = answer(two, &other.inputs(&node, &inputs), node.records.len());
            match (own, moved) {
                (Ok(own), Ok(moved)) => {
                    assert_eq!(other.values(&own), moved);
                    answered += 1;
                }
                (Err(own), Err(moved)) => {
                    assert_eq!([own.number, moved.number], [34, 34]);
                    refused += 1;
                }
                (own, moved) => panic!("{own:?}, but {moved:?}"),
            }
        }
    }
    assert!(answered > 10_000 && refused > 500, "{answered} {refused}");
}
