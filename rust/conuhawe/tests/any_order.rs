//! Records in any order, and operands that lead back to their record.

use conuhawe::{check, node_note, read, Accepted, Node, Place, Refusal, Session};
use reference::build::proof::{two_bands_certificate, two_bands_node};
use reference::build::renumber::Renumbering;
use reference::build::{NodeFile, Record, BOOL, INT};

const NO_ORDER: Refusal = Refusal {
    number: 23,
    place: Place::Record(0),
};

/// The values of one instant.
fn values(session: &mut Session, inputs: &[i64], count: usize) -> Result<Vec<i64>, Refusal> {
    let mut values = vec![-7; count];
    session.instant(inputs, &mut values).map(|()| values)
}

#[test]
fn the_property_may_come_first() {
    let other = Renumbering::first(5, 6);
    let node = other.node(&two_bands_node()).bytes();
    let expected = Node {
        streams: 6,
        property: 0,
    };
    assert_eq!(read(&node), Ok(expected));
    let certificate = other.certificate(&two_bands_certificate()).bytes();
    let accepted = Accepted {
        depth: 1,
        base: 23,
        step: 12,
    };
    assert_eq!(check(&node, &certificate), Ok(accepted));
    let mut session = Session::begin(&node).unwrap();
    let own = values(&mut session, &[1, 1], 6);
    assert_eq!(own, Ok(vec![1, 1, 1, 0, 0, 0]));
    let own = values(&mut session, &[0, 1], 6);
    assert_eq!(own, Ok(vec![1, 0, 1, 1, 1, 0]));
}

#[test]
fn a_loop_is_refused() {
    let mut node = two_bands_node();
    node.note = b"two bands".to_vec();
    // 4 is 0 and 3, and 0, which was an input, becomes not 4.
    node.records[0] = Record::not(4);
    let file = node.bytes();
    assert_eq!(read(&file), Err(NO_ORDER));
    assert_eq!(check(&file, &[]), Err(NO_ORDER));
    assert_eq!(Session::begin(&file), Err(NO_ORDER));
    assert_eq!(node_note(&file), b"");
    assert_eq!(NO_ORDER.to_string(), "refused 23 record 0");
    // One instant before, it is no loop.
    node.records[0] = Record::arrow_pre(BOOL, 1, 4);
    assert_eq!(node_note(&node.bytes()), b"two bands");
}

#[test]
fn the_first_in_the_order_is_refused_with_34() {
    let records = vec![
        Record::sum(1, 2),
        Record::sum(2, 2),
        Record::input(INT),
        Record::constant(BOOL, 1),
    ];
    let node = NodeFile::new(records, 3).bytes();
    let mut session = Session::begin(&node).unwrap();
    let at = |record| {
        Err(Refusal {
            number: 34,
            place: Place::Record(record),
        })
    };
    assert_eq!(values(&mut session, &[i64::MAX], 4), at(1));
    assert_eq!(values(&mut session, &[i64::MAX / 2], 4), at(0));
    let third = i64::MAX / 3;
    let all = vec![3 * third, 2 * third, third, 1];
    assert_eq!(values(&mut session, &[third], 4), Ok(all));
}
