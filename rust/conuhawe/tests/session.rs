//! Sessions on the two bands, and on records of any bytes.

mod common;

use common::{two_bands, with_note, FILE, LAST, SPARE, STARTED, TRIAL};
use conuhawe::{Place, Refusal, Session};
use reference::build::random::Random;

fn two_bands_session() -> Session {
    Session::begin(&two_bands().0).unwrap()
}

/// A call that must be refused, and leave session and slice.
fn refuses(session: &mut Session, inputs: &[i64], room: usize, number: usize, place: Place) {
    let before = session.clone();
    let mut values = vec![-7; room];
    let answer = session.instant(inputs, &mut values);
    assert_eq!(answer, Err(Refusal { number, place }));
    assert_eq!(*session, before);
    assert_eq!(values, vec![-7; room]);
}

#[test]
fn three_instants() {
    let mut session = two_bands_session();
    let mut values = [-7; 6];
    assert!(!session.started());
    for (inputs, expected) in [
        ([1, 1], [1, 1, 0, 0, 0, 1]),
        ([0, 1], [0, 1, 1, 1, 0, 1]),
        ([1, 0], [1, 0, 0, 0, 0, 1]),
    ] {
        assert_eq!(session.instant(&inputs, &mut values), Ok(()));
        assert_eq!(values, expected);
        assert!(session.started());
    }
}

#[test]
fn refusals_leave_session_and_slice() {
    let mut session = two_bands_session();
    for _ in 0..2 {
        refuses(&mut session, &[1], 6, 31, Place::File);
        refuses(&mut session, &[], 6, 31, Place::File);
        refuses(&mut session, &[1, 1], 5, 32, Place::File);
        refuses(&mut session, &[1, 1], 0, 32, Place::File);
        refuses(&mut session, &[1, 2], 6, 33, Place::Record(1));
        session.instant(&[1, 0], &mut [0; 6]).unwrap();
    }
}

#[test]
fn a_refused_beginning_leaves_the_session() {
    let mut session = two_bands_session();
    session.instant(&[1, 0], &mut [0; 6]).unwrap();
    let before = session.clone();
    let refusal = session.begin_again(&[0; 15]).unwrap_err();
    assert_eq!((refusal.number, refusal.place), (1, Place::File));
    assert_eq!(session, before);
}

#[test]
fn a_beginning_depends_on_the_node_alone() {
    let (node, _) = two_bands();
    let fresh = Session::begin(&node).unwrap();
    let mut other = Session::from_bytes([0xab; Session::SIZE]);
    other.begin_again(&with_note(b"note", &node)).unwrap();
    assert_eq!(other, fresh);
}

#[test]
fn bytes_bring_a_session_back() {
    let mut session = two_bands_session();
    session.instant(&[1, 0], &mut [0; 6]).unwrap();
    assert_eq!(Session::from_bytes(session.to_bytes()), session);
}

#[test]
fn any_started_byte_is_taken() {
    let mut session = two_bands_session();
    session.instant(&[1, 0], &mut [0; 6]).unwrap();
    for started in 1..=255 {
        let mut bytes = session.to_bytes();
        bytes[STARTED] = started;
        bytes[SPARE..].fill(0x5a);
        let mut other = Session::from_bytes(bytes);
        refuses(&mut other, &[2, 0], 6, 33, Place::Record(0));
        let mut values = [0; 6];
        other.instant(&[1, 1], &mut values).unwrap();
        assert_eq!(values, [1, 1, 0, 0, 0, 1]);
        assert_eq!(other.to_bytes()[STARTED..], [1, 0, 0, 0, 0, 0, 0, 0]);
    }
}

#[test]
fn records_of_random_bytes_hold_no_node() {
    let mut random = Random::new(61);
    for _ in 0..2_000 {
        let mut session = Session::from_bytes(std::array::from_fn(|_| random.byte()));
        refuses(&mut session, &[1, 1], 6, 30, Place::File);
    }
}

/// Damaged records, the length too: the call answers or refuses, and what it
/// refuses is left.
#[test]
fn damaged_records_are_answered_or_left() {
    let mut random = Random::new(62);
    let bytes = two_bands_session().to_bytes();
    let mut answered = 0;
    for _ in 0..20_000 {
        let mut bytes = bytes;
        for _ in 0..1 + random.below(3) {
            // Length, first values, the node file, and what follows it.
            let parts = [(0, 8), (LAST, 56), (TRIAL, 56), (FILE, 112), (STARTED, 8)];
            let (start, size) = parts[random.below(parts.len())];
            bytes[start + random.below(size)] = random.byte();
        }
        let mut session = Session::from_bytes(bytes);
        let mut values = [-7; 6];
        match session.instant(&[1, 1], &mut values) {
            Ok(()) => answered += 1,
            Err(_) => {
                assert_eq!(session.to_bytes(), bytes);
                assert_eq!(values, [-7; 6]);
            }
        }
    }
    assert!(answered > 0);
}
