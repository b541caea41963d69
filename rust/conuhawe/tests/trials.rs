//! Trials and commits: what each leaves, what refuses it, and that trials and
//! the commit of the last are one instant's call.

mod common;

use common::{two_bands, FILE, HELD, LAST, SPARE, STARTED, TRIAL};
use conuhawe::{Place, Refusal, Session};
use reference::build::random::Random;
use reference::build::{NodeFile, Record, BOOL, INT};

/// How many streams the counter has.
const STREAMS: usize = 7;
/// Its bool streams.
const BOOLS: [usize; 3] = [0, 5, 6];
/// Numbers that are no bool's.
const NO_BOOLS: [i64; 5] = [2, -1, i64::MIN, i64::MAX, 1 << 32];

/// What is booked so far, and whether the instant before was asked for.
fn counter() -> Vec<u8> {
    let records = vec![
        Record::input(BOOL),
        Record::input(INT),
        Record::constant(INT, 0),
        Record::arrow_pre(INT, 2, 4),
        Record::sum(3, 1),
        Record::constant(BOOL, 1),
        Record::arrow_pre(BOOL, 5, 0),
    ];
    NodeFile::new(records, 6).bytes()
}

fn begun() -> Session {
    Session::begin(&counter()).unwrap()
}

/// A session past instant 0, with 40 booked.
fn past() -> Session {
    let mut session = begun();
    session.instant(&[1, 40], &mut [0; STREAMS]).unwrap();
    session
}

/// A trial that is answered; gives its values.
fn tried(session: &mut Session, inputs: [i64; 2]) -> [i64; STREAMS] {
    let mut values = [-7; STREAMS];
    assert_eq!(session.trial(&inputs, &mut values), Ok(()));
    assert!(session.holds_trial());
    values
}

/// The session after an instant's call that is answered.
fn moved(mut session: Session, inputs: [i64; 2]) -> Session {
    let mut values = [-7; STREAMS];
    assert_eq!(session.instant(&inputs, &mut values), Ok(()));
    session
}

/// The session after a commit that is answered.
fn committed(mut session: Session) -> Session {
    assert_eq!(session.commit(), Ok(()));
    session
}

type Call = fn(&mut Session, &[i64], &mut [i64]) -> Result<(), Refusal>;

/// The calls that take inputs.
const CALLS: [Call; 2] = [Session::instant, Session::trial];

/// A call that must be refused, and leave session and slice.
fn refuses(
    session: &mut Session,
    call: Call,
    (inputs, room): (&[i64], usize),
    number: usize,
    place: Place,
) {
    let before = session.clone();
    let mut values = vec![-7; room];
    let answer = call(session, inputs, &mut values);
    assert_eq!(answer, Err(Refusal { number, place }));
    assert_eq!(*session, before);
    assert_eq!(values, vec![-7; room]);
}

/// A commit that must be refused, and leave the session.
fn refuses_commit(session: &mut Session, number: usize) {
    let before = session.clone();
    let place = Place::File;
    assert_eq!(session.commit(), Err(Refusal { number, place }));
    assert_eq!(*session, before);
}

/// Every refusal of a call with inputs, on a right record with 40 booked or
/// none.
fn refuses_all(session: &mut Session) {
    for call in CALLS {
        refuses(session, call, (&[1], STREAMS), 31, Place::File);
        refuses(session, call, (&[1, 2, 3], STREAMS), 31, Place::File);
        refuses(session, call, (&[], 0), 31, Place::File);
        refuses(session, call, (&[2, 1], STREAMS - 1), 32, Place::File);
        refuses(session, call, (&[1, 1], STREAMS + 1), 32, Place::File);
        refuses(session, call, (&[1, 1], 0), 32, Place::File);
        for wrong in NO_BOOLS {
            refuses(session, call, (&[wrong, 1], STREAMS), 33, Place::Record(0));
        }
    }
}

/// Too much for a session with some booked.
fn refuses_size(session: &mut Session) {
    for call in CALLS {
        let inputs = [1, i64::MAX];
        refuses(session, call, (&inputs, STREAMS), 34, Place::Record(4));
    }
}

/// The session with other bytes from an offset on.
fn with(session: &Session, at: usize, other: &[u8]) -> Session {
    let mut bytes = session.to_bytes();
    bytes[at..at + other.len()].copy_from_slice(other);
    Session::from_bytes(bytes)
}

/// The session with another number for a stream, among values that begin at an
/// offset.
fn with_number(session: &Session, values: usize, stream: usize, number: i64) -> Session {
    with(session, values + 8 * stream, &number.to_le_bytes())
}

#[test]
fn the_record() {
    assert_eq!(Session::SIZE, 2_080);
    assert_eq!(
        [TRIAL, FILE, STARTED, HELD, SPARE],
        [520, 1_032, 2_072, 2_073, 2_074]
    );
}

#[test]
fn a_trial_does_not_advance() {
    let mut session = begun();
    for _ in 0..3 {
        assert_eq!(tried(&mut session, [1, 40]), [1, 40, 0, 0, 40, 1, 1]);
        assert_eq!(tried(&mut session, [0, -9]), [0, -9, 0, 0, -9, 1, 1]);
        assert!(!session.started());
    }
    let mut session = committed(session);
    assert!(session.started() && !session.holds_trial());
    for _ in 0..3 {
        assert_eq!(tried(&mut session, [1, 40]), [1, 40, 0, -9, 31, 1, 0]);
        assert_eq!(tried(&mut session, [1, 1]), [1, 1, 0, -9, -8, 1, 0]);
    }
    let mut session = committed(session);
    assert_eq!(tried(&mut session, [0, 0]), [0, 0, 0, -8, -8, 1, 1]);
}

/// What a trial writes of the record: its values with zeros after them, `held`
/// and the bytes that are not read.
#[test]
fn a_trial_writes_its_own_part() {
    for session in [begun(), past()] {
        let mut tried_on = with(&session, TRIAL, &[0x5a; 512]);
        tried_on = with(&tried_on, SPARE, &[0x5a; 6]);
        let values = tried(&mut tried_on, [0, -9]);
        let (before, after) = (session.to_bytes(), tried_on.to_bytes());
        assert_eq!(after[..TRIAL], before[..TRIAL]);
        assert_eq!(after[FILE..HELD], before[FILE..HELD]);
        assert_eq!(after[HELD..], [1, 0, 0, 0, 0, 0, 0]);
        let (numbers, _) = after[TRIAL..FILE].as_chunks();
        let numbers: Vec<i64> = numbers.iter().copied().map(i64::from_le_bytes).collect();
        assert_eq!(numbers[..STREAMS], values);
        assert_eq!(numbers[STREAMS..], [0; 64 - STREAMS]);
    }
}

#[test]
fn trials_and_a_commit_are_one_instant() {
    let mut random = Random::new(91);
    let (mut by_trials, mut at_once) = (begun(), begun());
    for t in 0..2_000 {
        let mut last = [0; STREAMS];
        let mut inputs = [0; 2];
        for _ in 0..1 + random.below(4) {
            inputs = [random.input(BOOL), t - random.input(BOOL)];
            last = tried(&mut by_trials, inputs);
        }
        refuses_all(&mut by_trials);
        by_trials = committed(by_trials);
        let mut values = [-7; STREAMS];
        assert_eq!(at_once.instant(&inputs, &mut values), Ok(()));
        assert_eq!(values, last);
        assert_eq!(by_trials, at_once, "instant {t}");
    }
}

#[test]
fn refusals_leave_session_and_slice() {
    for mut session in [begun(), past()] {
        refuses_all(&mut session);
        tried(&mut session, [1, 40]);
        refuses_all(&mut session);
    }
    let mut session = past();
    refuses_size(&mut session);
    tried(&mut session, [0, 1]);
    refuses_size(&mut session);
    assert_eq!(committed(session), moved(past(), [0, 1]));
}

/// What a trial books is not booked: after it an instant has as much room as
/// before.
#[test]
fn a_trial_takes_no_room() {
    let mut session = begun();
    tried(&mut session, [1, i64::MAX]);
    let values = tried(&mut session, [1, i64::MAX]);
    assert_eq!(values[4], i64::MAX);
    assert_eq!(moved(session, [1, i64::MAX]), moved(begun(), [1, i64::MAX]));
}

#[test]
fn a_commit_needs_a_trial() {
    let mut session = begun();
    refuses_commit(&mut session, 35);
    tried(&mut session, [1, 40]);
    let mut session = committed(session);
    refuses_commit(&mut session, 35);
    assert_eq!(session, past());
    tried(&mut session, [1, 2]);
    let mut session = moved(session, [0, 5]);
    refuses_commit(&mut session, 35);
    tried(&mut session, [1, 2]);
    session.begin_again(&counter()).unwrap();
    refuses_commit(&mut session, 35);
}

#[test]
fn an_instant_drops_a_trial() {
    for session in [begun(), past()] {
        let mut other = session.clone();
        tried(&mut other, [1, 3]);
        assert_eq!(moved(other, [0, 5]), moved(session, [0, 5]));
    }
}

#[test]
fn a_beginning_drops_a_trial_where_it_is_answered() {
    for mut session in [begun(), past()] {
        tried(&mut session, [1, 3]);
        let before = session.clone();
        for length in [0, 15, 100] {
            assert!(session.begin_again(&counter()[..length]).is_err());
            assert_eq!(session, before);
        }
        session.begin_again(&two_bands().0).unwrap();
        assert_eq!(session, Session::begin(&two_bands().0).unwrap());
    }
}

#[test]
fn bytes_bring_a_trial_back() {
    let mut session = past();
    tried(&mut session, [1, 3]);
    let back = Session::from_bytes(session.to_bytes());
    assert_eq!(committed(back), moved(past(), [1, 3]));
}

#[test]
fn any_held_byte_is_taken() {
    let mut session = past();
    let none = with(&session, SPARE, &[0x5a; 6]);
    tried(&mut session, [1, 3]);
    for held in 1..=255 {
        let other = with(&session, HELD, &[held, 9, 9, 9, 9, 9, 9]);
        assert!(other.holds_trial());
        refuses_size(&mut other.clone());
        assert_eq!(committed(other.clone()), moved(past(), [1, 3]));
        assert_eq!(moved(other.clone(), [0, 5]), moved(past(), [0, 5]));
        let mut again = other;
        tried(&mut again, [1, 3]);
        assert_eq!(again, session);
    }
    refuses_commit(&mut none.clone(), 35);
}

/// Any byte but 0 counts as past instant 0, and a trial leaves it.
#[test]
fn any_started_byte_is_taken() {
    for started in 1..=255 {
        let mut session = with(&past(), STARTED, &[started]);
        assert_eq!(tried(&mut session, [1, 3]), [1, 3, 0, 40, 43, 1, 1]);
        assert_eq!(session.to_bytes()[STARTED], started);
        assert_eq!(committed(session), moved(past(), [1, 3]));
    }
}

/// A bool of the held trial that is not 0 or 1 is 30, before instant 0 too; of
/// a slot where none is held nothing is looked at.
#[test]
fn bools_of_a_held_trial() {
    for session in [begun(), past()] {
        for (stream, wrong) in BOOLS.into_iter().flat_map(|i| NO_BOOLS.map(|n| (i, n))) {
            let mut held = session.clone();
            tried(&mut held, [1, 3]);
            let mut held = with_number(&held, TRIAL, stream, wrong);
            for call in CALLS {
                refuses(&mut held, call, (&[1, 3], STREAMS), 30, Place::File);
                refuses(&mut held, call, (&[], 0), 30, Place::File);
            }
            refuses_commit(&mut held, 30);

            let mut none = with_number(&session, TRIAL, stream, wrong);
            refuses_commit(&mut none, 35);
            assert_eq!(moved(none.clone(), [0, 5]), moved(session.clone(), [0, 5]));
            tried(&mut none, [0, 5]);
            assert_eq!(committed(none), moved(session.clone(), [0, 5]));
        }
    }
}

/// Past instant 0 a bool of the last committed instant that is not 0 or 1 is
/// 30, for a commit too; before it nothing is looked at.
#[test]
fn bools_of_the_last_instant() {
    for (stream, wrong) in BOOLS.into_iter().flat_map(|i| NO_BOOLS.map(|n| (i, n))) {
        let mut session = past();
        tried(&mut session, [1, 3]);
        let mut session = with_number(&session, LAST, stream, wrong);
        for call in CALLS {
            refuses(&mut session, call, (&[1, 3], STREAMS), 30, Place::File);
        }
        refuses_commit(&mut session, 30);
        let mut first = with(&session, STARTED, &[0]);
        assert_eq!(tried(&mut first, [1, 3]), [1, 3, 0, 0, 3, 1, 1]);
        assert_eq!(committed(first), moved(begun(), [1, 3]));
    }
}

/// Ints of a lent trial, and numbers past the streams, are not looked at: a
/// commit takes all 64 as they are.
#[test]
fn numbers_that_are_not_looked_at() {
    let mut session = past();
    tried(&mut session, [1, 3]);
    for stream in (0..64).filter(|stream| !BOOLS.contains(stream)) {
        for number in NO_BOOLS {
            let other = with_number(&session, TRIAL, stream, number);
            let expected = with_number(&moved(past(), [1, 3]), LAST, stream, number);
            assert_eq!(committed(other), expected);
        }
    }
}

#[test]
fn records_without_a_node() {
    let mut random = Random::new(92);
    let mut session = past();
    tried(&mut session, [1, 3]);
    let loose = with(&session, FILE, &[16]);
    let longer = with(&session, 0, &1_041_usize.to_le_bytes());
    let drawn = (0..2_000).map(|_| Session::from_bytes(std::array::from_fn(|_| random.byte())));
    let others = [loose, longer, Session::from_bytes([0; Session::SIZE])];
    for mut session in drawn.chain(others) {
        for call in CALLS {
            refuses(&mut session, call, (&[1, 1], STREAMS), 30, Place::File);
        }
        refuses_commit(&mut session, 30);
    }
}
