//! Look-ups: one value of a history, what refuses it and in which order, and
//! that a session shows the same.

mod common;

use common::two_bands;
use conuhawe::{History, Place, Refusal, Session};
use reference::build::random::{self, Random};
use reference::build::renumber::Renumbering;
use reference::build::{NodeFile, Record, BOOL, INT};

/// The most instants of a history that is answered.
const MOST: usize = 16;
/// Numbers that are no bool's.
const NO_BOOLS: [i64; 5] = [2, -1, i64::MIN, i64::MAX, 1 << 32];
/// The counter's streams, and its inputs: 0, 1 and 5.
const STREAMS: usize = 6;
const INPUTS: usize = 3;

fn refused(number: usize, place: Place) -> Result<i64, Refusal> {
    Err(Refusal { number, place })
}

/// What is booked so far, 4, of what is asked for, 0.
fn counter() -> NodeFile {
    let records = vec![
        Record::input(INT),
        Record::input(BOOL),
        Record::constant(INT, 0),
        Record::arrow_pre(INT, 2, 4),
        Record::sum(3, 0),
        Record::input(BOOL),
    ];
    NodeFile::new(records, 1)
}

/// Inputs of the counter: instant t asks for t + 1.
fn inputs(instants: usize) -> Vec<i64> {
    let instant = |t: usize| [t as i64 + 1, t as i64 % 2, 1];
    (0..instants).flat_map(instant).collect()
}

/// A look-up on the counter.
fn on_counter(
    instants: usize,
    inputs: &[i64],
    stream: usize,
    instant: usize,
) -> Result<i64, Refusal> {
    let node = &counter().bytes();
    let history = History {
        node,
        instants,
        inputs,
    };
    history.look_up(stream, instant)
}

/// A look-up of the first stream at the first instant, in a node that is a bool
/// constant and some bool inputs.
fn on_bools(count: usize, instants: usize, inputs: &[i64]) -> Result<i64, Refusal> {
    let mut records = vec![Record::constant(BOOL, 1)];
    records.resize(1 + count, Record::input(BOOL));
    let node = &NodeFile::new(records, 0).bytes();
    let history = History {
        node,
        instants,
        inputs,
    };
    history.look_up(0, 0)
}

#[test]
fn each_value_of_the_two_bands() {
    let (node, _) = two_bands();
    let history = History {
        node: &node,
        instants: 3,
        inputs: &[1, 1, 0, 1, 1, 0],
    };
    let values = [[1, 1, 0, 0, 0, 1], [0, 1, 1, 1, 0, 1], [1, 0, 0, 0, 0, 1]];
    for (instant, values) in values.iter().enumerate() {
        for (stream, value) in values.iter().enumerate() {
            assert_eq!(history.look_up(stream, instant), Ok(*value));
        }
    }
}

#[test]
fn each_instant_has_its_own_inputs() {
    for instants in 1..=MOST {
        let inputs = inputs(instants);
        for t in 0..instants {
            let (asked, before) = (t as i64 + 1, (t * (t + 1) / 2) as i64);
            let values = [asked, t as i64 % 2, 0, before, before + asked, 1];
            for (stream, value) in values.into_iter().enumerate() {
                let answer = on_counter(instants, &inputs, stream, t);
                assert_eq!(answer, Ok(value), "{stream} at {t} of {instants}");
            }
        }
    }
}

#[test]
fn a_note_plays_no_part() {
    let mut node = counter();
    node.note = b"short pass".to_vec();
    let history = History {
        node: &node.bytes(),
        instants: 4,
        inputs: &inputs(4),
    };
    assert_eq!(history.look_up(4, 3), Ok(10));
}

/// All else is wrong too: the count of inputs, a bool, the instants.
#[test]
fn the_node_comes_first() {
    let on = |node: &[u8]| {
        let history = History {
            node,
            instants: 17,
            inputs: &[2; 4],
        };
        history.look_up(64, 17)
    };
    let with = |stream: usize, record: Record| {
        let mut node = counter();
        node.records[stream] = record;
        on(&node.bytes())
    };
    assert_eq!(on(&[]), refused(1, Place::File));
    assert_eq!(on(&[0; 16]), refused(2, Place::File));
    let mut unknown = Record::input(INT);
    unknown.operator = 16;
    assert_eq!(with(2, unknown), refused(5, Place::Record(2)));
    assert_eq!(with(4, Record::sum(3, 6)), refused(6, Place::Record(4)));
    assert_eq!(with(4, Record::sum(3, 4)), refused(23, Place::Record(4)));
    assert_eq!(with(4, Record::sum(3, 1)), refused(7, Place::Record(4)));
    assert_eq!(with(1, Record::input(INT)), refused(8, Place::Record(1)));
    assert_eq!(on(&counter().bytes()), refused(31, Place::File));
}

#[test]
fn inputs_are_instants_times_inputs() {
    let given = vec![2; INPUTS * 20];
    for instants in 0..20 {
        for count in (0..=given.len()).filter(|count| *count != INPUTS * instants) {
            let answer = on_counter(instants, &given[..count], STREAMS, instants);
            assert_eq!(answer, refused(31, Place::File), "{instants} {count}");
        }
    }
}

/// Products that come to the count of inputs only where they wrap around.
#[test]
fn products_do_not_wrap() {
    let half = 1 << (usize::BITS - 1);
    for (inputs, instants, count) in [
        (2, half, 0),
        (2, half + 1, 2),
        (2, half + MOST, 2 * MOST),
        (3, usize::MAX / 3 + 1, 2),
        (4, half / 2, 0),
        (4, half + 1, 4),
        (32, half / 16 + 1, 32),
    ] {
        assert_eq!(instants.wrapping_mul(inputs), count);
        let answer = on_bools(inputs, instants, &vec![1; count]);
        assert_eq!(answer, refused(31, Place::File), "{inputs} {instants}");
    }
}

/// Nothing is looked at then, so that no count takes long.
#[test]
fn a_node_without_inputs() {
    for instants in 1..=MOST {
        assert_eq!(on_bools(0, instants, &[]), Ok(1));
    }
    for instants in [0, MOST + 1, 1 << 63, usize::MAX] {
        assert_eq!(on_bools(0, instants, &[]), refused(65, Place::File));
    }
    for instants in [0, 1, MOST, usize::MAX] {
        assert_eq!(on_bools(0, instants, &[2]), refused(31, Place::File));
    }
}

/// 33 comes before 65 and is for the instants after the wanted one too. The
/// second and the third input of an instant are bools, records 1 and 5.
#[test]
fn a_bool_input_is_0_or_1() {
    for instants in [1, 2, MOST, MOST + 1, 3_000] {
        let wanted = [(0, 0), (4, instants - 1), (STREAMS, 0), (0, instants)];
        for (at, record) in [(1, 1), (2, 5), (INPUTS * (instants - 1) + 2, 5)] {
            for wrong in NO_BOOLS {
                let mut given = inputs(instants);
                given[at] = wrong;
                let on = |(stream, instant)| on_counter(instants, &given, stream, instant);
                let expected = [refused(33, Place::Record(record)); 4];
                assert_eq!(wanted.map(on), expected, "{instants} {at} {wrong}");
            }
        }
    }
}

#[test]
fn the_earliest_instant_and_its_lowest_record() {
    let mut given = inputs(MOST);
    given[INPUTS * 9 + 1] = 7;
    assert_eq!(
        on_counter(MOST, &given, 4, 3),
        refused(33, Place::Record(1))
    );
    given[INPUTS * 5 + 2] = 7;
    assert_eq!(
        on_counter(MOST, &given, 4, 3),
        refused(33, Place::Record(5))
    );
    given[INPUTS * 5 + 1] = 7;
    assert_eq!(
        on_counter(MOST, &given, 4, 3),
        refused(33, Place::Record(1))
    );
    // An int input may be any number.
    assert_eq!(on_counter(1, &[7, 0, 0], 0, 0), Ok(7));
}

#[test]
fn out_of_the_history() {
    let far = [63, 64, 1 << 32, usize::MAX];
    for instants in 0..=20 {
        let given = inputs(instants);
        for stream in (0..=STREAMS + 1).chain(far) {
            for instant in (0..=20).chain(far) {
                let is_in = instants <= MOST && stream < STREAMS && instant < instants;
                let answer = on_counter(instants, &given, stream, instant);
                let out = refused(65, Place::File);
                let is_right = if is_in { answer.is_ok() } else { answer == out };
                assert!(is_right, "{instants} {stream} {instant}: {answer:?}");
            }
        }
    }
    let long = inputs(10_000);
    assert_eq!(on_counter(10_000, &long, 4, 0), refused(65, Place::File));
}

/// 65 comes before 34.
#[test]
fn out_of_the_history_comes_before_size() {
    let given = [i64::MAX, 0, 0].repeat(MOST + 1);
    let at_most = &given[..INPUTS * MOST];
    assert_eq!(
        on_counter(MOST, at_most, 4, 1),
        refused(34, Place::Record(4))
    );
    assert_eq!(on_counter(MOST + 1, &given, 4, 1), refused(65, Place::File));
    assert_eq!(on_counter(MOST, at_most, 4, MOST), refused(65, Place::File));
}

/// A node of some streams in any order, and inputs of instants, right in type.
fn drawn(random: &mut Random, streams: usize) -> (Vec<u8>, Vec<Vec<i64>>) {
    let mut node = random::node(random, streams);
    if random.below(2) == 0 {
        node = Renumbering::random(random, streams as u16).node(&node);
    }
    let given = node.records.iter().filter(|record| record.operator == 0);
    let types: Vec<u8> = given.map(|record| record.type_byte).collect();
    let mut instant = || types.iter().map(|own| random.input(*own)).collect();
    let inputs = (0..MOST).map(|_| instant()).collect();
    (node.bytes(), inputs)
}

/// The values of each instant that a session answers, up to the first refusal,
/// and that.
fn shown(node: &[u8], streams: usize, inputs: &[Vec<i64>]) -> (Vec<Vec<i64>>, Option<Refusal>) {
    let mut session = Session::begin(node).unwrap();
    let mut shown = Vec::new();
    for given in inputs {
        let mut values = vec![0; streams];
        if let Err(refusal) = session.instant(given, &mut values) {
            return (shown, Some(refusal));
        }
        shown.push(values);
    }
    (shown, None)
}

/// Every value of every instant that a session answers; and where it stops, 34
/// for the stream that it names.
#[test]
fn a_session_shows_the_same() {
    let mut random = Random::new(111);
    let (mut answered, mut stopped) = (0, 0);
    for streams in (3..=64).cycle().take(1_000) {
        let (node, inputs) = drawn(&mut random, streams);
        let (shown, refusal) = shown(&node, streams, &inputs);
        let history = History {
            node: &node,
            instants: MOST,
            inputs: &inputs.concat(),
        };
        for (t, values) in shown.iter().enumerate() {
            let own = (0..streams).map(|stream| history.look_up(stream, t));
            assert_eq!(own.collect::<Result<Vec<_>, _>>().as_ref(), Ok(values));
        }
        answered += shown.len();
        if let Some(refusal) = refusal {
            let Place::Record(stream) = refusal.place else {
                panic!("{refusal}");
            };
            assert_eq!(history.look_up(stream, shown.len()), Err(refusal));
            stopped += 1;
        }
    }
    assert!(answered >= 3_000 && stopped >= 100, "{answered} {stopped}");
}
