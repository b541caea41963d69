//! Tables of ranges: what is listed, what refuses a table, and why inputs
//! have to be inside.

use conuhawe::{ranges, Place, Refusal, Session};
use reference::build::{NodeFile, Record, BOOL, INT};

/// A range's limit.
const LIMIT: i64 = 4_000_000_000;
/// The ends of a bool stream.
const NONE: [i64; 2] = [0, 0];

fn refused(number: usize, place: Place) -> Result<(), Refusal> {
    Err(Refusal { number, place })
}

/// The answer on the node and the ends of each stream.
fn answer(node: &NodeFile, ends: &[[i64; 2]]) -> Result<(), Refusal> {
    ranges(&node.bytes(), ends.as_flattened())
}

/// A level that rises and falls by an input and is held between 0 and 100.
fn held() -> NodeFile {
    let records = vec![
        Record::constant(BOOL, 1),
        Record::input(INT),
        Record::constant(INT, 0),
        Record::constant(INT, 100),
        Record::arrow_pre(INT, 2, 7),
        Record::sum(4, 1),
        Record::lesser(5, 3),
        Record::greater(6, 2),
    ];
    NodeFile::new(records, 0)
}

/// Its ranges, as narrow as may be.
const HELD: [[i64; 2]; 8] = [
    NONE,
    [-5, 5],
    [0, 0],
    [100, 100],
    [0, 100],
    [-5, 105],
    [-5, 100],
    [0, 100],
];

/// The ranges with those of one stream replaced.
fn with(stream: usize, own: [i64; 2]) -> [[i64; 2]; 8] {
    let mut ends = HELD;
    ends[stream] = own;
    ends
}

#[test]
fn a_held_level_is_listed() {
    assert_eq!(answer(&held(), &HELD), Ok(()));
    let mut node = held();
    node.note = b"flight list".to_vec();
    assert_eq!(answer(&node, &HELD), Ok(()));
}

#[test]
fn the_node_comes_first() {
    assert_eq!(ranges(&[], &[]), refused(1, Place::File));
    let wrong = |stream: usize, record: Record| {
        let mut node = held();
        node.records[stream] = record;
        // No table is right for it, nor is this one for any node.
        answer(&node, &[[1, -1]; 65])
    };
    let mut unknown = Record::lesser(5, 3);
    unknown.operator = 16;
    assert_eq!(wrong(6, unknown), refused(5, Place::Record(6)));
    let past = Record::lesser(5, 8);
    assert_eq!(wrong(6, past), refused(6, Place::Record(6)));
    let own = Record::greater(7, 2);
    assert_eq!(wrong(7, own), refused(23, Place::Record(7)));
    let of_a_bool = Record::lesser(5, 0);
    assert_eq!(wrong(6, of_a_bool), refused(7, Place::Record(6)));
    let number = Record::constant(INT, 1);
    assert_eq!(wrong(0, number), refused(8, Place::Record(0)));
}

#[test]
fn a_table_has_two_numbers_a_stream() {
    let node = held().bytes();
    let mut table = [HELD.as_flattened(), &[0, 0]].concat();
    for numbers in (0..=18).rev().filter(|numbers| *numbers != 16) {
        table.truncate(numbers);
        assert_eq!(ranges(&node, &table), refused(71, Place::File), "{numbers}");
    }
}

#[test]
fn ends_are_in_order_and_within_the_limit() {
    for (stream, own) in [
        (0, [0, 1]),
        (0, [-1, 0]),
        (0, [1, 1]),
        (1, [1, 0]),
        (1, [-5, LIMIT + 1]),
        (1, [-LIMIT - 1, 5]),
        (1, [i64::MIN, i64::MAX]),
        (1, [i64::MAX, i64::MIN]),
        (7, [101, 100]),
    ] {
        let refusal = refused(71, Place::File);
        assert_eq!(answer(&held(), &with(stream, own)), refusal, "{own:?}");
    }
    // Record 2 is not inside either, and is lower.
    let mut both = with(2, [1, 1]);
    both[7] = [100, 0];
    assert_eq!(answer(&held(), &both), refused(71, Place::File));
}

#[test]
fn the_lowest_record_not_inside_is_named() {
    for (stream, own, named) in [
        (1, [-6, 5], 5),
        (1, [-5, 6], 5),
        (2, [1, 1], 2),
        (3, [0, 99], 3),
        (4, [0, 99], 4),
        (5, [-5, 104], 5),
        (6, [-4, 100], 6),
        (7, [1, 100], 7),
        (7, [0, 101], 4),
    ] {
        let refusal = refused(72, Place::Record(named));
        assert_eq!(answer(&held(), &with(stream, own)), refusal, "{own:?}");
    }
    let mut both = with(7, [1, 100]);
    both[5] = [-5, 104];
    assert_eq!(answer(&held(), &both), refused(72, Place::Record(5)));
}

/// What an operator makes of a from −2 to 3 and b from −5 to 7, and with the
/// two exchanged.
fn results() -> Vec<(Record, [i64; 2], [i64; 2])> {
    let of = |record: Record, own: [i64; 2]| (record, own, own);
    vec![
        of(Record::constant(INT, 6), [6, 6]),
        of(Record::sum(0, 1), [-7, 10]),
        (Record::difference(0, 1), [-9, 8], [-8, 9]),
        (Record::multiple(-4, 0), [-12, 8], [-28, 20]),
        (Record::multiple(4, 0), [-8, 12], [-20, 28]),
        of(Record::multiple(0, 0), [0, 0]),
        of(Record::choice(INT, 2, 0, 1), [-5, 7]),
        of(Record::arrow(INT, 0, 1), [-5, 7]),
        of(Record::arrow_pre(INT, 0, 1), [-5, 7]),
        of(Record::lesser(0, 1), [-5, 3]),
        of(Record::greater(0, 1), [-2, 7]),
        // Each operand by itself, the same stream or not.
        (Record::difference(0, 0), [-5, 5], [-12, 12]),
    ]
}

#[test]
fn each_operator_by_its_results() {
    let (a, b) = ([-2, 3], [-5, 7]);
    for (record, own, exchanged) in results() {
        let records = vec![
            Record::input(INT),
            Record::input(INT),
            Record::input(BOOL),
            record,
        ];
        let node = NodeFile::new(records, 2);
        for (first, second, [least, greatest]) in [(a, b, own), (b, a, exchanged)] {
            let of = |own| answer(&node, &[first, second, NONE, own]);
            assert_eq!(of([least, greatest]), Ok(()), "{record:?}");
            assert_eq!(of([least - 1, greatest + 1]), Ok(()), "{record:?}");
            let not_inside = refused(72, Place::Record(3));
            let narrow = [[least + 1, greatest + 1], [least - 1, greatest - 1]];
            assert_eq!(narrow.map(of), [not_inside; 2], "{record:?}");
        }
    }
}

/// Two streams and the property, which is true.
fn of_two(first: Record, second: Record) -> NodeFile {
    NodeFile::new(vec![first, second, Record::constant(BOOL, 1)], 2)
}

/// 1 is K times 0, an input.
fn times(k: i32) -> NodeFile {
    of_two(Record::input(INT), Record::multiple(k, 0))
}

#[test]
fn the_limit_itself_is_inside() {
    let whole = [-LIMIT, LIMIT];
    let often = times(1_000_000_000);
    assert_eq!(answer(&often, &[[-4, 4], whole, NONE]), Ok(()));
    let over = answer(&often, &[[-4, 5], whole, NONE]);
    assert_eq!(over, refused(72, Place::Record(1)));
    assert_eq!(answer(&times(-1), &[whole, whole, NONE]), Ok(()));
}

#[test]
fn a_stream_that_follows_itself_is_inside() {
    let node = of_two(Record::constant(INT, 0), Record::arrow_pre(INT, 0, 1));
    for own in [[0, 0], [-1, 1], [-LIMIT, LIMIT]] {
        assert_eq!(answer(&node, &[[0, 0], own, NONE]), Ok(()));
    }
    let later = answer(&node, &[[0, 0], [1, 2], NONE]);
    assert_eq!(later, refused(72, Place::Record(1)));
}

/// The call on a listed node of three streams.
fn instant(session: &mut Session, input: i64) -> Result<[i64; 3], Refusal> {
    let mut values = [0; 3];
    session.instant(&[input], &mut values).map(|()| values)
}

#[test]
fn an_input_outside_its_range_may_be_too_much() {
    let node = times(1_000_000_000);
    assert_eq!(answer(&node, &[[-4, 4], [-LIMIT, LIMIT], NONE]), Ok(()));
    let mut session = Session::begin(&node.bytes()).unwrap();
    for input in [-4, 4] {
        let values = [input, 1_000_000_000 * input, 1];
        assert_eq!(instant(&mut session, input), Ok(values));
    }
    let too_much = Refusal {
        number: 34,
        place: Place::Record(1),
    };
    assert_eq!(instant(&mut session, i64::MAX), Err(too_much));
}

#[test]
fn an_answered_input_outside_its_range_counts_later() {
    let records = vec![
        Record::input(INT),
        Record::constant(INT, 0),
        Record::arrow_pre(INT, 1, 0),
        Record::sum(2, 2),
        Record::constant(BOOL, 1),
    ];
    let node = NodeFile::new(records, 4);
    let ends = [[-1, 1], [0, 0], [-1, 1], [-2, 2], NONE];
    assert_eq!(answer(&node, &ends), Ok(()));
    let mut session = Session::begin(&node.bytes()).unwrap();
    let mut values = [0; 5];
    assert_eq!(session.instant(&[i64::MAX], &mut values), Ok(()));
    let inside = session.instant(&[0], &mut values);
    assert_eq!(inside, refused(34, Place::Record(3)));
}
