//! The session: its values, and refusals 30 to 34.

mod common;

use reference::answer::{Place, Refusal};
use reference::build::proof::two_bands_node;
use reference::build::{NodeFile, Record as R, BOOL, INT};
use reference::session::{begin, instant, Record};

/// A record begun on the node.
fn begun(node: &NodeFile) -> Record {
    let mut record = Record::new();
    begin(&mut record, &node.bytes()).unwrap();
    record
}

/// The values of one answered instant.
#[track_caller]
fn values(record: &mut Record, inputs: &[i64], count: usize) -> Vec<i64> {
    let mut values = vec![77; count];
    instant(record, inputs, &mut values).unwrap();
    values
}

/// The call is refused, and leaves record and slice as they were.
#[track_caller]
fn refused(record: &mut Record, inputs: &[i64], count: usize, number: u8, place: Place) {
    let before = record.clone();
    let mut values: Vec<i64> = (0..).take(count).map(|i| 1000 + i).collect();
    let lent = values.clone();
    let answer = instant(record, inputs, &mut values);
    assert_eq!(answer, Err(Refusal { number, place }));
    assert_eq!(*record, before);
    assert_eq!(values, lent);
}

/// A counter: 0 zero, 1 one, 2 c = zero -> pre d, 3 d = c + one, 4 c at
/// least zero, the property.
fn counter() -> NodeFile {
    let records = vec![
        R::constant(INT, 0),
        R::constant(INT, 1),
        R::arrow_pre(INT, 0, 3),
        R::sum(2, 1),
        R::at_most(0, 2),
    ];
    NodeFile::new(records, 4)
}

#[test]
fn a_counter_counts() {
    let mut record = begun(&counter());
    for c in 0..5 {
        assert_eq!(values(&mut record, &[], 5), [0, 1, c, c + 1, 1]);
    }
}

#[test]
fn beginning_holds_the_node_without_its_note() {
    let mut node = counter();
    let plain = begun(&node);
    node.note = vec![9; 3000];
    let noted = begun(&node);
    assert_eq!(plain, noted);
    assert_eq!(plain.length, 16 * 6);
    assert_eq!(plain.bytes[..96], counter().bytes());
    assert!(plain.bytes[96..].iter().all(|byte| *byte == 0));
    assert!(!plain.answered);
    assert_eq!(plain.last, [0; 64]);
}

#[test]
fn beginning_on_a_running_session_starts_anew() {
    let mut record = begun(&counter());
    values(&mut record, &[], 5);
    values(&mut record, &[], 5);
    begin(&mut record, &two_bands_node().bytes()).unwrap();
    assert_eq!(record, begun(&two_bands_node()));
    begin(&mut record, &counter().bytes()).unwrap();
    assert_eq!(values(&mut record, &[], 5), [0, 1, 0, 1, 1]);
}

#[test]
fn a_refused_beginning_changes_nothing() {
    let mut record = begun(&counter());
    values(&mut record, &[], 5);
    let before = record.clone();
    let file = counter().bytes();
    assert_eq!(begin(&mut record, &[]), Err(Refusal::file(1)));
    assert_eq!(begin(&mut record, &file[1..]), Err(Refusal::file(4)));
    let wrong = common::patched(&file, 4 * 16 + 1, &[1]);
    let typed = Refusal::new(7, Place::Record(4));
    assert_eq!(begin(&mut record, &wrong), Err(typed));
    assert_eq!(record, before);
    assert_eq!(values(&mut record, &[], 5), [0, 1, 1, 2, 1]);
}

#[test]
fn the_longest_node_fits_its_record() {
    let mut records = vec![R::input(BOOL); 63];
    records.push(R::not(62));
    let mut record = begun(&NodeFile::new(records, 63));
    assert_eq!(record.length, 1040);
    let mut inputs = [0; 63];
    inputs[62] = 1;
    let answered = values(&mut record, &inputs, 64);
    assert_eq!(answered[..63], inputs);
    assert_eq!(answered[63], 0);
}

#[test]
fn bool_operators() {
    let records = vec![
        R::input(BOOL),
        R::input(BOOL),
        R::input(BOOL),
        R::constant(BOOL, 1),
        R::constant(BOOL, 0),
        R::not(0),
        R::and(0, 1),
        R::or(0, 1),
        R::same(0, 1),
        R::choice(BOOL, 2, 0, 1),
    ];
    let mut record = begun(&NodeFile::new(records, 3));
    for (a, b, c) in (0..8).map(|i| (i & 1, i >> 1 & 1, i >> 2)) {
        let same = i64::from(a == b);
        let chosen = if c == 1 { a } else { b };
        let expected = [a, b, c, 1, 0, 1 - a, a & b, a | b, same, chosen];
        assert_eq!(values(&mut record, &[a, b, c], 10), expected);
    }
}

#[test]
fn int_operators() {
    let records = vec![
        R::input(INT),
        R::input(INT),
        R::input(BOOL),
        R::constant(INT, -1_000_000_000),
        R::sum(0, 1),
        R::difference(0, 1),
        R::multiple(-3, 0),
        R::at_most(0, 1),
        R::equal(0, 1),
        R::choice(INT, 2, 0, 1),
        R::lesser(0, 1),
        R::greater(0, 1),
    ];
    let mut record = begun(&NodeFile::new(records, 2));
    for (a, b) in [(0, 0), (5, -7), (-7, 5), (i64::MAX / 4, -1), (-2, -2)] {
        for c in [0, 1] {
            let at_most = i64::from(a <= b);
            let equal = i64::from(a == b);
            let chosen = if c == 1 { a } else { b };
            let expected = [
                a,
                b,
                c,
                -1_000_000_000,
                a + b,
                a - b,
                -3 * a,
                at_most,
                equal,
                chosen,
                if a < b { a } else { b },
                if a < b { b } else { a },
            ];
            assert_eq!(values(&mut record, &[a, b, c], 12), expected);
        }
    }
}

#[test]
fn the_lesser_and_the_greater_always_fit() {
    let records = vec![
        R::input(INT),
        R::input(INT),
        R::lesser(0, 1),
        R::greater(0, 1),
        R::greater(0, 0),
        R::input(BOOL),
    ];
    let mut record = begun(&NodeFile::new(records, 5));
    let rising = [i64::MIN, i64::MIN + 1, -1, 0, 1, i64::MAX - 1, i64::MAX];
    for (i, a) in rising.into_iter().enumerate() {
        for (j, b) in rising.into_iter().enumerate() {
            let [lesser, greater] = [rising[i.min(j)], rising[i.max(j)]];
            let expected = [a, b, lesser, greater, a, 0];
            assert_eq!(values(&mut record, &[a, b, 0], 6), expected);
        }
    }
}

#[test]
fn arrows_leave_instant_0_behind() {
    let records = vec![
        R::input(INT),
        R::input(INT),
        R::arrow(INT, 0, 1),
        R::arrow_pre(INT, 0, 1),
        R::arrow_pre(INT, 0, 3),
        R::input(BOOL),
        R::arrow_pre(BOOL, 5, 7),
        R::not(6),
    ];
    let mut record = begun(&NodeFile::new(records, 7));
    assert_eq!(values(&mut record, &[1, 2, 1], 8), [1, 2, 1, 1, 1, 1, 1, 0]);
    assert_eq!(values(&mut record, &[3, 4, 1], 8), [3, 4, 4, 2, 1, 1, 0, 1]);
    assert_eq!(values(&mut record, &[5, 6, 1], 8), [5, 6, 6, 4, 2, 1, 1, 0]);
}

#[test]
fn refusal_30_no_node() {
    refused(&mut Record::new(), &[], 0, 30, Place::File);
    let good = begun(&two_bands_node());
    for length in [0, 15, 16, 111, 113, 1040, 1041, 5000, usize::MAX] {
        let mut record = good.clone();
        record.length = length;
        refused(&mut record, &[1, 1], 6, 30, Place::File);
    }
    // One fault for each of 2 to 7 and 23, and below for 8.
    let trailer = 6 * 16;
    let faults = [
        (trailer, 0),
        (trailer + 4, 0),
        (trailer + 8, 0),
        (0, 16),
        (2 * 16 + 2, 6),
        (2 * 16 + 2, 2),
        (3 * 16 + 1, 1),
    ];
    for (at, byte) in faults {
        let mut record = good.clone();
        record.bytes[at] = byte;
        refused(&mut record, &[1, 1], 6, 30, Place::File);
    }
    let mut int_property = begun(&counter());
    int_property.bytes[5 * 16 + 6] = 3;
    refused(&mut int_property, &[], 5, 30, Place::File);
}

#[test]
fn refusal_30_last_bool() {
    let mut good = begun(&two_bands_node());
    values(&mut good, &[1, 0], 6);
    for (stream, value) in [(0, 2), (3, -1), (5, i64::MIN), (5, i64::MAX)] {
        let mut record = good.clone();
        record.last[stream] = value;
        refused(&mut record, &[1, 1], 6, 30, Place::File);
        // Before instant 0 the last values are not looked at.
        record.answered = false;
        values(&mut record, &[1, 1], 6);
    }
    // Values past the last stream, and ints, are free.
    let mut record = good.clone();
    record.last[6] = 5;
    values(&mut record, &[1, 1], 6);
    let mut record = begun(&counter());
    values(&mut record, &[], 5);
    record.last[3] = -9;
    assert_eq!(values(&mut record, &[], 5), [0, 1, -9, -8, 0]);
}

#[test]
fn refusals_31_and_32_want_exact_lengths() {
    let mut record = begun(&two_bands_node());
    for inputs in [&[][..], &[1], &[1, 1, 1], &[9, 9, 9]] {
        refused(&mut record, inputs, 6, 31, Place::File);
        refused(&mut record, inputs, 0, 31, Place::File);
    }
    for count in [0, 1, 5, 7, 64] {
        refused(&mut record, &[1, 1], count, 32, Place::File);
        // 32 comes before 33.
        refused(&mut record, &[2, 2], count, 32, Place::File);
    }
    refused(&mut begun(&counter()), &[0], 5, 31, Place::File);
}

#[test]
fn refusal_33_names_the_lowest_record() {
    let records = vec![
        R::constant(INT, 1),
        R::input(INT),
        R::sum(1, 1),
        R::input(BOOL),
        R::input(INT),
        R::input(BOOL),
    ];
    let mut record = begun(&NodeFile::new(records, 3));
    refused(&mut record, &[5, 2, 5, 0], 6, 33, Place::Record(3));
    refused(&mut record, &[5, 1, 5, -1], 6, 33, Place::Record(5));
    refused(
        &mut record,
        &[5, i64::MIN, 5, i64::MAX],
        6,
        33,
        Place::Record(3),
    );
    // 33 comes before 34, though record 2 is lower.
    refused(&mut record, &[i64::MAX, 1, 5, 2], 6, 33, Place::Record(5));
    refused(&mut record, &[i64::MAX, 1, 5, 1], 6, 34, Place::Record(2));
    values(&mut record, &[5, 1, -5, 0], 6);
    refused(&mut record, &[5, 2, 5, 0], 6, 33, Place::Record(3));
}

#[test]
fn refusal_34_sum_and_difference() {
    let records = vec![R::input(INT), R::input(INT), R::sum(0, 1), R::equal(0, 1)];
    let mut record = begun(&NodeFile::new(records, 3));
    let (low, high) = (i64::MIN, i64::MAX);
    for (a, b) in [
        (high, 0),
        (high, low),
        (low, 0),
        (high - 1, 1),
        (low + 1, -1),
    ] {
        let sum = a + b;
        assert_eq!(values(&mut record, &[a, b], 4)[2], sum);
    }
    for (a, b) in [(high, 1), (low, -1), (high, high), (low, low), (1, high)] {
        refused(&mut record, &[a, b], 4, 34, Place::Record(2));
    }
    let records = vec![
        R::input(INT),
        R::input(INT),
        R::difference(0, 1),
        R::equal(0, 1),
    ];
    let mut record = begun(&NodeFile::new(records, 3));
    for (a, b) in [
        (high, 0),
        (low, 0),
        (-1, low),
        (high, high),
        (low, low),
        (0, high),
    ] {
        let difference = a - b;
        assert_eq!(values(&mut record, &[a, b], 4)[2], difference);
    }
    for (a, b) in [(0, low), (high, -1), (low, 1), (high, low), (-2, high)] {
        refused(&mut record, &[a, b], 4, 34, Place::Record(2));
    }
}

#[test]
fn refusal_34_multiple() {
    let node = |k| NodeFile::new(vec![R::input(INT), R::multiple(k, 0), R::input(BOOL)], 2);
    let (low, high) = (i64::MIN, i64::MAX);
    let mut minus = begun(&node(-1));
    assert_eq!(values(&mut minus, &[high, 0], 3)[1], -high);
    refused(&mut minus, &[low, 0], 3, 34, Place::Record(1));
    let mut twice = begun(&node(2));
    assert_eq!(values(&mut twice, &[low / 2, 0], 3)[1], low);
    assert_eq!(values(&mut twice, &[high / 2, 0], 3)[1], high - 1);
    refused(&mut twice, &[high / 2 + 1, 0], 3, 34, Place::Record(1));
    refused(&mut twice, &[low / 2 - 1, 0], 3, 34, Place::Record(1));
    let mut most = begun(&node(-1_000_000_000));
    assert_eq!(
        values(&mut most, &[9_223_372_036, 0], 3)[1],
        -9_223_372_036_000_000_000
    );
    refused(&mut most, &[9_223_372_037, 0], 3, 34, Place::Record(1));
    refused(&mut most, &[low, 0], 3, 34, Place::Record(1));
    refused(&mut most, &[high, 0], 3, 34, Place::Record(1));
    let mut none = begun(&node(0));
    assert_eq!(values(&mut none, &[low, 0], 3)[1], 0);
}

#[test]
fn refusal_34_untaken_branches_and_the_lowest_stream() {
    let records = vec![
        R::input(INT),
        R::constant(BOOL, 0),
        R::multiple(3, 0),
        R::sum(0, 0),
        R::choice(INT, 1, 2, 0),
    ];
    let mut record = begun(&NodeFile::new(records, 1));
    assert_eq!(values(&mut record, &[7], 5), [7, 0, 21, 14, 7]);
    // Stream 2 alone does not fit, then both 2 and 3.
    refused(&mut record, &[i64::MAX / 3 + 1], 5, 34, Place::Record(2));
    refused(&mut record, &[i64::MAX], 5, 34, Place::Record(2));
    assert_eq!(values(&mut record, &[8], 5), [8, 0, 24, 16, 8]);
}

#[test]
fn a_session_may_be_refused_at_last_for_ever() {
    let records = vec![
        R::constant(INT, 1_000_000_000),
        R::arrow_pre(INT, 0, 2),
        R::multiple(1_000_000_000, 1),
        R::constant(BOOL, 1),
    ];
    let mut record = begun(&NodeFile::new(records, 3));
    let first = values(&mut record, &[], 4);
    assert_eq!(
        first,
        [1_000_000_000, 1_000_000_000, 1_000_000_000_000_000_000, 1]
    );
    refused(&mut record, &[], 4, 34, Place::Record(2));
    refused(&mut record, &[], 4, 34, Place::Record(2));
}
