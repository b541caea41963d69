//! The refusals of a look-up: each limit at it and one past it, and which comes
//! first: the node's own, 31, 33, 65, 34.

mod common;

use common::{lengthened, patched, patched_back};
use reference::answer::Place::{self, File, Record as At};
use reference::answer::Refusal;
use reference::build::{NodeFile, Record, BOOL, INT};
use reference::look_up::look_up;

/// 31: the count of inputs.
const LENGTH: Result<i64, Refusal> = Err(Refusal::file(31));
/// 65: out of the history, or that too long.
const OUT: Result<i64, Refusal> = Err(Refusal::file(65));

/// 33 or 34 at this record.
fn refused(number: u8, record: usize) -> Result<i64, Refusal> {
    Err(Refusal::new(number, At(record)))
}

/// 0 a bool input, the property; 1 an int input; 2 twice 1; 3 a bool input; 4
/// is 2 -> pre 4.
fn node() -> NodeFile {
    let records = vec![
        Record::input(BOOL),
        Record::input(INT),
        Record::sum(1, 1),
        Record::input(BOOL),
        Record::arrow_pre(INT, 2, 4),
    ];
    NodeFile::new(records, 0)
}

/// Inputs of that node for so many instants: 1 is 10 more than the instant.
fn inputs(instants: usize) -> Vec<i64> {
    let ints = (10..).take(instants);
    ints.flat_map(|x| [1, x, 0]).collect()
}

/// Files that are refused, whatever the history: each of 1 to 8 and 23.
fn refused_nodes() -> Vec<(Vec<u8>, u8, Place)> {
    let file = node().bytes();
    let trailer = 5 * 16;
    vec![
        (vec![], 1, File),
        (file[trailer + 1..].to_vec(), 1, File),
        (lengthened(&file, 65_536), 1, File),
        (patched_back(&file, 1, &[1]), 2, File),
        (patched_back(&file, 12, &[0]), 3, File),
        (file[1..].to_vec(), 4, File),
        (patched(&file, 3 * 16, &[16]), 5, At(3)),
        (patched(&file, 2 * 16 + 4, &[5]), 6, At(2)),
        (patched(&file, 2 * 16 + 4, &[2]), 23, At(2)),
        (patched(&file, 2 * 16 + 4, &[3]), 7, At(2)),
        (patched_back(&file, 10, &[1]), 8, At(1)),
    ]
}

#[test]
fn a_look_up_gives_the_value() {
    let file = node().bytes();
    for instants in 1..=16 {
        let inputs = inputs(instants);
        for (instant, x) in (0..instants).zip(10..) {
            for (stream, value) in [1, x, 2 * x, 0, 20].into_iter().enumerate() {
                let answer = look_up(&file, instants, &inputs, stream, instant);
                assert_eq!(answer, Ok(value), "{stream} at {instant} of {instants}");
            }
        }
    }
    // A note is no part of the node.
    let noted = lengthened(&file, 65_535);
    assert_eq!(look_up(&noted, 2, &inputs(2), 2, 1), Ok(22));
}

/// Instants, stream and instant of a right question, and of some that 65
/// refuses.
const ASKED: [usize; 3] = [3, 2, 1];
const REFUSED_BY_65: [[usize; 3]; 6] = [
    [17, 2, 1],
    [3, 5, 1],
    [3, 2, 3],
    [0, 2, 1],
    [17, 5, 17],
    [1_000, usize::MAX, usize::MAX],
];

/// Whether a call breaks each rule, in the order in which they are looked at.
type Broken = [bool; 5];

/// The answer to a question of stream 2 that breaks rules: the node's own as
/// this file does, 65 as these numbers do.
fn answer(broken: Broken, own: &[u8], by_65: [usize; 3]) -> Result<i64, Refusal> {
    let [is_own, is_31, is_33, is_65, is_34] = broken;
    let [instants, stream, instant] = if is_65 { by_65 } else { ASKED };
    let mut inputs = inputs(instants);
    if is_34 {
        let ints = inputs.iter_mut().skip(1).step_by(3);
        ints.for_each(|x| *x = i64::MAX);
    }
    if is_33 {
        inputs.get_mut(5).into_iter().for_each(|x| *x = 2);
    }
    if is_31 {
        inputs.push(7);
    }
    let file = node().bytes();
    let file = if is_own { own } else { &file };
    look_up(file, instants, &inputs, stream, instant)
}

/// Each rule broken alone, each two at once, and more: the first is named.
#[test]
fn the_first_of_all_broken_rules() {
    for (own, number, place) in refused_nodes() {
        let own_refusal = Err(Refusal::new(number, place));
        let refusals = [own_refusal, LENGTH, refused(33, 3), OUT, refused(34, 2)];
        for by_65 in REFUSED_BY_65 {
            for bits in 0..32 {
                let mut broken = [0, 1, 2, 3, 4].map(|rule| bits >> rule & 1 == 1);
                // An empty history has no input that is no bool.
                broken[2] &= !broken[3] || by_65[0] > 0;
                let first = (0..5).find(|rule| broken[*rule]);
                let expected = first.map_or(Ok(22), |rule| refusals[rule]);
                assert_eq!(
                    answer(broken, &own, by_65),
                    expected,
                    "{broken:?} {by_65:?}"
                );
            }
        }
    }
}

#[test]
fn the_nodes_own_refusals_come_first() {
    for (file, number, place) in refused_nodes() {
        for (instants, inputs) in [(1, vec![0, 0, 0]), (0, vec![]), (usize::MAX, vec![2, 2])] {
            for stream in [0, 2, usize::MAX] {
                let answer = look_up(&file, instants, &inputs, stream, 0);
                assert_eq!(answer, Err(Refusal::new(number, place)));
            }
        }
    }
}

#[test]
fn the_count_of_inputs_is_exact() {
    let file = node().bytes();
    for instants in 1..=18 {
        for count in 0..=60 {
            let answer = look_up(&file, instants, &vec![1; count], 1, 0);
            let expected = match count == 3 * instants {
                false => LENGTH,
                true if instants > 16 => OUT,
                true => Ok(1),
            };
            assert_eq!(answer, expected, "{count} for {instants} instants");
        }
    }
}

/// A node of so many inputs, the first a bool one and the rest ints.
fn of_inputs(count: usize) -> Vec<u8> {
    let mut records = vec![Record::input(INT); count];
    records[0] = Record::input(BOOL);
    NodeFile::new(records, 0).bytes()
}

/// The product of instants and inputs is what it is, however large: it would
/// wrap to the count that is given here.
#[test]
fn a_product_does_not_wrap() {
    let past = u128::from(u64::MAX) + 1;
    for m in [2, 3, 4, 7, 16, 32, 63, 64] {
        let file = of_inputs(m);
        let wide = u128::try_from(m).unwrap();
        for wraps in [1, 2, wide - 1] {
            let instants = (wraps * past).div_ceil(wide);
            let Ok(instants) = usize::try_from(instants) else {
                continue;
            };
            let count = instants.wrapping_mul(m);
            assert!(count < m);
            for (instants, count) in [(instants, count), (instants + 1, count + m)] {
                let answer = look_up(&file, instants, &vec![0; count], 0, 0);
                assert_eq!(answer, LENGTH, "{instants} times {m}");
            }
        }
    }
    assert_eq!(look_up(&of_inputs(2), 1 << 63, &[], 0, 0), LENGTH);
    assert_eq!(look_up(&of_inputs(64), 1 << 58, &[], 0, 0), LENGTH);
    for instants in [1, 1 << 63, usize::MAX] {
        assert_eq!(look_up(&of_inputs(1), instants, &[], 0, 0), LENGTH);
        assert_eq!(look_up(&of_inputs(63), instants, &[2], 0, 0), LENGTH);
    }
}

/// A counter without inputs: 0 zero, 1 one, 2 is 0 -> pre 3, 3 is 2 + 1, and 4
/// that 2 is not negative.
fn counter() -> Vec<u8> {
    let records = vec![
        Record::constant(INT, 0),
        Record::constant(INT, 1),
        Record::arrow_pre(INT, 0, 3),
        Record::sum(2, 1),
        Record::at_most(0, 2),
    ];
    NodeFile::new(records, 4).bytes()
}

/// Without inputs any count of instants has the right length, and none is gone
/// through.
#[test]
fn nodes_without_inputs() {
    let file = counter();
    for instants in [0, 1, 2, 15, 16, 17, 18, 1 << 63, usize::MAX - 1, usize::MAX] {
        assert_eq!(look_up(&file, instants, &[0], 3, 0), LENGTH);
        assert_eq!(look_up(&file, instants, &[2, 2], 9, 9), LENGTH);
        for (instant, counted) in (0..20).zip(1..) {
            let is_in = instants <= 16 && instant < instants;
            let expected = if is_in { Ok(counted) } else { OUT };
            let answer = look_up(&file, instants, &[], 3, instant);
            assert_eq!(answer, expected, "{instant} of {instants}");
        }
        let past = [instants, instants.saturating_add(1), usize::MAX];
        assert_eq!(
            past.map(|instant| look_up(&file, instants, &[], 3, instant)),
            [OUT; 3]
        );
    }
}

#[test]
fn an_empty_history_has_no_instant() {
    for file in [node().bytes(), counter()] {
        for stream in [0, 1, 4, 5, 64, usize::MAX] {
            for instant in [0, 1, 15, 16, usize::MAX] {
                assert_eq!(look_up(&file, 0, &[], stream, instant), OUT);
            }
        }
        assert_eq!(look_up(&file, 0, &[0], 0, 0), LENGTH);
        assert_eq!(look_up(&file, 0, &[2], 0, 0), LENGTH);
    }
}

#[test]
fn sixteen_instants_and_no_more() {
    let file = node().bytes();
    for instants in 1..=40 {
        let inputs = inputs(instants);
        let at = |instant| look_up(&file, instants, &inputs, 4, instant);
        let expected = if instants <= 16 { Ok(20) } else { OUT };
        assert_eq!([at(0), at(instants - 1)], [expected; 2], "{instants}");
        let past = [
            instants,
            instants + 1,
            16.max(instants),
            1 << 32,
            usize::MAX,
        ];
        assert_eq!(past.map(at), [OUT; 5], "{instants}");
    }
}

#[test]
fn every_stream_and_no_more() {
    for count in [1, 2, 63, 64] {
        let file = of_inputs(count);
        let mut inputs: Vec<i64> = (100..).take(count).collect();
        inputs[0] = 1;
        let of = |stream| look_up(&file, 1, &inputs, stream, 0);
        assert_eq!(of(count - 1), Ok(inputs[count - 1]));
        let past = [count, count + 1, 64.max(count), 256, 1 << 32, usize::MAX];
        assert_eq!(past.map(of), [OUT; 6], "{count}");
    }
}

/// A number whose low bits are those of a stream or instant is out all the same.
#[test]
fn no_number_is_cut() {
    let (file, inputs) = (node().bytes(), inputs(3));
    for bit in 3..usize::BITS {
        assert_eq!(look_up(&file, 3, &inputs, 2 | 1 << bit, 1), OUT);
        assert_eq!(look_up(&file, 3, &inputs, 2, 1 | 1 << bit), OUT);
        assert_eq!(look_up(&file, 3 | 1 << bit, &inputs, 2, 1), LENGTH);
        assert_eq!(
            look_up(&counter(), 3 | 1 << bit, &[], 2, 1),
            if bit == 3 { Ok(1) } else { OUT }
        );
    }
}

/// "33 (of the earliest instant)": in a history of 17 too, wherever the
/// question is.
#[test]
fn refusal_33_in_each_instant() {
    let file = node().bytes();
    for instants in [1, 2, 16, 17, 18, 300] {
        for odd in 0..instants {
            for (record, at) in [(0, 0), (3, 2)] {
                for value in [2, -1, i64::MIN, i64::MAX, 1 << 32] {
                    let mut inputs = inputs(instants);
                    inputs[3 * odd + at] = value;
                    for (stream, instant) in [(1, 0), (2, instants - 1), (5, instants)] {
                        let answer = look_up(&file, instants, &inputs, stream, instant);
                        assert_eq!(answer, refused(33, record), "{odd} of {instants}");
                    }
                }
            }
        }
    }
}

/// Of the earliest instant its lowest record, though a later one has a lower.
#[test]
fn refusal_33_names_the_earliest_then_the_lowest() {
    let file = node().bytes();
    for instants in [2, 16, 17] {
        let last = instants - 1;
        let with = |odd: &[usize]| {
            let mut inputs = inputs(instants);
            odd.iter().for_each(|at| inputs[*at] = -1);
            look_up(&file, instants, &inputs, 1, 0)
        };
        assert_eq!(with(&[0, 2]), refused(33, 0));
        assert_eq!(with(&[2, 3 * last]), refused(33, 3));
        assert_eq!(with(&[0, 3 * last + 2]), refused(33, 0));
        assert_eq!(with(&[3 * last, 3 * last + 2]), refused(33, 0));
        assert_eq!(with(&[3 * last + 2]), refused(33, 3));
    }
    // However long the history is: the last number of a million.
    let records = vec![
        Record::input(INT),
        Record::constant(BOOL, 1),
        Record::input(BOOL),
    ];
    let file = NodeFile::new(records, 2).bytes();
    let mut inputs = vec![0; 1_000_000];
    assert_eq!(look_up(&file, 500_000, &inputs, 0, 0), OUT);
    inputs[999_999] = 2;
    assert_eq!(look_up(&file, 500_000, &inputs, 0, 0), refused(33, 2));
    inputs[500_001] = 2;
    inputs[0] = 2;
    assert_eq!(look_up(&file, 500_000, &inputs, 0, 0), refused(33, 2));
}

/// Any number is an int input.
#[test]
fn int_inputs_are_free() {
    let file = node().bytes();
    for x in [2, -1, i64::MIN, i64::MAX] {
        assert_eq!(look_up(&file, 1, &[1, x, 0], 1, 0), Ok(x));
    }
}

/// 0 a bool input; 1 an int input x; 2 is x + x; 3 to 63 each the greater of x
/// and the stream before.
fn ladder() -> Vec<u8> {
    let mut records = vec![Record::input(BOOL), Record::input(INT), Record::sum(1, 1)];
    records.extend((2..63).map(|below| Record::greater(below, 1)));
    NodeFile::new(records, 0).bytes()
}

/// "34, with the wanted record": stream 2 alone leaves the range.
#[test]
fn refusal_34_names_the_wanted_record() {
    let file = ladder();
    for x in [i64::MAX, i64::MIN, i64::MAX / 2 + 1, i64::MIN / 2 - 1] {
        for stream in 0..64 {
            let answer = look_up(&file, 1, &[0, x], stream, 0);
            let expected = match stream {
                0 => Ok(0),
                1 => Ok(x),
                _ => refused(34, stream),
            };
            assert_eq!(answer, expected);
        }
    }
    for x in [i64::MAX / 2, i64::MIN / 2] {
        assert_eq!(look_up(&file, 1, &[0, x], 63, 0), Ok((2 * x).max(x)));
    }
}

/// Inputs of later instants count for 31 and 33 alone.
#[test]
fn later_inputs_play_no_part() {
    let file = ladder();
    let inputs = [0, 5, 1, i64::MAX, 0, 5];
    assert_eq!(look_up(&file, 3, &inputs, 2, 0), Ok(10));
    assert_eq!(look_up(&file, 3, &inputs, 2, 1), refused(34, 2));
    assert_eq!(look_up(&file, 3, &inputs, 2, 2), Ok(10));
}
