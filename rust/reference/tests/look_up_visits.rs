//! What a look-up visits, operator by operator: a value that leaves the range
//! is 34 where it is visited and nothing where it is not.

use reference::answer::{Place, Refusal};
use reference::build::{NodeFile, Record, BOOL, INT};
use reference::look_up::look_up;
use std::thread;

/// The operands a, b and c of the record under test: ints, and bools.
const INTS: [u16; 3] = [3, 4, 5];
const BOOLS: [u16; 3] = [7, 8, 9];
/// Its number.
const OWN: usize = 10;

/// 34 at this record.
fn refused(record: usize) -> Result<i64, Refusal> {
    Err(Refusal::new(34, Place::Record(record)))
}

/// 0, 1 and 2 are int inputs; 3, 4 and 5 twice these; 6 zero; 7, 8 and 9 that
/// 3, 4 and 5 are at most zero; 10 the record.
fn with(record: Record) -> Vec<u8> {
    let mut records = vec![Record::input(INT); 3];
    records.extend([0, 1, 2].map(|x| Record::sum(x, x)));
    records.push(Record::constant(INT, 0));
    records.extend(INTS.map(|int| Record::at_most(int, 6)));
    records.push(record);
    NodeFile::new(records, 7).bytes()
}

/// Three instants of inputs for these operands.
type Pass = [[i64; 3]; 3];

/// The value of the record under test at an instant.
fn value(file: &[u8], pass: &Pass, instant: usize) -> Result<i64, Refusal> {
    look_up(file, 3, pass.as_flattened(), OWN, instant)
}

/// Passes whose inputs are 0 and 1 at each instant, so that all operands are
/// inside: ints are 0 and 2, bools true and false.
fn small_passes() -> impl Iterator<Item = Pass> {
    let bit = |bits: usize, at: usize| i64::from(bits >> at & 1 == 1);
    (0..512).map(move |bits| {
        [0, 1, 2].map(|instant| [0, 1, 2].map(|operand| bit(bits, 3 * instant + operand)))
    })
}

/// Whether a bool operand is true.
fn is_true(pass: &Pass, instant: usize, operand: usize) -> bool {
    pass[instant][operand] <= 0
}

/// Lets one operand at one instant leave the range: the record is then refused
/// just where `visits` says so, for an instant and an operand, and else has the
/// value that it has in the small pass.
#[track_caller]
fn check(record: Record, visits: impl Fn(&Pass, usize) -> Vec<(usize, usize)>) {
    let file = with(record);
    for (pass, asked) in small_passes().flat_map(|pass| [0, 1, 2].map(|asked| (pass, asked))) {
        let inside = value(&file, &pass, asked);
        assert!(inside.is_ok());
        let visited = visits(&pass, asked);
        for (instant, operand) in (0..9).map(|i| (i / 3, i % 3)) {
            // The bool that it makes stays as it is.
            let mut past = pass;
            let is_true = is_true(&pass, instant, operand);
            past[instant][operand] = if is_true { i64::MIN } else { i64::MAX };
            let is_visited = visited.contains(&(instant, operand));
            let expected = if is_visited { refused(OWN) } else { inside };
            let answer = value(&file, &past, asked);
            assert_eq!(answer, expected, "{record:?} at {asked} of {past:?}");
        }
    }
}

/// A constant reads nothing.
#[test]
fn constants_visit_no_operand() {
    check(Record::constant(INT, -7), |_, _| vec![]);
    check(Record::constant(BOOL, 1), |_, _| vec![]);
}

/// "all operands of others": K·a visits a for K = 0 too.
#[test]
fn operators_of_one_operand() {
    let mut records = vec![Record::not(BOOLS[0])];
    records.extend([0, 1, -1, 3, 1_000_000_000].map(|k| Record::multiple(k, INTS[0])));
    for record in records {
        check(record, |_, now| vec![(now, 0)]);
    }
}

/// A record for each operator that reads two operands at the same instant.
fn of_two([a, b]: [u16; 2], [p, q]: [u16; 2]) -> [Record; 9] {
    [
        Record::and(p, q),
        Record::or(p, q),
        Record::same(p, q),
        Record::sum(a, b),
        Record::difference(a, b),
        Record::at_most(a, b),
        Record::equal(a, b),
        Record::lesser(a, b),
        Record::greater(a, b),
    ]
}

/// "all operands of others": "and" visits both though one is false, "or" though
/// one is true, the lesser and the greater both.
#[test]
fn operators_of_two_operands() {
    for record in of_two([3, 4], [7, 8])
        .into_iter()
        .chain(of_two([4, 3], [8, 7]))
    {
        check(record, |_, now| vec![(now, 0), (now, 1)]);
    }
    for record in of_two([5, 5], [9, 9]) {
        check(record, |_, now| vec![(now, 2)]);
    }
}

/// "the condition and taken branch", and never the other.
#[test]
fn choices() {
    for (kind, [a, b, _]) in [(INT, INTS), (BOOL, BOOLS)] {
        let taken = |pass: &Pass, now| usize::from(!is_true(pass, now, 2));
        check(Record::choice(kind, 9, a, b), |pass, now| {
            vec![(now, 2), (now, taken(pass, now))]
        });
        check(Record::choice(kind, 9, b, a), |pass, now| {
            vec![(now, 2), (now, 1 - taken(pass, now))]
        });
        check(Record::choice(kind, 9, a, a), |_, now| {
            vec![(now, 2), (now, 0)]
        });
    }
    // One stream as condition and as a branch.
    check(Record::choice(BOOL, 7, 7, 8), |pass, now| {
        vec![(now, 0), (now, usize::from(!is_true(pass, now, 0)))]
    });
    check(Record::choice(BOOL, 7, 8, 7), |pass, now| {
        vec![(now, 0), (now, usize::from(is_true(pass, now, 0)))]
    });
}

/// "the operand chosen by 12 and 13".
#[test]
fn arrows() {
    for (kind, [a, b, _]) in [(INT, INTS), (BOOL, BOOLS)] {
        check(Record::arrow(kind, a, b), |_, now| {
            vec![(now, usize::from(now > 0))]
        });
        check(Record::arrow_pre(kind, a, b), |_, now| {
            vec![if now == 0 { (0, 0) } else { (now - 1, 1) }]
        });
        check(Record::arrow_pre(kind, a, a), |_, now| {
            vec![(now.saturating_sub(1), 0)]
        });
        // What it was at instant 0, for ever.
        check(Record::arrow_pre(kind, a, 10), |_, _| vec![(0, 0)]);
    }
}

/// The operands are 6, −4 and 0 at instant 0, then −2, 8 and 2; bools say that
/// they are at most 0.
#[test]
fn values_of_each_operator() {
    let pass = [[3, -2, 0], [-1, 4, 1], [0, 0, 0]];
    for (record, expected) in [
        (Record::constant(INT, -9), [-9, -9]),
        (Record::constant(BOOL, 1), [1, 1]),
        (Record::not(7), [1, 0]),
        (Record::and(7, 8), [0, 0]),
        (Record::and(8, 9), [1, 0]),
        (Record::or(7, 8), [1, 1]),
        (Record::or(7, 7), [0, 1]),
        (Record::same(7, 8), [0, 0]),
        (Record::same(8, 9), [1, 1]),
        (Record::sum(3, 4), [2, 6]),
        (Record::difference(3, 4), [10, -10]),
        (Record::multiple(-5, 3), [-30, 10]),
        (Record::at_most(3, 4), [0, 1]),
        (Record::at_most(3, 3), [1, 1]),
        (Record::equal(3, 4), [0, 0]),
        (Record::equal(4, 4), [1, 1]),
        (Record::choice(INT, 9, 3, 4), [6, 8]),
        (Record::choice(BOOL, 7, 8, 9), [1, 0]),
        (Record::arrow(INT, 3, 4), [6, 8]),
        (Record::arrow_pre(INT, 3, 4), [6, -4]),
        (Record::arrow_pre(BOOL, 7, 8), [0, 1]),
        (Record::lesser(3, 4), [-4, -2]),
        (Record::greater(3, 4), [6, 8]),
    ] {
        let answers = [0, 1].map(|instant| value(&with(record), &pass, instant));
        assert_eq!(answers, expected.map(Ok), "{record:?}");
    }
}

/// 0 and 1 are int inputs, 2 the record, 3 a bool.
fn of_inputs(record: Record, a: i64, b: i64) -> Result<i64, Refusal> {
    let records = vec![
        Record::input(INT),
        Record::input(INT),
        record,
        Record::constant(BOOL, 1),
    ];
    look_up(&NodeFile::new(records, 3).bytes(), 1, &[a, b], 2, 0)
}

/// Sums, differences and multiples at both ends of the range and one past
/// them.
#[test]
fn the_ends_of_the_range() {
    let (low, high) = (i64::MIN, i64::MAX);
    let sum = |a, b| of_inputs(Record::sum(0, 1), a, b);
    assert_eq!([sum(high, 0), sum(high - 1, 1)], [Ok(high); 2]);
    assert_eq!([sum(low, 0), sum(low + 1, -1)], [Ok(low); 2]);
    assert_eq!(sum(high, low), Ok(-1));
    assert_eq!([sum(high, 1), sum(1, high)], [refused(2); 2]);
    assert_eq!([sum(low, -1), sum(low, low)], [refused(2); 2]);
    let difference = |a, b| of_inputs(Record::difference(0, 1), a, b);
    assert_eq!([difference(-1, low), difference(high, 0)], [Ok(high); 2]);
    assert_eq!([difference(-1, high), difference(low, 0)], [Ok(low); 2]);
    assert_eq!([difference(0, low), difference(high, -1)], [refused(2); 2]);
    assert_eq!([difference(low, 1), difference(-2, high)], [refused(2); 2]);
    let times = |k, a| of_inputs(Record::multiple(k, 0), a, 0);
    assert_eq!([times(2, low / 2), times(-1, low + 1)], [Ok(low), Ok(high)]);
    assert_eq!([times(-1, low), times(2, high / 2 + 1)], [refused(2); 2]);
    assert_eq!([times(0, low), times(0, high)], [Ok(0); 2]);
    let most = 1_000_000_000;
    let near = 9_223_372_036;
    assert_eq!(times(-most, near), Ok(-9_223_372_036_000_000_000));
    assert_eq!(
        [times(most, near + 1), times(-most, near + 1)],
        [refused(2); 2]
    );
    assert_eq!([times(most, low), times(-most, low)], [refused(2); 2]);
    for (a, b) in [(low, high), (high, low)] {
        assert_eq!(of_inputs(Record::lesser(0, 1), a, b), Ok(low));
        assert_eq!(of_inputs(Record::greater(0, 1), a, b), Ok(high));
    }
}

/// 0 an int input x, the streams that follow on it, and a bool, the property.
/// Gives the answer for the last of them.
fn last_of(streams: &[Record], x: i64) -> Result<i64, Refusal> {
    let mut records = vec![Record::input(INT)];
    records.extend(streams);
    records.push(Record::constant(BOOL, 1));
    let property = u16::try_from(records.len() - 1).unwrap();
    let file = NodeFile::new(records, property).bytes();
    look_up(&file, 1, &[x], streams.len(), 0)
}

/// A visited value that is past the range is 34, though the wanted one is
/// inside.
#[test]
fn a_value_that_comes_back() {
    let (low, high) = (i64::MIN, i64::MAX);
    let twice_less_once = [Record::sum(0, 0), Record::difference(1, 0)];
    let twice_less_twice = [Record::sum(0, 0), Record::difference(1, 1)];
    let none_of_twice = [Record::sum(0, 0), Record::multiple(0, 1)];
    let back_and_forth = [Record::multiple(-1, 0), Record::multiple(-1, 1)];
    let is_itself = [Record::sum(0, 0), Record::equal(1, 1)];
    let lesser = [Record::multiple(2, 0), Record::lesser(0, 1)];
    assert_eq!(last_of(&twice_less_once, high / 2), Ok(high / 2));
    assert_eq!(last_of(&twice_less_once, high / 2 + 1), refused(2));
    assert_eq!(last_of(&twice_less_once, low / 2 - 1), refused(2));
    assert_eq!(last_of(&twice_less_twice, low / 2), Ok(0));
    assert_eq!(last_of(&twice_less_twice, low), refused(2));
    assert_eq!(last_of(&none_of_twice, high / 2), Ok(0));
    assert_eq!(last_of(&none_of_twice, high), refused(2));
    assert_eq!(last_of(&back_and_forth, low + 1), Ok(low + 1));
    assert_eq!(last_of(&back_and_forth, low), refused(2));
    assert_eq!(last_of(&is_itself, low / 2), Ok(1));
    assert_eq!(last_of(&is_itself, high), refused(2));
    assert_eq!(last_of(&lesser, high / 2), Ok(high / 2));
    assert_eq!(last_of(&lesser, high), refused(2));
}

/// 62 doublings of x, of which there is one way up and 2^62 ways down.
fn doublings() -> Vec<u8> {
    let mut records = vec![Record::constant(BOOL, 1), Record::input(INT)];
    records.extend((1..63).map(|x| Record::sum(x, x)));
    NodeFile::new(records, 0).bytes()
}

#[test]
fn sixty_two_doublings() {
    let file = doublings();
    let last = |x| look_up(&file, 1, &[x], 63, 0);
    assert_eq!(last(1), Ok(1 << 62));
    assert_eq!(last(-1), Ok(-(1 << 62)));
    assert_eq!(last(-2), Ok(i64::MIN));
    assert_eq!([last(2), last(3), last(-3)], [refused(63); 3]);
    for stream in 1..64 {
        assert_eq!(look_up(&file, 1, &[1], stream, 0), Ok(1 << (stream - 1)));
    }
}

/// Two instants of doublings, 61 each: the 62nd is 2^62 and the 63rd leaves the
/// range.
#[test]
fn sixty_three_doublings() {
    let mut records = vec![
        Record::constant(BOOL, 1),
        Record::constant(INT, 1),
        Record::arrow_pre(INT, 1, 63),
    ];
    records.extend((2..63).map(|x| Record::sum(x, x)));
    let file = NodeFile::new(records, 0).bytes();
    let at = |stream, instant| look_up(&file, 16, &[], stream, instant);
    assert_eq!([at(2, 0), at(63, 0)], [Ok(1), Ok(1 << 61)]);
    assert_eq!([at(2, 1), at(3, 1)], [Ok(1 << 61), Ok(1 << 62)]);
    for stream in 4..64 {
        assert_eq!(at(stream, 1), refused(stream));
    }
    for instant in 2..16 {
        assert_eq!([at(1, instant), at(2, instant)], [Ok(1), refused(2)]);
    }
}

/// 0 a bool input; 1 an int input; 2 is 1 -> pre 63; each of 3 to 63 reads the
/// stream before twice and gives its value. With 16 instants a look-up goes
/// down through all of them.
fn deepest(records: impl Fn(u16) -> Record) -> Vec<u8> {
    let mut all = vec![
        Record::input(BOOL),
        Record::input(INT),
        Record::arrow_pre(INT, 1, 63),
    ];
    all.extend((2..63).map(records));
    NodeFile::new(all, 0).bytes()
}

/// Each stream at each instant is worked out once, however many ways lead to
/// it, and so deep a look-up is content with little of the stack.
#[test]
fn the_deepest_look_up() {
    let ways: [fn(u16) -> Record; 3] = [
        |x| Record::lesser(x, x),
        |x| Record::greater(x, x),
        |x| Record::choice(INT, 0, x, x),
    ];
    let look_ups = move || {
        for way in ways {
            let file = deepest(way);
            let inputs: Vec<i64> = (5..).take(16).flat_map(|x| [x & 1, x]).collect();
            for instant in 0..16 {
                assert_eq!(look_up(&file, 16, &inputs, 63, instant), Ok(5));
            }
        }
    };
    let thread = thread::Builder::new().stack_size(512 * 1024);
    thread.spawn(look_ups).unwrap().join().unwrap();
}
