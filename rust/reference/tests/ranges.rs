//! Refusals 71 and 72: each limit at it and one past it, and which comes
//! first.

mod common;
#[path = "common/examples.rs"]
mod examples;

use common::{patched, patched_back};
use reference::answer::Place::{File, Record as At};
use reference::answer::Refusal;
use reference::build::{NodeFile, Record, BOOL, INT};
use reference::ranges::check;

/// 02: "within ±4,000,000,000".
const MOST: i64 = 4_000_000_000;
/// The widest range.
const ALL: [i64; 2] = [-MOST, MOST];
/// A bool's ends.
const NONE: [i64; 2] = [0, 0];

/// The answer to a node with these ranges.
fn answer(node: &NodeFile, ranges: &[[i64; 2]]) -> Result<(), Refusal> {
    check(&node.bytes(), ranges.as_flattened())
}

const NOT_STATED: Result<(), Refusal> = Err(Refusal::file(71));

/// 72 at this record.
fn outside(record: usize) -> Result<(), Refusal> {
    Err(Refusal::new(72, At(record)))
}

/// 0 a bool input, the property; 1 and 2 int inputs; 3 the record.
fn with(record: Record) -> NodeFile {
    let records = vec![
        Record::input(BOOL),
        Record::input(INT),
        Record::input(INT),
        record,
    ];
    NodeFile::new(records, 0)
}

/// Where 1 and 2 have these ranges, the record's own may be this and wider,
/// and no narrower at either end.
#[track_caller]
fn needs(record: Record, x: [i64; 2], y: [i64; 2], [least, greatest]: [i64; 2]) {
    let node = with(record);
    let own = |ends| answer(&node, &[NONE, x, y, ends]);
    assert_eq!(own([least, greatest]), Ok(()));
    assert_eq!(own(ALL), Ok(()));
    assert_eq!(own([-MOST, greatest]), Ok(()));
    assert_eq!(own([least, MOST]), Ok(()));
    if least < MOST {
        assert_eq!(own([least + 1, MOST]), outside(3));
        assert_eq!(own([least + 1, greatest.max(least + 1)]), outside(3));
    }
    if greatest > -MOST {
        assert_eq!(own([-MOST, greatest - 1]), outside(3));
        assert_eq!(own([least.min(greatest - 1), greatest - 1]), outside(3));
    }
}

/// With these ranges of 1 and 2 the record has a result outside every range.
#[track_caller]
fn needs_too_much(record: Record, x: [i64; 2], y: [i64; 2]) {
    assert_eq!(answer(&with(record), &[NONE, x, y, ALL]), outside(3));
}

#[test]
fn the_length_is_two_numbers_a_stream() {
    let file = with(Record::sum(1, 2)).bytes();
    for length in 0..40 {
        let expected = if length == 8 { Ok(()) } else { NOT_STATED };
        assert_eq!(check(&file, &vec![0; length]), expected);
    }
    assert_eq!(check(&file, &vec![0; 65_544]), NOT_STATED);
    let one = NodeFile::new(vec![Record::input(BOOL)], 0).bytes();
    let most = NodeFile::new(vec![Record::input(BOOL); 64], 0).bytes();
    for (file, right) in [(one, 2), (most, 128)] {
        assert_eq!(check(&file, &vec![0; right]), Ok(()));
        for wrong in [0, right - 1, right + 1, right - 2, right + 2, 2 * right] {
            assert_eq!(check(&file, &vec![0; wrong]), NOT_STATED);
        }
    }
}

#[test]
fn an_int_has_ends_within_the_limits() {
    let node = with(Record::arrow_pre(INT, 1, 3));
    let input = |ends| answer(&node, &[NONE, NONE, ends, NONE]);
    let followed = |ends| answer(&node, &[NONE, NONE, NONE, ends]);
    for ends in [NONE, ALL, [0, MOST], [-MOST, 0], [-1, 0], [0, 1]] {
        assert_eq!([input(ends), followed(ends)], [Ok(()); 2]);
    }
    for end in [MOST, -MOST, 1, -1] {
        assert_eq!(input([end, end]), Ok(()));
        assert_eq!(followed([end, end]), outside(3));
    }
    for past in [MOST + 1, i64::MAX, 1 << 32] {
        for ends in [
            [0, past],
            [-past, 0],
            [-past, past],
            [past, past],
            [-past, -past],
        ] {
            assert_eq!([input(ends), followed(ends)], [NOT_STATED; 2], "{ends:?}");
        }
    }
    for ends in [
        [i64::MIN, 0],
        [0, i64::MIN],
        [i64::MIN; 2],
        [i64::MIN, i64::MAX],
    ] {
        assert_eq!([input(ends), followed(ends)], [NOT_STATED; 2], "{ends:?}");
    }
}

#[test]
fn ends_are_not_reversed() {
    let node = with(Record::arrow_pre(INT, 1, 3));
    for ends in [
        [1, 0],
        [0, -1],
        [MOST, -MOST],
        [MOST, MOST - 1],
        [1 - MOST, -MOST],
    ] {
        for at in 1..4 {
            let mut ranges = [NONE, NONE, NONE, ALL];
            ranges[at] = ends;
            assert_eq!(answer(&node, &ranges), NOT_STATED, "{ends:?} of {at}");
        }
    }
}

#[test]
fn both_ends_of_a_bool_are_0() {
    let node = with(Record::constant(BOOL, 1));
    assert_eq!(answer(&node, &[NONE, ALL, ALL, NONE]), Ok(()));
    for ends in [
        [0, 1],
        [1, 1],
        [1, 0],
        [-1, 0],
        [0, -1],
        [-1, 1],
        ALL,
        [0, i64::MIN],
    ] {
        for at in [0, 3] {
            let mut ranges = [NONE, ALL, ALL, NONE];
            ranges[at] = ends;
            assert_eq!(answer(&node, &ranges), NOT_STATED, "{ends:?} of {at}");
        }
    }
}

#[test]
fn a_constant_is_its_own_range() {
    for k in [0, 7, -7, 1_000_000_000, -1_000_000_000] {
        let own = i64::from(k);
        needs(Record::constant(INT, k), NONE, NONE, [own, own]);
    }
}

#[test]
fn sums() {
    needs(Record::sum(1, 2), [-3, 5], [10, 20], [7, 25]);
    needs(Record::sum(2, 1), [-3, 5], [10, 20], [7, 25]);
    needs(Record::sum(1, 1), [-3, 5], ALL, [-6, 10]);
    needs(Record::sum(1, 2), [-MOST, 0], [0, MOST], ALL);
    let half = MOST / 2;
    needs(Record::sum(1, 2), [-half, half], [-half, half], ALL);
    needs_too_much(Record::sum(1, 2), [-half, half], [-half, half + 1]);
    needs_too_much(Record::sum(1, 2), [-half - 1, half], [-half, half]);
    needs_too_much(Record::sum(1, 2), [MOST, MOST], [MOST, MOST]);
    needs_too_much(Record::sum(1, 1), [-MOST, -MOST], NONE);
}

#[test]
fn differences() {
    needs(Record::difference(1, 2), [-3, 5], [10, 20], [-23, -5]);
    needs(Record::difference(2, 1), [-3, 5], [10, 20], [5, 23]);
    needs(Record::difference(1, 2), [0, MOST], [0, MOST], ALL);
    needs_too_much(Record::difference(1, 2), [0, MOST], [-1, MOST]);
    needs_too_much(Record::difference(1, 2), [-1, MOST], [0, MOST]);
}

/// "each operand by itself": a − a is 0, and yet may be anything within.
#[test]
fn an_operand_that_is_read_twice() {
    needs(Record::difference(1, 1), [-3, 5], NONE, [-8, 8]);
    needs(Record::difference(1, 1), [MOST, MOST], NONE, NONE);
    needs_too_much(Record::difference(1, 1), ALL, NONE);
    needs(Record::lesser(1, 1), [-3, 5], NONE, [-3, 5]);
    needs(Record::greater(1, 1), [-3, 5], NONE, [-3, 5]);
}

#[test]
fn multiples() {
    needs(Record::multiple(4, 1), [-3, 5], NONE, [-12, 20]);
    needs(Record::multiple(-4, 1), [-3, 5], NONE, [-20, 12]);
    needs(Record::multiple(-4, 2), NONE, [2, 5], [-20, -8]);
    needs(Record::multiple(-1, 1), [-MOST, 3], NONE, [-3, MOST]);
    needs(Record::multiple(0, 1), ALL, NONE, NONE);
    needs(Record::multiple(1, 1), ALL, NONE, ALL);
    let most = 1_000_000_000;
    needs(Record::multiple(most, 1), [-4, 4], NONE, ALL);
    needs(
        Record::multiple(-most, 1),
        [-3, 4],
        NONE,
        [-MOST, 3_000_000_000],
    );
    needs_too_much(Record::multiple(most, 1), [-4, 5], NONE);
    needs_too_much(Record::multiple(-most, 1), [-4, 5], NONE);
    needs_too_much(Record::multiple(most, 1), ALL, NONE);
    needs_too_much(Record::multiple(-most, 1), [MOST, MOST], NONE);
    needs_too_much(Record::multiple(2, 1), [0, MOST / 2 + 1], NONE);
}

#[test]
fn the_lesser() {
    needs(Record::lesser(1, 2), [-3, 5], [0, 20], [-3, 5]);
    needs(Record::lesser(2, 1), [-3, 5], [0, 20], [-3, 5]);
    needs(Record::lesser(1, 2), [-3, 5], [0, 2], [-3, 2]);
    needs(Record::lesser(2, 1), [-3, 5], [0, 2], [-3, 2]);
    needs(Record::lesser(1, 2), [-3, 5], [7, MOST], [-3, 5]);
    needs(Record::lesser(1, 2), ALL, [4, 4], [-MOST, 4]);
}

#[test]
fn the_greater() {
    needs(Record::greater(1, 2), [-3, 5], [0, 20], [0, 20]);
    needs(Record::greater(2, 1), [-3, 5], [0, 20], [0, 20]);
    needs(Record::greater(1, 2), [-3, 5], [0, 2], [0, 5]);
    needs(Record::greater(2, 1), [-3, 5], [0, 2], [0, 5]);
    needs(Record::greater(1, 2), [-3, 5], [-MOST, -7], [-3, 5]);
    needs(Record::greater(1, 2), ALL, [4, 4], [4, MOST]);
}

/// "for 11, 12 and 13 both a's and b's ranges do", whichever is chosen.
#[test]
fn operators_that_choose() {
    let choosing = |a, b| {
        [
            Record::choice(INT, 0, a, b),
            Record::arrow(INT, a, b),
            Record::arrow_pre(INT, a, b),
        ]
    };
    for record in choosing(1, 2).into_iter().chain(choosing(2, 1)) {
        needs(record, [-3, 5], [10, 20], [-3, 20]);
        needs(record, [-3, 5], [0, 2], [-3, 5]);
        needs(record, [-3, 5], [-9, 20], [-9, 20]);
        needs(record, [-3, 5], [-3, 5], [-3, 5]);
        needs(record, ALL, [-3, 5], ALL);
        needs(record, [MOST, MOST], [-MOST, -MOST], ALL);
    }
    for record in choosing(1, 1) {
        needs(record, [-3, 5], ALL, [-3, 5]);
    }
    // A stream that follows itself has its own range to keep.
    needs(Record::arrow_pre(INT, 1, 3), [-3, 5], ALL, [-3, 5]);
}

#[test]
fn bools_and_inputs_are_free() {
    let wide = [NONE, ALL, ALL, NONE];
    for record in [
        Record::input(BOOL),
        Record::constant(BOOL, 1),
        Record::constant(BOOL, 0),
        Record::not(0),
        Record::and(0, 0),
        Record::or(0, 0),
        Record::same(0, 0),
        Record::at_most(1, 2),
        Record::equal(1, 2),
        Record::choice(BOOL, 0, 0, 0),
        Record::arrow(BOOL, 0, 0),
        Record::arrow_pre(BOOL, 0, 3),
    ] {
        assert_eq!(answer(&with(record), &wide), Ok(()));
    }
    for ends in [NONE, ALL, [-MOST, -MOST], [MOST, MOST], [3, 17]] {
        let ranges = [NONE, ends, ALL, ends];
        assert_eq!(answer(&with(Record::input(INT)), &ranges), Ok(()));
    }
}

/// 0 true; 1 ten times 2; 2 is 3 + 4; 3 is 4 − 5; 4 and 5 inputs; 6 not 0, the
/// property: each operand stands after its record.
fn last_first() -> (NodeFile, [[i64; 2]; 7]) {
    let records = vec![
        Record::constant(BOOL, 1),
        Record::multiple(10, 2),
        Record::sum(3, 4),
        Record::difference(4, 5),
        Record::input(INT),
        Record::input(INT),
        Record::not(0),
    ];
    let ranges = [NONE, [-40, 70], [-4, 7], [-5, 3], [1, 4], [1, 6], NONE];
    (NodeFile::new(records, 6), ranges)
}

#[test]
fn records_in_any_order() {
    let (node, right) = last_first();
    assert_eq!(answer(&node, &right), Ok(()));
    for record in 1..4 {
        for (end, by) in [(0, 1), (1, -1)] {
            let mut ranges = right;
            ranges[record][end] += by;
            assert_eq!(answer(&node, &ranges), outside(record));
        }
    }
    // A note is no part of the node.
    let noted = NodeFile {
        note: vec![0x4C; 100],
        ..node
    };
    assert_eq!(answer(&noted, &right), Ok(()));
}

/// The lowest record, and not the first that is worked out.
#[test]
fn the_lowest_record_is_named() {
    let (node, mut ranges) = last_first();
    for (record, greatest) in [(3, 2), (2, 5), (1, 49)] {
        ranges[record][1] = greatest;
        assert_eq!(answer(&node, &ranges), outside(record));
    }
}

/// An operand counts as its range is stated, be that right or not.
#[test]
fn ranges_are_taken_as_stated() {
    let (node, mut ranges) = last_first();
    ranges[2] = NONE;
    ranges[1] = NONE;
    assert_eq!(answer(&node, &ranges), outside(2));
    ranges[2] = [-4, 8];
    assert_eq!(answer(&node, &ranges), outside(1));
    ranges[1] = [-40, 80];
    assert_eq!(answer(&node, &ranges), Ok(()));
}

#[test]
fn all_of_71_comes_before_72() {
    let (node, mut ranges) = last_first();
    ranges[1] = NONE;
    assert_eq!(answer(&node, &ranges), outside(1));
    for (at, ends) in [
        (0, [0, 1]),
        (1, [1, 0]),
        (5, [6, 1]),
        (5, [1, MOST + 1]),
        (5, [-MOST - 1, 6]),
        (6, [1, 0]),
        (6, [0, -1]),
    ] {
        let mut wrong = ranges;
        wrong[at] = ends;
        assert_eq!(answer(&node, &wrong), NOT_STATED, "{ends:?} of {at}");
    }
    let table = ranges.as_flattened();
    assert_eq!(check(&node.bytes(), &table[..13]), NOT_STATED);
    assert_eq!(check(&node.bytes(), &[table, &[0]].concat()), NOT_STATED);
    assert_eq!(check(&node.bytes(), table), outside(1));
}

#[test]
fn the_node_is_checked_first() {
    let (node, ranges) = last_first();
    let file = node.bytes();
    let trailer = 7 * 16;
    let refused = [
        (vec![], 1, File),
        (file[trailer + 1..].to_vec(), 1, File),
        (patched_back(&file, 1, &[1]), 2, File),
        (patched_back(&file, 12, &[0]), 3, File),
        (file[1..].to_vec(), 4, File),
        (patched(&file, 5 * 16, &[16]), 5, At(5)),
        (patched(&file, 3 * 16 + 4, &[7]), 6, At(3)),
        (patched(&file, 3 * 16 + 4, &[1]), 23, At(1)),
        (patched(&file, 3 * 16 + 4, &[0]), 7, At(3)),
        (patched_back(&file, 10, &[4]), 8, At(4)),
    ];
    let mut outside = ranges;
    outside[1] = NONE;
    for (file, number, place) in refused {
        for table in [ranges.as_flattened(), outside.as_flattened(), &[1], &[]] {
            let answer = check(&file, table);
            assert_eq!(answer, Err(Refusal::new(number, place)));
        }
    }
}

/// A counter has no range; as the lesser of itself and ten it has one.
#[test]
fn a_counter_that_stays() {
    let counts = examples::counter();
    for most in [0, 1, 10, MOST - 1] {
        let own = [0, most];
        let next = [1, most + 1];
        let ranges = [[0, 0], [1, 1], own, next, NONE];
        assert_eq!(answer(&counts, &ranges), outside(2));
    }
    let stays = examples::ten_is_the_lesser();
    let with = |most| {
        let (own, next) = ([0, most], [1, most + 1]);
        let ranges = [[0, 0], [1, 1], [10, 10], own, next, [1, 10], NONE];
        answer(&stays, &ranges)
    };
    assert_eq!([with(10), with(11), with(MOST - 1)], [Ok(()); 3]);
    assert_eq!(with(9), outside(3));
    let inside = examples::brought_inside();
    let ranges = [ALL, [0, 0], [10, 10], [0, MOST], [0, 10], NONE, NONE, NONE];
    assert_eq!(answer(&inside, &ranges), Ok(()));
}
