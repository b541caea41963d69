//! What a look-up visits: a value that is not visited may leave the range, one
//! that is visited may not, and none is worked out twice.

use conuhawe::{History, Place, Refusal, Session};
use reference::build::renumber::Renumbering;
use reference::build::{NodeFile, Record, BOOL, INT};
use std::thread;

/// The streams that every node here begins with: true, 0, an int input, and
/// twice that.
const TRUE: u16 = 0;
const ZERO: u16 = 1;
const INPUT: u16 = 2;
const DOUBLE: u16 = 3;
/// The stream of the record after them.
const OWN: usize = 4;
/// Doubled, this leaves the range, and so does any number below its opposite.
const LARGE: i64 = 1 << 62;
/// What a look-up needs of the stack, as the header says, and some more for the
/// thread.
const STACK: usize = 192 << 10;

/// A node of the doubled input and some more records.
fn with(more: &[Record]) -> Vec<u8> {
    let first = [
        Record::constant(BOOL, 1),
        Record::constant(INT, 0),
        Record::input(INT),
        Record::sum(INPUT, INPUT),
    ];
    NodeFile::new([&first, more].concat(), TRUE).bytes()
}

/// The stream at the last instant; each has one input.
fn last(node: &[u8], inputs: &[i64], stream: usize) -> Result<i64, Refusal> {
    let history = History {
        node,
        instants: inputs.len(),
        inputs,
    };
    history.look_up(stream, inputs.len() - 1)
}

/// The refusal of a session that is given the inputs in turn, if there is one,
/// and the instant it is met at.
fn stops(node: &[u8], streams: usize, inputs: &[i64]) -> Option<(usize, Refusal)> {
    let mut session = Session::begin(node).unwrap();
    let mut values = vec![0; streams];
    let mut instants = (0..).zip(inputs);
    instants.find_map(|(t, input)| {
        let answer = session.instant(&[*input], &mut values);
        answer.err().map(|refusal| (t, refusal))
    })
}

fn outside(stream: usize) -> Refusal {
    Refusal {
        number: 34,
        place: Place::Record(stream),
    }
}

/// Records that choose between 0 and [`DOUBLE`], inputs of which one is large, and
/// whether at the last instant the double of that one is visited.
fn choosing() -> Vec<(Record, Vec<i64>, bool)> {
    let (zero_first, double_first) = (
        Record::arrow(INT, ZERO, DOUBLE),
        Record::arrow(INT, DOUBLE, ZERO),
    );
    let (zero_before, double_before) = (
        Record::arrow_pre(INT, ZERO, DOUBLE),
        Record::arrow_pre(INT, DOUBLE, ZERO),
    );
    vec![
        (Record::choice(INT, TRUE, ZERO, DOUBLE), vec![LARGE], false),
        (Record::choice(INT, TRUE, DOUBLE, ZERO), vec![LARGE], true),
        (zero_first, vec![LARGE], false),
        (double_first, vec![LARGE], true),
        (zero_first, vec![LARGE, 0], false),
        (zero_first, vec![0, LARGE], true),
        (double_first, vec![LARGE, 0], false),
        (double_first, vec![0, LARGE], false),
        (zero_before, vec![LARGE], false),
        (double_before, vec![LARGE], true),
        (zero_before, vec![LARGE, 0], true),
        (zero_before, vec![0, LARGE], false),
        (zero_before, vec![LARGE, 0, 0], false),
        (double_before, vec![LARGE, 0], false),
        (double_before, vec![0, LARGE], false),
    ]
}

/// The branch taken and the operand chosen are visited, the others are not,
/// whatever a session says.
#[test]
fn the_chosen_operand_alone() {
    for (record, inputs, visited) in choosing() {
        let node = with(&[record]);
        let at = inputs.iter().position(|input| *input == LARGE).unwrap();
        let stop = Some((at, outside(DOUBLE.into())));
        assert_eq!(stops(&node, OWN + 1, &inputs), stop, "{record:?}");
        let expected = if visited { Err(outside(OWN)) } else { Ok(0) };
        assert_eq!(last(&node, &inputs, OWN), expected, "{record:?} {inputs:?}");
    }
}

/// Of an "if" the branch follows the condition at that instant.
#[test]
fn the_condition_chooses() {
    // 4: the input is at most 0; 5: if so 0, else twice the input.
    let more = [
        Record::at_most(INPUT, ZERO),
        Record::choice(INT, 4, ZERO, DOUBLE),
    ];
    let node = with(&more);
    for (input, expected) in [
        (i64::MIN, Ok(0)),
        (-LARGE - 1, Ok(0)),
        (0, Ok(0)),
        (1, Ok(2)),
        (LARGE - 1, Ok(2 * (LARGE - 1))),
        (LARGE, Err(outside(5))),
        (i64::MAX, Err(outside(5))),
    ] {
        assert_eq!(last(&node, &[input], 5), expected, "{input}");
        // What the input was before or is later plays no part.
        for other in [i64::MIN, 0, i64::MAX] {
            let history = History {
                node: &node,
                instants: 3,
                inputs: &[other, input, other],
            };
            assert_eq!(history.look_up(5, 1), expected, "{input} {other}");
        }
    }
}

/// A condition outside the range is visited too.
#[test]
fn the_condition_is_visited() {
    let more = [
        Record::at_most(DOUBLE, ZERO),
        Record::choice(INT, 4, ZERO, ZERO),
    ];
    let node = with(&more);
    assert_eq!(last(&node, &[LARGE - 1], 5), Ok(0));
    assert_eq!(last(&node, &[LARGE], 5), Err(outside(5)));
}

/// All operands of every other operator are visited, also where one settles the
/// value: an "and" that is false, an "or" that is true, 0 times a.
#[test]
fn all_operands_of_the_others() {
    // 4: twice the input is at most 0; 5: not true.
    let bools = [Record::at_most(DOUBLE, ZERO), Record::not(TRUE)];
    let (four, no) = (4, 5);
    for (record, value) in [
        (Record::not(four), 0),
        (Record::and(no, four), 0),
        (Record::and(four, no), 0),
        (Record::or(TRUE, four), 1),
        (Record::or(four, TRUE), 1),
        (Record::same(four, TRUE), 1),
        (Record::same(no, four), 0),
        (Record::sum(ZERO, DOUBLE), -2),
        (Record::sum(DOUBLE, ZERO), -2),
        (Record::difference(DOUBLE, DOUBLE), 0),
        (Record::difference(ZERO, DOUBLE), 2),
        (Record::multiple(0, DOUBLE), 0),
        (Record::multiple(-1, DOUBLE), 2),
        (Record::at_most(DOUBLE, ZERO), 1),
        (Record::at_most(ZERO, DOUBLE), 0),
        (Record::equal(DOUBLE, DOUBLE), 1),
        (Record::equal(ZERO, DOUBLE), 0),
        (Record::lesser(ZERO, DOUBLE), -2),
        (Record::lesser(DOUBLE, ZERO), -2),
        (Record::greater(ZERO, DOUBLE), 0),
        (Record::greater(DOUBLE, ZERO), 0),
    ] {
        let node = with(&[&bools[..], &[record]].concat());
        assert_eq!(last(&node, &[-1], 6), Ok(value), "{record:?}");
        assert_eq!(last(&node, &[-LARGE - 1], 6), Err(outside(6)), "{record:?}");
        assert_eq!(last(&node, &[LARGE], 6), Err(outside(6)), "{record:?}");
    }
}

/// The wanted stream is named and not the one that left the range, and what comes
/// back into the range was outside all the same.
#[test]
fn the_wanted_stream_is_named() {
    // 4 is twice the input less the input; 5 is 4, one instant before.
    let more = [
        Record::difference(DOUBLE, INPUT),
        Record::arrow_pre(INT, ZERO, 4),
    ];
    let node = with(&more);
    assert_eq!(last(&node, &[LARGE - 1], 4), Ok(LARGE - 1));
    for stream in [3, 4] {
        assert_eq!(last(&node, &[LARGE], stream), Err(outside(stream)));
    }
    assert_eq!(last(&node, &[LARGE, 0], 5), Err(outside(5)));
    assert_eq!(last(&node, &[0, LARGE], 5), Ok(0));
    assert_eq!(last(&node, &[LARGE, 0, 0], 5), Ok(0));
}

/// 62 doublings of an input, in record order: the last is stream 63.
fn doublings() -> NodeFile {
    let mut records = vec![Record::constant(BOOL, 1), Record::input(INT)];
    records.extend((1..63).map(|before| Record::sum(before, before)));
    NodeFile::new(records, 0)
}

/// Each is worked out once: 2^62 visits would not end.
#[test]
fn doublings_are_worked_out_once() {
    let reversed = Renumbering::reversed(64).node(&doublings());
    for (node, own) in [(doublings(), 63), (reversed, 0)] {
        let node = node.bytes();
        for (input, expected) in [
            (0, Ok(0)),
            (1, Ok(LARGE)),
            (-2, Ok(i64::MIN)),
            (2, Err(outside(own))),
            (-3, Err(outside(own))),
            (i64::MAX, Err(outside(own))),
        ] {
            assert_eq!(last(&node, &[input], own), expected, "{input}");
            let later = [[7; 15].as_slice(), &[input]].concat();
            assert_eq!(last(&node, &later, own), expected, "{input}");
        }
    }
}

/// A chain through all instants: 1 is 63 one instant before, at first the input,
/// and each of the others is that before it, and that again.
fn chain() -> NodeFile {
    let mut records = vec![Record::input(BOOL), Record::arrow_pre(BOOL, 0, 63)];
    records.extend((1..63).map(|before| Record::and(before, before)));
    NodeFile::new(records, 63)
}

/// The deepest that a look-up goes: 63 streams at each of 16 instants, one below
/// the other.
#[test]
fn the_longest_chain() {
    let call = || {
        for first in [0, 1] {
            let inputs = [&[first], [1 - first; 15].as_slice()].concat();
            assert_eq!(last(&chain().bytes(), &inputs, 63), Ok(first));
        }
    };
    let small = thread::Builder::new().stack_size(STACK);
    small.spawn(call).unwrap().join().unwrap();
}
