//! Session records as no call leaves them.

use crate::checker::{Record, Refusal};
use crate::damage::{set_field, Layout};
use crate::nodes;
use crate::random::Random;
use reference::build::{NodeFile, BOOL, INT};

/// What is known of the answer to a call on a spoiled record.
#[derive(Clone, Copy, Debug, PartialEq, Eq)]
pub enum Expected {
    /// It is refused with 30.
    NoNode,
    /// It is not refused with 30.
    ANode,
    /// Nothing.
    Unknown,
}

impl Expected {
    /// Whether an answer is so.
    pub fn is(self, answer: Result<(), Refusal>) -> bool {
        let no_node = answer == Err(Refusal::file(30));
        match self {
            Expected::NoNode => no_node,
            Expected::ANode => !no_node,
            Expected::Unknown => true,
        }
    }
}

/// A way to spoil a record that holds this node.
#[derive(Clone, Copy, Debug)]
pub struct Way {
    /// Its name.
    pub name: &'static str,
    /// What is known then.
    pub expected: Expected,
    spoil: fn(&mut Random, &NodeFile, &mut Record),
}

impl Way {
    const fn new(
        name: &'static str,
        expected: Expected,
        spoil: fn(&mut Random, &NodeFile, &mut Record),
    ) -> Self {
        Way {
            name,
            expected,
            spoil,
        }
    }

    /// The record spoiled.
    pub fn spoiled(&self, random: &mut Random, node: &NodeFile, record: &Record) -> Record {
        let mut record = record.clone();
        (self.spoil)(random, node, &mut record);
        record
    }
}

/// All of them.
pub const WAYS: [Way; 12] = [
    Way::new("length", Expected::Unknown, length),
    Way::new("field", Expected::Unknown, field),
    Way::new("bit", Expected::Unknown, bit),
    Way::new("started", Expected::ANode, |_, _, record| {
        record.answered = !record.answered;
    }),
    Way::new("held", Expected::ANode, |_, _, record| {
        record.held = !record.held;
    }),
    Way::new(
        "bool of the last",
        Expected::NoNode,
        |random, node, record| {
            record.answered = true;
            no_bool(random, node, &mut record.last);
        },
    ),
    Way::new(
        "bool of no last",
        Expected::ANode,
        |random, node, record| {
            record.answered = false;
            no_bool(random, node, &mut record.last);
        },
    ),
    Way::new(
        "bool of the trial",
        Expected::NoNode,
        |random, node, record| {
            record.held = true;
            no_bool(random, node, &mut record.trial);
        },
    ),
    Way::new(
        "bool of no trial",
        Expected::ANode,
        |random, node, record| {
            record.held = false;
            no_bool(random, node, &mut record.trial);
        },
    ),
    Way::new("bools", Expected::ANode, |random, node, record| {
        record.held = random.once_in(2);
        each(node, BOOL, record, || random.of([0, 1]));
    }),
    Way::new("ints", Expected::ANode, |random, node, record| {
        record.held = random.once_in(2);
        each(node, INT, record, || random.spread());
    }),
    Way::new(
        "past the streams",
        Expected::ANode,
        |random, node, record| {
            let n = node.records.len();
            let past = record.last[n..].iter_mut().chain(&mut record.trial[n..]);
            past.for_each(|number| *number = random.spread());
        },
    ),
];

/// The length, of a node or not.
fn length(random: &mut Random, _: &NodeFile, record: &mut Record) {
    record.length = match random.below(2) {
        0 => random.of([0, 15, 16, 1_040, 1_041, usize::MAX]),
        _ => random.below(1_100),
    };
}

/// A field of the node file.
fn field(random: &mut Random, node: &NodeFile, record: &mut Record) {
    let (layout, length) = (Layout::Node(node.records.len()), record.length);
    set_field(random, layout, &mut record.bytes[..length]);
}

/// A bit of the node file or of what follows it.
fn bit(random: &mut Random, _: &NodeFile, record: &mut Record) {
    record.bytes[random.below(1_040)] ^= 1 << random.below(8);
}

/// The value of a bool stream, of which there is one, becomes another number.
fn no_bool(random: &mut Random, node: &NodeFile, values: &mut [i64; 64]) {
    let bools = nodes::streams(&types(node), node.records.len(), BOOL);
    let stream = random.pick(&bools).expect("the property");
    values[usize::from(stream)] = random.of([2, -1, i64::MIN, 1 << 32]);
}

/// All values of one type, of the last instant and of the trial, become such
/// numbers.
fn each(node: &NodeFile, kind: u8, record: &mut Record, mut number: impl FnMut() -> i64) {
    for stream in nodes::streams(&types(node), node.records.len(), kind) {
        record.last[usize::from(stream)] = number();
        record.trial[usize::from(stream)] = number();
    }
}

fn types(node: &NodeFile) -> Vec<u8> {
    let types = node.records.iter().map(|record| record.type_byte);
    types.collect()
}
