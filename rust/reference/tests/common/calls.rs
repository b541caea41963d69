//! Calls of a session, each made on a record, and the records they leave.

#![allow(dead_code)]

use reference::answer::Refusal;
use reference::build::random::Random;
use reference::build::{NodeFile, BOOL, INT};
use reference::node::{self, Type};
use reference::session::{begin, commit, instant, trial, Record};
use Call::{Begin, Commit, Instant, Trial};

/// A call: of an instant and a trial the inputs and the length of the slice, of
/// a beginning the file.
#[derive(Clone, Copy, Debug)]
pub enum Call<'a> {
    Instant(&'a [i64], usize),
    Trial(&'a [i64], usize),
    Commit,
    Begin(&'a [u8]),
}

impl Call<'_> {
    /// Its name, for tallies.
    pub fn name(&self) -> &'static str {
        match self {
            Instant(..) => "instant",
            Trial(..) => "trial",
            Commit => "commit",
            Begin(_) => "begin",
        }
    }
}

/// The answer with the slice, which is lent as sevens. A refusal leaves record
/// and slice as they were.
#[track_caller]
pub fn answer(record: &mut Record, call: Call) -> Result<Vec<i64>, Refusal> {
    let lent = record.clone();
    let mut values = match call {
        Instant(_, count) | Trial(_, count) => vec![7; count],
        Commit | Begin(_) => Vec::new(),
    };
    let answer = match call {
        Instant(inputs, _) => instant(record, inputs, &mut values),
        Trial(inputs, _) => trial(record, inputs, &mut values),
        Commit => commit(record),
        Begin(file) => begin(record, file),
    };
    if answer.is_err() {
        assert_eq!(*record, lent);
        assert!(values.iter().all(|value| *value == 7));
    }
    answer.map(|()| values)
}

/// A record begun on the node.
pub fn begun(node: &NodeFile) -> Record {
    let mut record = Record::new();
    begin(&mut record, &node.bytes()).unwrap();
    record
}

/// The values, zeros after them.
pub fn padded(values: &[i64]) -> [i64; 64] {
    let mut all = [0; 64];
    all[..values.len()].copy_from_slice(values);
    all
}

/// The record, holding a trial with these values.
pub fn holding(record: &Record, values: &[i64]) -> Record {
    Record {
        held: true,
        trial: padded(values),
        ..record.clone()
    }
}

/// The record past an instant with these values, holding none.
pub fn past(record: &Record, values: &[i64]) -> Record {
    Record {
        answered: true,
        last: padded(values),
        held: false,
        trial: [0; 64],
        ..record.clone()
    }
}

/// Inputs for one instant of an accepted file.
pub fn draw(random: &mut Random, file: &[u8]) -> Vec<i64> {
    let node = node::read(file).unwrap();
    let types = node.inputs().iter().map(|i| node.types()[usize::from(*i)]);
    let drawn = types.map(|own| match own {
        Type::Bool => random.input(BOOL),
        Type::Int => random.input(INT),
    });
    drawn.collect()
}
