//! Delays: the property is what a stream was k instants before, so that an
//! induction of depth k comes down to offset 0 of its step.

use crate::nodes::streams;
use crate::random::Random;
use reference::build::{NodeFile, Record, BOOL, INT};

/// Adds k delays of the last record, each `first` to begin with, and gives the
/// number of the last.
pub fn delay(records: &mut Vec<Record>, first: u16, k: u8) -> u16 {
    let type_byte = records[usize::from(first)].type_byte;
    let last = records.len() as u16 - 1;
    let delays = (0..u16::from(k)).map(|j| Record::arrow_pre(type_byte, first, last + j));
    records.extend(delays);
    last + u16::from(k)
}

/// The node with more records: 1 -> some stream, k delays of that, and over
/// ints a limit that the last keeps to, or not. Nothing if there is no such
/// stream or no room.
pub fn delayed_arrow(random: &mut Random, node: &NodeFile, k: u8) -> Option<NodeFile> {
    let type_byte = random.of([BOOL, INT]);
    let types: Vec<u8> = node.records.iter().map(|record| record.type_byte).collect();
    let later = random.pick(&streams(&types, types.len(), type_byte))?;
    let mut records = node.records.clone();
    let first = records.len() as u16;
    records.push(Record::constant(type_byte, 1));
    records.push(Record::arrow(type_byte, first, later));
    let mut property = delay(&mut records, first, k);
    if type_byte == INT {
        records.push(Record::constant(INT, random.of([1, 0, -7, -1_000_000_000])));
        records.push(Record::at_most(property + 1, property));
        property += 2;
    }
    (records.len() <= 64).then(|| NodeFile::new(records, property))
}
