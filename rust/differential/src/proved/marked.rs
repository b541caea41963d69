//! Records of other bytes than a call leaves: what says that an instant was
//! committed, or that a trial is held, is any byte but 0, and so are the spare
//! ones. What a call leaves is looked at by the byte.

use super::{lent, refusal, taken_back, Proved, HELD, STARTED};
use crate::checker::{Checker, History, Progress, Record, Refusal, Shape, Turned, Verdict};
use conuhawe::Session;

/// The proved calls over such records.
#[derive(Clone, Copy, Debug, Default)]
pub struct Marked;

/// The byte, another for another record.
fn mark(record: &Record) -> u8 {
    let numbers = record.last.iter().chain(&record.trial);
    let sum = numbers.fold(record.length as i64, |sum, number| {
        sum.wrapping_mul(31).wrapping_add(*number)
    });
    1 + (sum.unsigned_abs() % 255) as u8
}

/// The record so lent.
fn marked(record: &Record) -> [u8; Session::SIZE] {
    let (mut bytes, mark) = (lent(record).to_bytes(), mark(record));
    bytes[STARTED] *= mark;
    bytes[HELD] *= mark;
    bytes[HELD + 1..].fill(mark);
    bytes
}

/// A call on the record so lent. An answered one leaves zeros in the spare
/// bytes, and in the two before them what it says of the first.
fn on_marked(
    record: &mut Record,
    call: impl FnOnce(&mut Session) -> Result<(), conuhawe::Refusal>,
    leaves: impl FnOnce(u8) -> [u8; 2],
) -> Result<(), Refusal> {
    let before = marked(record);
    let mut session = Session::from_bytes(before);
    let answer = call(&mut session).map_err(refusal);
    let after = session.to_bytes();
    if answer.is_err() {
        assert_eq!(after, before, "a refusal that writes");
    } else {
        assert_eq!(after[STARTED..=HELD], leaves(before[STARTED]));
        assert_eq!(after[HELD + 1..], [0; 6]);
    }
    *record = taken_back(&session);
    answer
}

impl Checker for Marked {
    fn name(&self) -> String {
        "proved, marked by other bytes".into()
    }

    fn check(&self, node: &[u8], certificate: &[u8]) -> Verdict {
        Proved.check(node, certificate)
    }

    fn turns_begin(&self) -> Progress {
        Proved.turns_begin()
    }

    fn turn(&self, node: &[u8], certificate: &[u8], progress: Progress, quota: usize) -> Turned {
        Proved.turn(node, certificate, progress, quota)
    }

    fn read(&self, node: &[u8]) -> Result<Shape, Refusal> {
        Proved.read(node)
    }

    fn look_up(&self, history: History, stream: usize, instant: usize) -> Result<i64, Refusal> {
        Proved.look_up(history, stream, instant)
    }

    fn ranges(&self, node: &[u8], table: &[i64]) -> Result<(), Refusal> {
        Proved.ranges(node, table)
    }

    fn node_note(&self, node: &[u8]) -> usize {
        Proved.node_note(node)
    }

    fn certificate_note(&self, certificate: &[u8]) -> usize {
        Proved.certificate_note(certificate)
    }

    fn begin(&self, record: &mut Record, node: &[u8]) -> Result<(), Refusal> {
        let call = |session: &mut Session| session.begin_again(node).map(|_| ());
        on_marked(record, call, |_| [0, 0])
    }

    fn instant(
        &self,
        record: &mut Record,
        inputs: &[i64],
        values: &mut [i64],
    ) -> Result<(), Refusal> {
        on_marked(
            record,
            |session| session.instant(inputs, values),
            |_| [1, 0],
        )
    }

    fn trial(
        &self,
        record: &mut Record,
        inputs: &[i64],
        values: &mut [i64],
    ) -> Result<(), Refusal> {
        let call = |session: &mut Session| session.trial(inputs, values);
        on_marked(record, call, |started| [started, 1])
    }

    fn commit(&self, record: &mut Record) -> Result<(), Refusal> {
        on_marked(record, Session::commit, |_| [1, 0])
    }
}
