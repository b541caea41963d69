//! The proved library as a checker: the one module that links it.
//!
//! Only [`lent`], [`taken_back`] and [`marked`] know its session record: length,
//! last values, the held trial's, file, whether an instant was committed,
//! whether a trial is held, and six spare bytes.

pub mod marked;

use crate::checker::{Accepted, Checker, History, Place, Record, Refusal, Shape, Verdict};
use crate::checker::{Progress, Stage, Turned};
use conuhawe::Session;

const LAST: usize = 8;
const TRIAL: usize = LAST + 8 * 64;
const FILE: usize = TRIAL + 8 * 64;
const STARTED: usize = FILE + 1040;
const HELD: usize = STARTED + 1;

/// The proved calls.
#[derive(Clone, Copy, Debug, Default)]
pub struct Proved;

fn place(place: conuhawe::Place) -> Place {
    match place {
        conuhawe::Place::File => Place::File,
        conuhawe::Place::Record(i) => Place::Record(i),
        conuhawe::Place::Constraint(i) => Place::Constraint(i),
        conuhawe::Place::Line(i) => Place::Line(i),
        conuhawe::Place::Base => Place::Base,
        conuhawe::Place::Step => Place::Step,
    }
}

fn refusal(refusal: conuhawe::Refusal) -> Refusal {
    Refusal::new(small(refusal.number), place(refusal.place))
}

fn accepted(accepted: conuhawe::Accepted) -> Accepted {
    Accepted {
        depth: small(accepted.depth),
        base: small(accepted.base),
        step: small(accepted.step),
    }
}

fn stage(answer: Result<conuhawe::Stage, conuhawe::Refusal>) -> Stage {
    match answer {
        Ok(conuhawe::Stage::Unfinished) => Stage::Unfinished,
        Ok(conuhawe::Stage::Accepted(own)) => Stage::Accepted(accepted(own)),
        Err(own) => Stage::Refused(refusal(own)),
    }
}

fn progress(progress: conuhawe::Progress) -> Progress {
    Progress {
        line: progress.line(),
    }
}

/// A number of a contract, whose limits say that it fits.
fn small<T: TryFrom<usize>>(number: usize) -> T {
    T::try_from(number)
        .ok()
        .expect("the contracts know no such number")
}

/// Writes numbers, 8 bytes each.
fn write(bytes: &mut [u8], values: &[i64; 64]) {
    for (place, value) in bytes.chunks_exact_mut(8).zip(values) {
        place.copy_from_slice(&value.to_le_bytes());
    }
}

/// The eight bytes at an offset.
fn word(bytes: &[u8], at: usize) -> [u8; 8] {
    let mut word = [0; 8];
    word.copy_from_slice(&bytes[at..at + 8]);
    word
}

/// The record as the library lends it.
fn lent(record: &Record) -> Session {
    let mut bytes = [0; Session::SIZE];
    bytes[..LAST].copy_from_slice(&record.length.to_le_bytes());
    write(&mut bytes[LAST..TRIAL], &record.last);
    write(&mut bytes[TRIAL..FILE], &record.trial);
    bytes[FILE..STARTED].copy_from_slice(&record.bytes);
    bytes[STARTED] = u8::from(record.answered);
    bytes[HELD] = u8::from(record.held);
    Session::from_bytes(bytes)
}

/// The record that the library left.
fn taken_back(session: &Session) -> Record {
    let bytes = session.to_bytes();
    let mut file = [0; 1040];
    file.copy_from_slice(&bytes[FILE..STARTED]);
    Record {
        length: usize::from_le_bytes(word(&bytes, 0)),
        bytes: file,
        answered: bytes[STARTED] != 0,
        last: std::array::from_fn(|i| i64::from_le_bytes(word(&bytes, LAST + 8 * i))),
        held: bytes[HELD] != 0,
        trial: std::array::from_fn(|i| i64::from_le_bytes(word(&bytes, TRIAL + 8 * i))),
    }
}

/// A call on the record as the library lends it.
fn on(
    record: &mut Record,
    call: impl FnOnce(&mut Session) -> Result<(), conuhawe::Refusal>,
) -> Result<(), Refusal> {
    let mut session = lent(record);
    let answer = call(&mut session).map_err(refusal);
    *record = taken_back(&session);
    answer
}

impl Checker for Proved {
    fn name(&self) -> String {
        "proved".into()
    }

    fn check(&self, node: &[u8], certificate: &[u8]) -> Verdict {
        let verdict = conuhawe::check(node, certificate);
        verdict.map_err(refusal).map(accepted)
    }

    fn turns_begin(&self) -> Progress {
        progress(conuhawe::turns_begin())
    }

    fn turn(&self, node: &[u8], certificate: &[u8], given: Progress, quota: usize) -> Turned {
        let given = conuhawe::Progress::at(given.line);
        let turned = conuhawe::turn(node, certificate, given, quota);
        Turned {
            answer: stage(turned.answer),
            progress: progress(turned.progress),
            checked: turned.checked,
        }
    }

    fn read(&self, node: &[u8]) -> Result<Shape, Refusal> {
        let verdict = conuhawe::read(node);
        verdict.map_err(refusal).map(|node| Shape {
            streams: node.streams,
            property: node.property,
        })
    }

    fn look_up(&self, history: History, stream: usize, instant: usize) -> Result<i64, Refusal> {
        let History {
            node,
            instants,
            inputs,
        } = history;
        let history = conuhawe::History {
            node,
            instants,
            inputs,
        };
        history.look_up(stream, instant).map_err(refusal)
    }

    fn ranges(&self, node: &[u8], table: &[i64]) -> Result<(), Refusal> {
        conuhawe::ranges(node, table).map_err(refusal)
    }

    fn node_note(&self, node: &[u8]) -> usize {
        conuhawe::node_note(node).len()
    }

    fn certificate_note(&self, certificate: &[u8]) -> usize {
        conuhawe::certificate_note(certificate).len()
    }

    fn begin(&self, record: &mut Record, node: &[u8]) -> Result<(), Refusal> {
        on(record, |session| session.begin_again(node).map(|_| ()))
    }

    fn instant(
        &self,
        record: &mut Record,
        inputs: &[i64],
        values: &mut [i64],
    ) -> Result<(), Refusal> {
        on(record, |session| session.instant(inputs, values))
    }

    fn trial(
        &self,
        record: &mut Record,
        inputs: &[i64],
        values: &mut [i64],
    ) -> Result<(), Refusal> {
        on(record, |session| session.trial(inputs, values))
    }

    fn commit(&self, record: &mut Record) -> Result<(), Refusal> {
        on(record, Session::commit)
    }
}
