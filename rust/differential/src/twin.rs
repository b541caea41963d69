//! A second path through a checker: the same bytes elsewhere in memory and
//! behind a note, and sessions by the tiny evaluator. It stays a test of its
//! own where two implementations are compared.

use crate::checker::{Checker, History, Progress, Record, Refusal};
use crate::checker::{Shape, Stage, Turned, Verdict};
use crate::evaluator;

/// The second path through `C`.
#[derive(Clone, Copy, Debug, Default)]
pub struct Twin<C>(pub C);

/// The file behind a note of some bytes, if there is room for one, and the
/// note's length. The length is odd as often as even.
fn moved(file: &[u8]) -> (Vec<u8>, usize) {
    let room = 65_535usize.saturating_sub(file.len());
    let note = (1 + file.len() % 7 + file.len() % 23).min(room);
    let mut moved = vec![0x4C; note];
    moved.extend(file);
    (moved, note)
}

/// A note can change the verdict on a length or on a distance past the
/// start, and no other.
fn is_of_length(refusal: &Refusal) -> bool {
    matches!(refusal.number, 1 | 4 | 11 | 14)
}

impl<C: Checker> Checker for Twin<C> {
    fn name(&self) -> String {
        format!("{} behind notes", self.0.name())
    }

    fn check(&self, node: &[u8], certificate: &[u8]) -> Verdict {
        match self.0.check(node, certificate) {
            Err(refusal) if is_of_length(&refusal) => Err(refusal),
            _ => self.0.check(&moved(node).0, &moved(certificate).0),
        }
    }

    fn turns_begin(&self) -> Progress {
        self.0.turns_begin()
    }

    fn turn(&self, node: &[u8], certificate: &[u8], progress: Progress, quota: usize) -> Turned {
        let turned = self.0.turn(node, certificate, progress, quota);
        match turned.answer {
            Stage::Refused(refusal) if is_of_length(&refusal) => turned,
            _ => {
                let (node, certificate) = (moved(node).0, moved(certificate).0);
                self.0.turn(&node, &certificate, progress, quota)
            }
        }
    }

    fn read(&self, node: &[u8]) -> Result<Shape, Refusal> {
        match self.0.read(node) {
            Err(refusal) if is_of_length(&refusal) => Err(refusal),
            _ => self.0.read(&moved(node).0),
        }
    }

    fn look_up(&self, history: History, stream: usize, instant: usize) -> Result<i64, Refusal> {
        match self.0.look_up(history, stream, instant) {
            Err(refusal) if is_of_length(&refusal) => Err(refusal),
            _ => {
                let elsewhere = History {
                    node: &moved(history.node).0,
                    inputs: &[&[-1], history.inputs].concat()[1..],
                    ..history
                };
                self.0.look_up(elsewhere, stream, instant)
            }
        }
    }

    fn ranges(&self, node: &[u8], table: &[i64]) -> Result<(), Refusal> {
        match self.0.ranges(node, table) {
            Err(refusal) if is_of_length(&refusal) => Err(refusal),
            _ => self.0.ranges(&moved(node).0, &[&[-1], table].concat()[1..]),
        }
    }

    fn node_note(&self, node: &[u8]) -> usize {
        let (moved, note) = moved(node);
        match self.0.read(node) {
            Ok(_) => self.0.node_note(&moved) - note,
            Err(_) => self.0.node_note(node),
        }
    }

    fn certificate_note(&self, certificate: &[u8]) -> usize {
        let (moved, note) = moved(certificate);
        let behind = self.0.certificate_note(&moved);
        // A certificate too short for its distance may fit behind a note.
        let fits = distance(certificate).is_some_and(|d| d <= certificate.len());
        if fits {
            behind.saturating_sub(note)
        } else {
            0
        }
    }

    fn begin(&self, record: &mut Record, node: &[u8]) -> Result<(), Refusal> {
        match self.0.read(node) {
            Err(refusal) => Err(refusal),
            Ok(_) => evaluator::begin(&self.0, record, &moved(node).0),
        }
    }

    fn instant(
        &self,
        record: &mut Record,
        inputs: &[i64],
        values: &mut [i64],
    ) -> Result<(), Refusal> {
        evaluator::instant(&self.0, record, inputs, values)
    }

    fn trial(
        &self,
        record: &mut Record,
        inputs: &[i64],
        values: &mut [i64],
    ) -> Result<(), Refusal> {
        evaluator::trial(&self.0, record, inputs, values)
    }

    fn commit(&self, record: &mut Record) -> Result<(), Refusal> {
        evaluator::commit(&self.0, record)
    }
}

/// A certificate's distance field, if the file has one and is not too long.
fn distance(file: &[u8]) -> Option<usize> {
    let distance = file.last_chunk::<4>().map(|b| u32::from_le_bytes(*b))?;
    (16..=65_535)
        .contains(&file.len())
        .then_some(distance as usize)
}
