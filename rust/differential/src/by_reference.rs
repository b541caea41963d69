//! `rust/reference` as a checker.

use crate::checker::{Checker, History, Progress, Record, Refusal, Shape, Turned, Verdict};
use reference::certificate::{self, turns};
use reference::{look_up, node, ranges, session};

/// The second implementation, written from 01 alone.
#[derive(Clone, Copy, Debug, Default)]
pub struct Reference;

impl Checker for Reference {
    fn name(&self) -> String {
        "reference".into()
    }

    fn check(&self, node: &[u8], certificate: &[u8]) -> Verdict {
        certificate::check(node, certificate)
    }

    fn turns_begin(&self) -> Progress {
        turns::turns_begin()
    }

    fn turn(&self, node: &[u8], certificate: &[u8], progress: Progress, quota: usize) -> Turned {
        turns::turn(node, certificate, progress, quota)
    }

    fn read(&self, file: &[u8]) -> Result<Shape, Refusal> {
        node::read(file).map(|node| Shape {
            streams: node.count(),
            property: node.property().into(),
        })
    }

    fn look_up(&self, history: History, stream: usize, instant: usize) -> Result<i64, Refusal> {
        let History {
            node,
            instants,
            inputs,
        } = history;
        look_up::look_up(node, instants, inputs, stream, instant)
    }

    fn ranges(&self, node: &[u8], table: &[i64]) -> Result<(), Refusal> {
        ranges::check(node, table)
    }

    fn node_note(&self, file: &[u8]) -> usize {
        node::note(file).len()
    }

    fn certificate_note(&self, file: &[u8]) -> usize {
        certificate::note(file).len()
    }

    fn begin(&self, record: &mut Record, node: &[u8]) -> Result<(), Refusal> {
        session::begin(record, node)
    }

    fn instant(
        &self,
        record: &mut Record,
        inputs: &[i64],
        values: &mut [i64],
    ) -> Result<(), Refusal> {
        session::instant(record, inputs, values)
    }

    fn trial(
        &self,
        record: &mut Record,
        inputs: &[i64],
        values: &mut [i64],
    ) -> Result<(), Refusal> {
        session::trial(record, inputs, values)
    }

    fn commit(&self, record: &mut Record) -> Result<(), Refusal> {
        session::commit(record)
    }
}
