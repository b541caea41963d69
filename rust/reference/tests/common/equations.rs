//! A look-up told in the words of its rule, over the records as they are
//! written: all values of all streams at all instants as whole numbers of any
//! size, then what is visited, then the refusals.

#![allow(dead_code)]

use super::whole::Whole;
use reference::answer::{Place, Refusal};
use reference::build::{NodeFile, Record, BOOL};
use std::collections::BTreeSet;

/// A stream at an instant, the instant first.
pub type Pair = (usize, usize);

/// An accepted node with a count of instants and inputs, as many as may be.
pub struct Told<'a> {
    node: &'a NodeFile,
    instants: usize,
    /// The refusal of the history itself, 31 or 33.
    refusal: Option<Refusal>,
    /// The value of each stream at each instant, of a history of at most 16
    /// instants that is not refused.
    rows: Vec<Vec<Whole>>,
}

impl<'a> Told<'a> {
    pub fn new(node: &'a NodeFile, instants: usize, inputs: &[i64]) -> Self {
        let refusal = refusal(node, instants, inputs);
        let rows = match refusal {
            None if instants <= 16 => rows(node, instants, inputs),
            _ => Vec::new(),
        };
        Told {
            node,
            instants,
            refusal,
            rows,
        }
    }

    /// The answer to one question.
    pub fn answer(&self, stream: usize, instant: usize) -> Result<i64, Refusal> {
        if let Some(refusal) = self.refusal {
            return Err(refusal);
        }
        if self.instants > 16 || stream >= self.node.records.len() || instant >= self.instants {
            return Err(Refusal::file(65));
        }
        if self.visited(stream, instant).iter().any(|p| !self.fits(*p)) {
            return Err(Refusal::new(34, Place::Record(stream)));
        }
        Ok(self.rows[instant][stream].narrow().unwrap())
    }

    /// What is visited from a stream at an instant, itself too.
    pub fn visited(&self, stream: usize, instant: usize) -> BTreeSet<Pair> {
        let mut found = BTreeSet::new();
        let mut left = vec![(instant, stream)];
        while let Some(pair) = left.pop() {
            if found.insert(pair) {
                left.extend(self.followed(pair));
            }
        }
        found
    }

    /// Whether the value at the pair is one of −2^63 to 2^63 − 1.
    pub fn fits(&self, (instant, stream): Pair) -> bool {
        self.rows[instant][stream].narrow().is_some()
    }

    /// The operator of a stream.
    pub fn operator(&self, stream: usize) -> u8 {
        self.node.records[stream].operator
    }

    /// Every stream at every instant that is told.
    pub fn pairs(&self) -> impl Iterator<Item = Pair> + '_ {
        let streams = self.node.records.len();
        (0..self.rows.len()).flat_map(move |instant| (0..streams).map(move |i| (instant, i)))
    }

    /// 02: "It visits the condition and taken branch of an “if”, the operand
    /// chosen by 12 and 13, and all operands of others."
    fn followed(&self, (instant, stream): Pair) -> Vec<Pair> {
        let record = self.node.records[stream];
        let now = |operand: u16| (instant, usize::from(operand));
        let is_true = |operand: u16| self.rows[instant][usize::from(operand)] == Whole::from(1);
        match record.operator {
            11 if is_true(record.c) => vec![now(record.c), now(record.a)],
            11 => vec![now(record.c), now(record.b)],
            12 | 13 if instant == 0 => vec![now(record.a)],
            12 => vec![now(record.b)],
            13 => vec![(instant - 1, usize::from(record.b))],
            _ => record.operands().into_iter().map(now).collect(),
        }
    }
}

/// The records of the inputs.
fn inputs_of(node: &NodeFile) -> Vec<usize> {
    let all = 0..node.records.len();
    all.filter(|i| node.records[*i].operator == 0).collect()
}

/// 31, or 33 of the earliest instant: inputs stand in turn, so it is that of
/// the first number which is no bool.
fn refusal(node: &NodeFile, instants: usize, inputs: &[i64]) -> Option<Refusal> {
    let streams = inputs_of(node);
    let wide = |number: usize| u128::try_from(number).unwrap();
    if wide(instants) * wide(streams.len()) != wide(inputs.len()) {
        return Some(Refusal::file(31));
    }
    let mut named = streams.into_iter().cycle().zip(inputs);
    let is_bool = |stream: usize| node.records[stream].type_byte == BOOL;
    let odd = named.find(|(stream, value)| is_bool(*stream) && !(0..=1).contains(*value));
    odd.map(|(stream, _)| Refusal::new(33, Place::Record(stream)))
}

/// The values of all streams at each instant.
fn rows(node: &NodeFile, instants: usize, inputs: &[i64]) -> Vec<Vec<Whole>> {
    let mut rows: Vec<Vec<Whole>> = Vec::new();
    let count = inputs_of(node).len();
    for instant in 0..instants {
        let now = &inputs[count * instant..count * (instant + 1)];
        let next = row(node, now, rows.last());
        rows.push(next);
    }
    rows
}

/// The values at one instant: again and again each that can be told from those
/// that are, until all are.
fn row(node: &NodeFile, inputs: &[i64], before: Option<&Vec<Whole>>) -> Vec<Whole> {
    let mut told: Vec<Option<Whole>> = vec![None; node.records.len()];
    for (stream, input) in inputs_of(node).into_iter().zip(inputs) {
        told[stream] = Some(Whole::from(*input));
    }
    while told.iter().any(Option::is_none) {
        for (i, record) in node.records.iter().enumerate() {
            if told[i].is_none() {
                told[i] = value(record, &told, before);
            }
        }
    }
    told.into_iter().map(Option::unwrap).collect()
}

/// The value in the operator's row of a record that is no input, where its
/// operands needed now are told.
fn value(record: &Record, now: &[Option<Whole>], before: Option<&Vec<Whole>>) -> Option<Whole> {
    let of = |operand: u16| now[usize::from(operand)].clone();
    let bit = |is_true: bool| Whole::from(i64::from(is_true));
    let is_true = |operand: u16| of(operand).map(|value| value == Whole::from(1));
    let (a, b, c) = (record.a, record.b, record.c);
    Some(match record.operator {
        1 => Whole::from(i64::from(record.k)),
        2 => bit(!is_true(a)?),
        3 => bit(is_true(a)? & is_true(b)?),
        4 => bit(is_true(a)? | is_true(b)?),
        5 | 10 => bit(of(a)? == of(b)?),
        6 => of(a)?.sum(&of(b)?),
        7 => of(a)?.difference(&of(b)?),
        8 => of(a)?.times(record.k),
        9 => bit(of(a)?.is_at_most(&of(b)?)),
        11 => [of(b)?, of(a)?][usize::from(is_true(c)?)].clone(),
        12 => [of(a)?, of(b)?][usize::from(before.is_some())].clone(),
        13 => before.map_or(of(a)?, |row| row[usize::from(b)].clone()),
        14 => [of(a)?, of(b)?][usize::from(!of(a)?.is_at_most(&of(b)?))].clone(),
        15 => [of(b)?, of(a)?][usize::from(!of(a)?.is_at_most(&of(b)?))].clone(),
        _ => return None,
    })
}
