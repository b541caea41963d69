//! The same node with its records in another order, and its certificate for
//! that: streams have other numbers and keep their meaning.

use super::random::Random;
use super::{CertificateFile, Constraint, Line, NodeFile, Record};

impl Record {
    /// The operands that the operator reads, a first.
    pub fn operands(&self) -> Vec<u16> {
        let count = match self.operator {
            2 | 8 => 1,
            3..=7 | 9 | 10 | 12..=15 => 2,
            11 => 3,
            _ => 0,
        };
        [self.a, self.b, self.c][..count].to_vec()
    }

    /// 01: "All are needed now, except b of operator 13."
    pub fn needed_now(&self) -> Vec<u16> {
        let mut operands = self.operands();
        if self.operator == 13 {
            operands.truncate(1);
        }
        operands
    }

    /// The record with these operands, a first, in place of its own.
    pub fn with_operands(mut self, operands: &[u16]) -> Self {
        let fields = [&mut self.a, &mut self.b, &mut self.c];
        for (field, operand) in fields.into_iter().zip(operands) {
            *field = *operand;
        }
        self
    }
}

/// Another number for each stream of a node.
#[derive(Clone, Debug, PartialEq, Eq)]
pub struct Renumbering {
    /// The streams, by their old numbers, in their new order.
    order: Vec<u16>,
    /// The new number of each.
    numbers: Vec<u16>,
}

impl Renumbering {
    /// The streams in this order, which has each once.
    pub fn new(order: Vec<u16>) -> Self {
        let mut numbers = vec![0; order.len()];
        for (number, stream) in (0..).zip(&order) {
            numbers[usize::from(*stream)] = number;
        }
        Renumbering { order, numbers }
    }

    /// The last stream first.
    pub fn reversed(count: u16) -> Self {
        Renumbering::new((0..count).rev().collect())
    }

    /// This stream first, the others as they were.
    pub fn first(stream: u16, count: u16) -> Self {
        let others = (0..count).filter(|other| *other != stream);
        Renumbering::new([stream].into_iter().chain(others).collect())
    }

    /// Any order.
    pub fn random(random: &mut Random, count: u16) -> Self {
        let mut order: Vec<u16> = (0..count).collect();
        for i in (1..order.len()).rev() {
            order.swap(i, random.below(i + 1));
        }
        Renumbering::new(order)
    }

    /// A stream's new number; what is no stream stays.
    pub fn of(&self, stream: u16) -> u16 {
        let number = self.numbers.get(usize::from(stream));
        number.copied().unwrap_or(stream)
    }

    /// The node with its records in the new order.
    pub fn node(&self, node: &NodeFile) -> NodeFile {
        let old = self.order.iter().map(|i| &node.records[usize::from(*i)]);
        NodeFile {
            note: node.note.clone(),
            records: old.map(|record| self.record(record)).collect(),
            property: self.of(node.property),
        }
    }

    /// The record with its operands' new numbers.
    fn record(&self, record: &Record) -> Record {
        let operands = record.operands().into_iter().map(|stream| self.of(stream));
        record.with_operands(&operands.collect::<Vec<_>>())
    }

    /// The certificate for the node in the new order: it says the same of the
    /// same streams.
    pub fn certificate(&self, certificate: &CertificateFile) -> CertificateFile {
        let lines = |part: &[Line]| part.iter().map(|line| self.line(line)).collect();
        let constraints = certificate.constraints.iter();
        CertificateFile {
            note: certificate.note.clone(),
            depth: certificate.depth,
            constraints: constraints.map(|c| self.constraint(c)).collect(),
            base: lines(&certificate.base),
            step: lines(&certificate.step),
        }
    }

    /// The constraint, its terms rising again "by offset and then stream".
    fn constraint(&self, constraint: &Constraint) -> Constraint {
        let mut constraint = *constraint;
        let used = usize::from(constraint.count).min(constraint.terms.len());
        for term in &mut constraint.terms[..used] {
            term.stream = self.of(term.stream);
        }
        constraint.terms[..used].sort_by_key(|term| (term.offset, term.stream));
        constraint
    }

    /// The line; an equation names its stream, a join the literal it strikes.
    fn line(&self, line: &Line) -> Line {
        let mut line = *line;
        match line.kind {
            1 => line.p = self.of(line.p),
            3 => line.r = self.literal(line.r),
            _ => {}
        }
        let used = usize::from(line.count).min(line.literals.len());
        for literal in &mut line.literals[..used] {
            *literal = self.literal(*literal);
        }
        line
    }

    /// The literal on the same stream at the same offset, or on the same
    /// constraint, in the same sign.
    fn literal(&self, literal: u16) -> u16 {
        match literal / 2 {
            atom @ 0..576 => 2 * (atom - atom % 64 + self.of(atom % 64)) + literal % 2,
            _ => literal,
        }
    }

    /// The inputs of one instant, which are given in record order, in the new
    /// record order.
    pub fn inputs(&self, node: &NodeFile, inputs: &[i64]) -> Vec<i64> {
        let numbered = (0..).zip(&node.records);
        let streams = numbered.filter(|(_, record)| record.operator == 0);
        let mut inputs: Vec<(u16, i64)> = streams
            .zip(inputs)
            .map(|((stream, _), input)| (self.of(stream), *input))
            .collect();
        inputs.sort_unstable();
        inputs.into_iter().map(|(_, input)| input).collect()
    }

    /// The values of one instant, one a stream, in the new order.
    pub fn values(&self, values: &[i64]) -> Vec<i64> {
        let old = self.order.iter().map(|stream| usize::from(*stream));
        old.map(|stream| values[stream]).collect()
    }
}
