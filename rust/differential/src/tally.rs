//! Counts of what was met.

use crate::checker::{Accepted, Place, Refusal, Verdict};
use crate::damage::lines;
use crate::factors::multiplied;
use crate::nodes::records;
use crate::reorder::is_reordered;
use crate::rests;
use reference::build::Record;
use std::collections::BTreeMap;
use std::fmt;

/// How often each number, each depth of an accepted certificate and each kind
/// of line was met.
#[derive(Clone, Debug, Default)]
pub struct Tally {
    /// Refusals by number; what is accepted as 0.
    pub numbers: BTreeMap<u8, u64>,
    /// Accepted certificates by depth.
    pub depths: BTreeMap<u8, u64>,
    /// Lines that passed, of accepted and refused certificates, by kind.
    pub kinds: BTreeMap<u8, u64>,
    /// Equation lines that passed, by the operator of their stream.
    pub operators: BTreeMap<u8, u64>,
    /// Equation lines of operator 12 at step offset 0 in accepted certificates.
    pub arrows: u64,
    /// Accepted certificates whose step rests on such a line, by depth.
    pub rests: BTreeMap<u8, u64>,
    /// Equation lines at base offset k in accepted certificates.
    pub ends: u64,
    /// Accepted certificates with an equation line whose constraint is
    /// multiplied through, by a factor of at least 2.
    pub multiplied: u64,
    /// Accepted certificates where an operand needed now is not lower than its
    /// record.
    pub reordered: u64,
    /// The most lines of an accepted certificate.
    pub longest: u64,
    /// The highest line refused.
    pub deepest: usize,
    /// All together.
    pub total: u64,
}

impl Tally {
    /// Counts a verdict on a node and a certificate.
    pub fn verdict(&mut self, verdict: Verdict, node: &[u8], certificate: &[u8]) {
        self.passed(verdict, node, certificate);
        if let Ok(accepted) = verdict {
            self.accepted(accepted, node, certificate);
        }
        if let Err(Refusal {
            place: Place::Line(line),
            ..
        }) = verdict
        {
            self.deepest = self.deepest.max(line);
        }
        self.answer(verdict.map(|_| ()));
    }

    /// Counts what an accepted certificate has.
    fn accepted(&mut self, accepted: Accepted, node: &[u8], certificate: &[u8]) {
        let (depth, records) = (accepted.depth, records(node));
        self.reordered += u64::from(is_reordered(&records));
        *self.depths.entry(depth).or_default() += 1;
        let lines = u64::from(accepted.base) + u64::from(accepted.step);
        self.longest = self.longest.max(lines);
        self.multiplied += u64::from(multiplied(certificate).next().is_some());
        self.windows(depth, &records, certificate);
    }

    /// Counts lines at the ends of the parts' windows.
    fn windows(&mut self, depth: u8, records: &[Record], certificate: &[u8]) {
        let step = rests::equations(certificate, true);
        let arrows = step.filter(|line| rests::is_first_arrow(records, line));
        self.arrows += arrows.count() as u64;
        let base = rests::equations(certificate, false);
        self.ends += base.filter(|line| line.q == depth.into()).count() as u64;
        let rests = rests::on_first_arrow(records, certificate);
        *self.rests.entry(depth).or_default() += u64::from(rests);
    }

    /// Counts the lines before the one that is refused.
    fn passed(&mut self, verdict: Verdict, node: &[u8], certificate: &[u8]) {
        let count = match verdict.map_err(|refusal| refusal.place) {
            Ok(_) | Err(Place::Base | Place::Step) => usize::MAX,
            Err(Place::Line(line)) => line,
            Err(_) => return,
        };
        let records = records(node);
        for (_, line) in lines(certificate).take(count) {
            *self.kinds.entry(line[0]).or_default() += 1;
            if line[0] == 1 {
                let operator = records[usize::from(line[2])].operator;
                *self.operators.entry(operator).or_default() += 1;
            }
        }
    }

    /// Counts an answer.
    pub fn answer(&mut self, answer: Result<(), Refusal>) {
        let number = answer.map_or_else(|refusal| refusal.number, |()| 0);
        *self.numbers.entry(number).or_default() += 1;
        self.total += 1;
    }

    /// How often a number was met, 0 being accepted.
    pub fn of(&self, number: u8) -> u64 {
        self.numbers.get(&number).copied().unwrap_or(0)
    }

    /// How many lines of this kind passed.
    pub fn of_kind(&self, kind: u8) -> u64 {
        self.kinds.get(&kind).copied().unwrap_or(0)
    }

    /// How many equation lines of this operator passed.
    pub fn of_operator(&self, operator: u8) -> u64 {
        self.operators.get(&operator).copied().unwrap_or(0)
    }

    /// How many accepted certificates had this depth.
    pub fn of_depth(&self, depth: u8) -> u64 {
        self.depths.get(&depth).copied().unwrap_or(0)
    }

    /// How many of these had a step that rests on operator 12 at offset 0.
    pub fn rests_of_depth(&self, depth: u8) -> u64 {
        self.rests.get(&depth).copied().unwrap_or(0)
    }
}

impl fmt::Display for Tally {
    fn fmt(&self, f: &mut fmt::Formatter<'_>) -> fmt::Result {
        let reordered = self.reordered;
        write!(f, "{} in all, {} without refusal", self.total, self.of(0))?;
        write!(f, " ({reordered} of them reordered)")?;
        let refused = self.numbers.iter().filter(|(number, _)| **number > 0);
        for (number, count) in refused {
            write!(f, ", {number}: {count}")?;
        }
        if !self.depths.is_empty() {
            let (longest, deepest) = (self.longest, self.deepest);
            write!(f, "; accepted by depth {:?}", self.depths)?;
            write!(f, ", {} with a factor", self.multiplied)?;
            write!(f, ", {} lines of 12 at step offset 0", self.arrows)?;
            write!(f, ", resting on one by depth {:?}", self.rests)?;
            write!(f, ", {} equations at base offset k", self.ends)?;
            write!(f, ", lines passed by kind {:?}", self.kinds)?;
            write!(f, ", equations by operator {:?}", self.operators)?;
            write!(
                f,
                ", longest {longest} lines, deepest refused line {deepest}"
            )?;
        }
        Ok(())
    }
}
