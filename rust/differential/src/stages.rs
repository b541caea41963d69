//! Counts of the turns that were met.

use crate::checker::{Stage, Turned};
use std::collections::BTreeMap;
use std::fmt;

/// How often each answer was met.
#[derive(Clone, Debug, Default)]
pub struct Stages {
    /// Turns that were unfinished.
    pub unfinished: u64,
    /// Turns that were accepted.
    pub accepted: u64,
    /// Turns that were refused, by number.
    pub refused: BTreeMap<u8, u64>,
    /// Turns that took a record past line 0 and were not unfinished.
    pub late: u64,
    /// Turns of quota 0, of quota 1, and of more than all lines of any file.
    pub quotas: [u64; 3],
    /// Lines checked.
    pub lines: u64,
    /// All turns.
    pub total: u64,
}

/// More lines than any file has.
const ALL: usize = 818;

impl Stages {
    /// Counts a turn that took a record of this line number.
    pub fn count(&mut self, line: usize, quota: usize, turned: Turned) {
        match turned.answer {
            Stage::Unfinished => self.unfinished += 1,
            Stage::Accepted(_) => self.accepted += 1,
            Stage::Refused(refusal) => *self.refused.entry(refusal.number).or_default() += 1,
        }
        self.late += u64::from(line > 0 && turned.answer != Stage::Unfinished);
        let is_own = [quota == 0, quota == 1, quota > ALL];
        for (count, is_own) in self.quotas.iter_mut().zip(is_own) {
            *count += u64::from(is_own);
        }
        self.lines += turned.checked as u64;
        self.total += 1;
    }

    /// How many turns were refused with this number.
    pub fn of(&self, number: u8) -> u64 {
        self.refused.get(&number).copied().unwrap_or(0)
    }

    /// How many turns were refused at a line.
    pub fn at_lines(&self) -> u64 {
        [16, 17, 18, 19, 20, 22]
            .map(|number| self.of(number))
            .iter()
            .sum()
    }
}

impl fmt::Display for Stages {
    fn fmt(&self, f: &mut fmt::Formatter<'_>) -> fmt::Result {
        let [zero, one, all] = self.quotas;
        write!(f, "{} turns, {} unfinished", self.total, self.unfinished)?;
        write!(
            f,
            ", {} accepted, refused {:?}",
            self.accepted, self.refused
        )?;
        write!(f, "; {} final past line 0", self.late)?;
        write!(f, "; quota 0 {zero}, 1 {one}, over all {all}")?;
        write!(f, "; {} lines checked", self.lines)
    }
}
