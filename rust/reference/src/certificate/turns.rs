//! A certificate checked in turns, each of some lines: refusal 55.
//!
//! 02 calls an acceptance one in the demands only where all turns had the same
//! two files and each took the record that the turn before gave, the first a
//! begun one.

use super::files::Files;
use crate::answer::{Accepted, Refusal};
use std::fmt;

/// The progress record: the line at which the next turn starts.
///
/// The field is open, so a caller may lend a record that no turn gave: that
/// the lines below it were checked is for the caller to know.
#[derive(Clone, Copy, Debug, PartialEq, Eq)]
pub struct Progress {
    /// The line, counted from 0 through the base and on through the step.
    pub line: usize,
}

/// A begun record: no line is checked.
pub const fn turns_begin() -> Progress {
    Progress { line: 0 }
}

/// A turn's answer.
#[derive(Clone, Copy, Debug, PartialEq, Eq)]
pub enum Answer {
    /// No line is left, and each part has some line without literals.
    Accepted(Accepted),
    /// The first failing check.
    Refused(Refusal),
    /// Lines are left.
    Unfinished,
}

impl fmt::Display for Answer {
    fn fmt(&self, f: &mut fmt::Formatter<'_>) -> fmt::Result {
        match self {
            Answer::Accepted(accepted) => accepted.fmt(f),
            Answer::Refused(refusal) => refusal.fmt(f),
            Answer::Unfinished => f.write_str("unfinished"),
        }
    }
}

/// What a turn gives.
#[derive(Clone, Copy, Debug, PartialEq, Eq)]
pub struct Turned {
    /// The answer.
    pub answer: Answer,
    /// The record for the next turn.
    pub progress: Progress,
    /// 02: "the number checked, which is the distance that the record's line
    /// number moved".
    pub checked: usize,
}

/// One turn. 02: "a refused turn returns its record unmoved, with 0".
pub fn turn(node_file: &[u8], certificate_file: &[u8], progress: Progress, quota: usize) -> Turned {
    match check_next(node_file, certificate_file, progress.line, quota) {
        Ok((answer, checked)) => Turned {
            answer,
            progress: Progress {
                line: progress.line + checked,
            },
            checked,
        },
        Err(refusal) => Turned {
            answer: Answer::Refused(refusal),
            progress,
            checked: 0,
        },
    }
}

/// 02: a turn "checks the next lines in order, that many or all that are left,
/// up to the first refused". Gives the answer and how many they were. They go
/// no further than the last line, so that `first` and they add up.
fn check_next(
    node_file: &[u8],
    certificate_file: &[u8],
    first: usize,
    quota: usize,
) -> Result<(Answer, usize), Refusal> {
    let files = Files::read(node_file, certificate_file)?;
    // 02: "55, progress past the last line, after 15".
    let left = files.line_count().checked_sub(first);
    let left = left.ok_or(Refusal::file(55))?;
    let checked = quota.min(left);
    files.check_lines(first..first + checked)?;
    if checked < left {
        return Ok((Answer::Unfinished, checked));
    }
    // 21 looks at all lines of both parts, those of earlier turns too.
    Ok((Answer::Accepted(files.conclude()?), checked))
}
