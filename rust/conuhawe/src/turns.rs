//! A certificate checked in turns, some lines in each.

use crate::sys;
use crate::{Refusal, Stage};

/// A progress record: how far a certificate is checked, as the number of the
/// next line, counted through the base and on through the step.
///
/// It may be stored, as its [`line`](Progress::line), and lent again.
#[derive(Clone, Copy, Debug, PartialEq, Eq, PartialOrd, Ord, Hash)]
pub struct Progress {
    line: usize,
}

impl Progress {
    /// The record of this line number. Any number is taken; one that no turn
    /// gave is safe, but then an acceptance proves nothing.
    pub const fn at(line: usize) -> Progress {
        Progress { line }
    }

    /// Its line number.
    pub const fn line(self) -> usize {
        self.line
    }
}

/// What a turn gives.
#[derive(Clone, Copy, Debug, PartialEq, Eq)]
pub struct Turned {
    /// Unfinished, accepted, or refused.
    pub answer: Result<Stage, Refusal>,
    /// The record for the next turn: moved on by the lines checked, and as it
    /// was given where the turn is refused.
    pub progress: Progress,
    /// How many lines this turn has moved past; 0 where it is refused.
    pub checked: usize,
}

/// The record that the first turn takes.
pub fn turns_begin() -> Progress {
    // SAFETY: the call is given nothing.
    let sys::Progress { line } = unsafe { sys::conuhawe_turns_begin() };
    Progress { line }
}

/// Checks the next lines of a certificate for a node file: as many as the quota
/// says, or all that are left where these are fewer; 0 checks no line.
///
/// Each turn begins with the checks before lines, of this turn's files, and
/// knows nothing of what other turns were given. Only where each turn has the
/// same two files, the first one the record of [`turns_begin`] and each other
/// one the record that the turn before gave, is an acceptance that of
/// [`check`](crate::check), so that the node's property holds at every instant;
/// then the lines checked in all turns add up to those of both parts.
/// [`Turns`] keeps all this by itself.
///
/// The answer is a refusal by the first rule that is broken: of 1 to 8 and 23
/// for the node, of 11 to 15, 55 where the record is past the last line, of 16
/// to 20 and 22 for a line, and 21 where no line is left.
pub fn turn(node: &[u8], certificate: &[u8], progress: Progress, quota: usize) -> Turned {
    let Progress { line } = progress;
    // SAFETY: each slice is lent as its pointer, which is not null, and its
    // length; the call reads that many elements and keeps none.
    let turned = unsafe {
        sys::conuhawe_turn(
            node.as_ptr(),
            node.len(),
            certificate.as_ptr(),
            certificate.len(),
            sys::Progress { line },
            quota,
        )
    };
    Turned {
        answer: turned.answer.stage(),
        progress: Progress::at(turned.progress.line),
        checked: turned.checked,
    }
}

/// Turns on a node file and a certificate that are borrowed until the last one,
/// with the record kept here: so each turn has the same two files and the record
/// that the turn before gave, and an acceptance is that of
/// [`check`](crate::check). A file cannot change between two turns:
///
/// ```compile_fail,E0502
/// let (node, mut certificate) = (vec![0; 16], vec![0; 16]);
/// let mut turns = conuhawe::Turns::begin(&node, &certificate);
/// turns.turn(1);
/// certificate.push(0);
/// turns.turn(1);
/// ```
#[derive(Clone, Debug)]
pub struct Turns<'a> {
    node: &'a [u8],
    certificate: &'a [u8],
    progress: Progress,
}

impl<'a> Turns<'a> {
    /// Turns before the first line. Nothing is checked yet.
    pub fn begin(node: &'a [u8], certificate: &'a [u8]) -> Turns<'a> {
        Turns {
            node,
            certificate,
            progress: turns_begin(),
        }
    }

    /// The next turn, as [`turn`] has it. Every answer that is not unfinished is
    /// that of [`check`](crate::check), and a turn after it may be taken: after
    /// an acceptance it is accepted again with no line checked, and after a
    /// refusal it starts at the same line.
    pub fn turn(&mut self, quota: usize) -> Turned {
        let turned = turn(self.node, self.certificate, self.progress, quota);
        self.progress = turned.progress;
        turned
    }

    /// The record that the next turn takes.
    pub fn progress(&self) -> Progress {
        self.progress
    }
}
