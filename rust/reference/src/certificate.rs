//! The certificate checker: refusals 11 to 22, after 1 to 8 and 23 on the
//! node file, in one call or in turns.

pub mod constraint;
pub mod equation;
mod files;
mod layout;
mod line;
pub mod literal;
mod multiple;
pub mod turns;

use crate::answer::{Place, Verdict};
use files::Files;
use layout::Layout;

/// Length of a constraint and of a line.
pub const BLOCK: usize = 80;
/// 01: "depth k (1 to 8)".
pub const MAX_DEPTH: u8 = 8;

/// The two parts of a certificate, the base and the step.
#[derive(Clone, Copy, Debug, PartialEq, Eq)]
pub enum Part {
    /// From instant 0: offsets are instants.
    Base,
    /// From any instant after the first: 02's "window that never starts at
    /// instant 0".
    Step,
}

impl Part {
    /// The part as a place.
    fn place(self) -> Place {
        match self {
            Part::Base => Place::Base,
            Part::Step => Place::Step,
        }
    }
}

/// Answers a node file and a certificate file.
///
/// 01: "Checks run down the table, each over all its records first; lines are
/// taken one at a time, 16 before its kind's number. Certificate checks
/// follow 1 to 8. The first failure is given." They follow 23 too.
///
/// It is one turn from a begun record with a quota of all lines.
pub fn check(node_file: &[u8], certificate_file: &[u8]) -> Verdict {
    let files = Files::read(node_file, certificate_file)?;
    files.check_lines(0..files.line_count())?;
    files.conclude()
}

/// 01: "note (handed back likewise, empty on 11 to 14)": it depends on the
/// certificate file alone.
pub fn note(certificate_file: &[u8]) -> &[u8] {
    Layout::read(certificate_file).map_or(&[], |layout| layout.note)
}
