//! Answers: accepted, or refused with a number and a place.
//!
//! 01: "An answer is accepted (a certificate's with its depth and both line
//! counts, as the trailer has them), or refused with a number and a place".

use std::error::Error;
use std::fmt;

/// 01: "the place is the file, a record, a constraint, a line or a part".
#[derive(Clone, Copy, Debug, PartialEq, Eq)]
pub enum Place {
    /// The file as a whole; also the place of a refusal that names none.
    File,
    /// A record of the node file, by its stream number.
    Record(usize),
    /// A constraint of the certificate, counted from 0.
    Constraint(usize),
    /// A line, counted from 0 through the base and on through the step.
    Line(usize),
    /// The base part.
    Base,
    /// The step part.
    Step,
}

impl fmt::Display for Place {
    /// 01: "places are `file`, `record N`, `constraint N`, `line N`, `base`,
    /// `step`".
    fn fmt(&self, f: &mut fmt::Formatter<'_>) -> fmt::Result {
        match self {
            Place::File => f.write_str("file"),
            Place::Record(i) => write!(f, "record {i}"),
            Place::Constraint(i) => write!(f, "constraint {i}"),
            Place::Line(i) => write!(f, "line {i}"),
            Place::Base => f.write_str("base"),
            Place::Step => f.write_str("step"),
        }
    }
}

/// A refusal: the number of the first failing check, and where it failed.
#[derive(Clone, Copy, Debug, PartialEq, Eq)]
pub struct Refusal {
    /// The number in 01's table.
    pub number: u8,
    /// Where the check failed.
    pub place: Place,
}

impl Refusal {
    /// The refusal with this number at this place.
    pub const fn new(number: u8, place: Place) -> Self {
        Refusal { number, place }
    }

    /// 01: "A refusal with no place named has the file."
    pub const fn file(number: u8) -> Self {
        Refusal::new(number, Place::File)
    }
}

impl fmt::Display for Refusal {
    /// 01: "A refusal prints as `refused 19 line 4`".
    fn fmt(&self, f: &mut fmt::Formatter<'_>) -> fmt::Result {
        write!(f, "refused {} {}", self.number, self.place)
    }
}

impl Error for Refusal {}

/// An accepted certificate's depth and line counts, as its trailer has them.
#[derive(Clone, Copy, Debug, PartialEq, Eq)]
pub struct Accepted {
    /// The depth k.
    pub depth: u8,
    /// The number of base lines.
    pub base: u16,
    /// The number of step lines.
    pub step: u16,
}

impl fmt::Display for Accepted {
    /// 01: "prints verdict, depth and the trailer's line counts", as in
    /// `accepted depth 1 base 23 step 12`.
    fn fmt(&self, f: &mut fmt::Formatter<'_>) -> fmt::Result {
        let Accepted { depth, base, step } = self;
        write!(f, "accepted depth {depth} base {base} step {step}")
    }
}

/// The answer to a node file and a certificate file.
pub type Verdict = Result<Accepted, Refusal>;
