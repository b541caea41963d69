//! Answers: what is accepted, or where it is refused and by which rule.

use crate::sys::Answer;
use std::error::Error;
use std::fmt;

/// Where a refusal is met.
#[derive(Clone, Copy, Debug, PartialEq, Eq, Hash)]
pub enum Place {
    /// The file as a whole; also the place of a refusal that names none.
    File,
    /// A record of the node file, by its stream number.
    Record(usize),
    /// A constraint of the certificate, counted from 0.
    Constraint(usize),
    /// A line, counted from 0 through the base and on through the step.
    Line(usize),
    /// The base part.
    Base,
    /// The step part.
    Step,
}

impl fmt::Display for Place {
    fn fmt(&self, f: &mut fmt::Formatter<'_>) -> fmt::Result {
        match self {
            Place::File => f.write_str("file"),
            Place::Record(i) => write!(f, "record {i}"),
            Place::Constraint(i) => write!(f, "constraint {i}"),
            Place::Line(i) => write!(f, "line {i}"),
            Place::Base => f.write_str("base"),
            Place::Step => f.write_str("step"),
        }
    }
}

/// A refusal: the number of the first rule that is broken, and where.
///
/// 1 to 8 and 23 are of a node file, 11 to 22 of a certificate, 30 to 34 of
/// an instant's call or a trial, 30 and 35 of a commit, 55 of a turn, 31, 33, 34
/// and 65 of a look-up, 71 and 72 of a table of ranges. A refusal prints as
/// `refused 19 line 4`.
#[derive(Clone, Copy, Debug, PartialEq, Eq, Hash)]
pub struct Refusal {
    /// The rule's number.
    pub number: usize,
    /// Where it is broken.
    pub place: Place,
}

impl fmt::Display for Refusal {
    fn fmt(&self, f: &mut fmt::Formatter<'_>) -> fmt::Result {
        write!(f, "refused {} {}", self.number, self.place)
    }
}

impl Error for Refusal {}

/// What an accepted node file's answer carries.
#[derive(Clone, Copy, Debug, PartialEq, Eq, Hash)]
pub struct Node {
    /// How many streams the node has.
    pub streams: usize,
    /// Which of them is the property.
    pub property: usize,
}

/// What an accepted certificate's answer carries, as its trailer has it.
///
/// It prints as `accepted depth 1 base 23 step 12`.
#[derive(Clone, Copy, Debug, PartialEq, Eq, Hash)]
pub struct Accepted {
    /// The depth of the induction.
    pub depth: usize,
    /// How many base lines there are.
    pub base: usize,
    /// How many step lines there are.
    pub step: usize,
}

impl fmt::Display for Accepted {
    fn fmt(&self, f: &mut fmt::Formatter<'_>) -> fmt::Result {
        let Accepted { depth, base, step } = self;
        write!(f, "accepted depth {depth} base {base} step {step}")
    }
}

/// What a turn that is not refused comes to. It prints as `unfinished`, or as
/// what is accepted.
#[derive(Clone, Copy, Debug, PartialEq, Eq, Hash)]
pub enum Stage {
    /// Lines are left.
    Unfinished,
    /// None is left, and the certificate is accepted.
    Accepted(Accepted),
}

impl fmt::Display for Stage {
    fn fmt(&self, f: &mut fmt::Formatter<'_>) -> fmt::Result {
        match self {
            Stage::Unfinished => f.write_str("unfinished"),
            Stage::Accepted(accepted) => accepted.fmt(f),
        }
    }
}

/// The number of an answer that is unfinished, `CONUHAWE_UNFINISHED`.
const UNFINISHED: usize = 256;

impl Answer {
    /// The three values of an accepted answer, or the refusal.
    fn values(self) -> Result<[usize; 3], Refusal> {
        let place = match self.place {
            0 => return Ok(self.values),
            1 => Place::File,
            2 => Place::Record(self.index),
            3 => Place::Constraint(self.index),
            4 => Place::Line(self.index),
            5 => Place::Base,
            6 => Place::Step,
            other => unreachable!("the contracts know no place {other}"),
        };
        Err(Refusal {
            number: self.number,
            place,
        })
    }

    /// An answer that carries nothing.
    pub(crate) fn done(self) -> Result<(), Refusal> {
        self.values().map(|_| ())
    }

    pub(crate) fn node(self) -> Result<Node, Refusal> {
        self.values()
            .map(|[streams, property, _]| Node { streams, property })
    }

    pub(crate) fn certificate(self) -> Result<Accepted, Refusal> {
        self.values()
            .map(|[depth, base, step]| Accepted { depth, base, step })
    }

    pub(crate) fn stage(self) -> Result<Stage, Refusal> {
        match self.number {
            UNFINISHED => Ok(Stage::Unfinished),
            _ => self.certificate().map(Stage::Accepted),
        }
    }
}
