//! Literals and the atoms they name.

use std::fmt;
use std::ops::Not;

/// Atoms of one offset stand side by side, one for each of 64 streams.
const STREAMS: u16 = 64;
/// 01: "576 + i for constraint i"; 576 is past offset 8 of stream 63.
const FIRST_CONSTRAINT: u16 = 576;

/// The number 64·offset + stream: of the atom of a bool stream, and of the
/// variable of an int stream. It rises "by offset and then stream".
pub fn at(stream: u8, offset: u8) -> u16 {
    STREAMS * u16::from(offset) + u16::from(stream)
}

/// 01: "A literal is 2·atom, plus 1 if negated."
#[derive(Clone, Copy, Debug, PartialEq, Eq)]
pub struct Literal(u16);

/// What an atom's number names, whether or not the certificate has it.
#[derive(Clone, Copy, Debug, PartialEq, Eq)]
pub enum Atom {
    /// A bool stream at an offset.
    Stream {
        /// The stream.
        stream: u16,
        /// The offset.
        offset: u16,
    },
    /// A constraint of the certificate.
    Constraint(usize),
}

impl Literal {
    /// The literal written as `number` in a line.
    pub const fn from_number(number: u16) -> Self {
        Literal(number)
    }

    /// The literal of a bool stream at an offset, not negated.
    pub fn stream(stream: u8, offset: u8) -> Self {
        Literal(2 * at(stream, offset))
    }

    /// The number written in a line.
    pub const fn number(self) -> u16 {
        self.0
    }

    /// Whether the literal is the negation of its atom.
    pub const fn is_negated(self) -> bool {
        self.0 & 1 == 1
    }

    /// 01: "A literal's opposite is the same atom with the other sign."
    pub const fn opposite(self) -> Self {
        Literal(self.0 ^ 1)
    }

    /// 01: "Atoms: 64·offset + stream for a bool stream at offsets 0 to k;
    /// 576 + i for constraint i."
    pub fn atom(self) -> Atom {
        let number = self.0 >> 1;
        match number.checked_sub(FIRST_CONSTRAINT) {
            Some(i) => Atom::Constraint(usize::from(i)),
            None => Atom::Stream {
                stream: number % STREAMS,
                offset: number / STREAMS,
            },
        }
    }
}

impl Not for Literal {
    type Output = Literal;

    /// The opposite, written as 01 writes it.
    fn not(self) -> Literal {
        self.opposite()
    }
}

impl fmt::Display for Atom {
    /// A stream and its offset, `5@1`, or a constraint, `c3`.
    fn fmt(&self, f: &mut fmt::Formatter<'_>) -> fmt::Result {
        match self {
            Atom::Stream { stream, offset } => write!(f, "{stream}@{offset}"),
            Atom::Constraint(i) => write!(f, "c{i}"),
        }
    }
}

impl fmt::Display for Literal {
    /// The atom, after 01's "!" if the literal is negated.
    fn fmt(&self, f: &mut fmt::Formatter<'_>) -> fmt::Result {
        let sign = if self.is_negated() { "!" } else { "" };
        write!(f, "{sign}{}", self.atom())
    }
}
