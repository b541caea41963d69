//! The blocks of a file, decoded field by field, right or wrong.
//!
//! The fields are those of the writers in [`crate::build`]: what is decoded
//! here and written there are the same bytes.

use crate::build::{Constraint, Line, Record, Term};

/// The last blocks in front of a trailer that counts some.
#[derive(Clone, Copy, Debug)]
pub struct Blocks<'a, const N: usize> {
    /// How many of those counted the file lacks, the first ones.
    pub missing: usize,
    /// The others.
    pub there: &'a [[u8; N]],
    /// The number of bytes before them.
    before: usize,
}

impl<'a, const N: usize> Blocks<'a, N> {
    /// The last `total` blocks of a file's bytes before its trailer.
    pub fn last(front: &'a [u8], total: usize) -> Self {
        let (_, blocks) = front.as_rchunks();
        let there = &blocks[blocks.len().saturating_sub(total)..];
        Blocks {
            missing: total - there.len(),
            there,
            before: front.len() - there.as_flattened().len(),
        }
    }

    /// The length of the note; where blocks are missing there is none.
    pub fn note(&self) -> usize {
        if self.missing == 0 {
            self.before
        } else {
            0
        }
    }

    /// What the file lacks, if anything.
    pub fn lack(&self) -> Option<String> {
        let Blocks {
            missing, before, ..
        } = self;
        let total = missing + self.there.len();
        (*missing > 0).then(|| {
            format!("missing: the first {missing} of {total} blocks, but for {before} bytes")
        })
    }
}

/// A record from its bytes.
pub fn record(block: &[u8; 16]) -> Record {
    let [operator, type_byte, a0, a1, b0, b1, c0, c1, k0, k1, k2, k3, zeros @ ..] = *block;
    Record {
        operator,
        type_byte,
        a: u16::from_le_bytes([a0, a1]),
        b: u16::from_le_bytes([b0, b1]),
        c: u16::from_le_bytes([c0, c1]),
        k: i32::from_le_bytes([k0, k1, k2, k3]),
        zeros,
    }
}

/// A term of a constraint from its bytes.
fn term(bytes: &[u8; 8]) -> Term {
    let [s0, s1, offset, zero, coefficient @ ..] = *bytes;
    Term {
        stream: u16::from_le_bytes([s0, s1]),
        offset,
        zero,
        coefficient: i32::from_le_bytes(coefficient),
    }
}

/// A constraint from its bytes.
pub fn constraint(block: &[u8; 80]) -> Constraint {
    let [count, z1, z2, z3, z4, z5, z6, z7, b0, b1, b2, b3, b4, b5, b6, b7, terms @ ..] = block;
    let mut constraint = Constraint {
        count: *count,
        zeros: [*z1, *z2, *z3, *z4, *z5, *z6, *z7],
        bound: i64::from_le_bytes([*b0, *b1, *b2, *b3, *b4, *b5, *b6, *b7]),
        ..Constraint::default()
    };
    for (slot, bytes) in constraint.terms.iter_mut().zip(terms.as_chunks().0) {
        *slot = term(bytes);
    }
    constraint
}

/// A line from its bytes.
pub fn line(block: &[u8; 80]) -> Line {
    let [kind, count, p0, p1, q0, q1, r0, r1, rest @ ..] = block;
    let mut line = Line {
        kind: *kind,
        count: *count,
        p: u16::from_le_bytes([*p0, *p1]),
        q: u16::from_le_bytes([*q0, *q1]),
        r: u16::from_le_bytes([*r0, *r1]),
        ..Line::default()
    };
    let (literals, multipliers) = rest.split_at(2 * line.literals.len());
    for (slot, bytes) in line.literals.iter_mut().zip(literals.as_chunks().0) {
        *slot = u16::from_le_bytes(*bytes);
    }
    for (slot, bytes) in line.multipliers.iter_mut().zip(multipliers.as_chunks().0) {
        *slot = u32::from_le_bytes(*bytes);
    }
    line
}
