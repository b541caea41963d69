//! A part's lines as they are written one after another, and 01's example as
//! 02 has it redone.

use super::{lit, opp, CertificateFile, Line, NodeFile, Record, BOOL};
use std::ops::RangeInclusive;

/// The lines of one part.
#[derive(Clone, Debug, Default)]
pub struct Proof {
    first: usize,
    /// The lines so far.
    pub lines: Vec<Line>,
}

impl Proof {
    /// A part whose first line has the number `first`: 0 for the base, the
    /// number of base lines for the step.
    pub fn new(first: usize) -> Self {
        Proof {
            first,
            lines: Vec::new(),
        }
    }

    /// Adds a line and gives its number.
    pub fn push(&mut self, line: Line) -> u16 {
        self.lines.push(line);
        u16::try_from(self.first + self.lines.len() - 1).unwrap_or(u16::MAX)
    }

    /// Adds a line of kind 1.
    pub fn equation(&mut self, p: u16, q: u16, r: u16, literals: &[u16]) -> u16 {
        self.push(Line::equation(p, q, r, literals))
    }

    /// Adds a line of kind 2.
    pub fn property(&mut self, q: u16, literals: &[u16]) -> u16 {
        self.push(Line::property(q, literals))
    }

    /// Adds the line of kind 2 that says that the property fails at one of
    /// these offsets: 0 to k in the base, k alone in the step.
    pub fn fails(&mut self, property: u16, offsets: RangeInclusive<u16>) -> u16 {
        let q = *offsets.start();
        let literals: Vec<u16> = offsets.map(|q| opp(lit(property, q))).collect();
        self.property(q, &literals)
    }

    /// Adds a line of kind 4.
    pub fn arithmetic(&mut self, weighted: &[(u16, u32)]) -> u16 {
        self.push(Line::arithmetic(weighted))
    }

    /// Adds a line of kind 5.
    pub fn cut(&mut self, r: u16, weighted: &[(u16, u32)]) -> u16 {
        self.push(Line::cut(r, weighted))
    }

    /// Adds the join of lines p and q on literal r of p: all their other
    /// literals, each once.
    pub fn join(&mut self, p: u16, q: u16, r: u16) -> u16 {
        let literals = resolvent(self.clause(p), self.clause(q), r);
        self.push(Line::join(p, q, r, &literals))
    }

    /// The literals of a line of this part; none if there is no such line.
    pub fn clause(&self, number: u16) -> &[u16] {
        let index = usize::from(number).checked_sub(self.first);
        let line = index.and_then(|index| self.lines.get(index));
        line.map_or(&[], Line::clause)
    }
}

/// The literals of p but r and of q but its opposite, each once.
pub fn resolvent(p: &[u16], q: &[u16], r: u16) -> Vec<u16> {
    let mut literals = Vec::new();
    let kept_p = p.iter().filter(|literal| **literal != r);
    let kept_q = q.iter().filter(|literal| **literal != opp(r));
    for literal in kept_p.chain(kept_q) {
        if !literals.contains(literal) {
            literals.push(*literal);
        }
    }
    literals
}

/// 01: "Records: 0, 1 inputs; 2 not 0; 3 = 1 and 2; 4 = 0 and 3; 5 not 4, the
/// property."
pub fn two_bands_node() -> NodeFile {
    let records = vec![
        Record::input(BOOL),
        Record::input(BOOL),
        Record::not(0),
        Record::and(1, 2),
        Record::and(0, 3),
        Record::not(4),
    ];
    NodeFile::new(records, 5)
}

/// 01's eleven lines after "{!5}", at offset q: "{5, 4}, join {4}, {!4, 0},
/// join {0}, {!4, 3}, join {3}, {!3, 2}, join {2}, {!2, !0}, join {!0}, join
/// { }". Each join keeps what else stands in the line `fails`.
fn two_bands_lines(proof: &mut Proof, fails: u16, q: u16) -> u16 {
    let at = |stream| lit(stream, q);
    let not = |stream| opp(lit(stream, q));
    let line = proof.equation(5, q, 0, &[at(5), at(4)]);
    let is_4 = proof.join(line, fails, at(5));
    let line = proof.equation(4, q, 0, &[not(4), at(0)]);
    let is_0 = proof.join(is_4, line, at(4));
    let line = proof.equation(4, q, 1, &[not(4), at(3)]);
    let is_3 = proof.join(is_4, line, at(4));
    let line = proof.equation(3, q, 1, &[not(3), at(2)]);
    let is_2 = proof.join(is_3, line, at(3));
    let line = proof.equation(2, q, 1, &[not(2), not(0)]);
    let not_0 = proof.join(is_2, line, at(2));
    proof.join(is_0, not_0, at(0))
}

/// A part of the certificate: the property fails at none of these offsets.
pub fn two_bands_part(first: usize, offsets: RangeInclusive<u16>) -> Vec<Line> {
    let mut proof = Proof::new(first);
    let mut left = proof.fails(5, offsets.clone());
    for q in offsets {
        left = two_bands_lines(&mut proof, left, q);
    }
    proof.lines
}

/// 02: "The two-band certificate, redone at both base instants".
pub fn two_bands_certificate() -> CertificateFile {
    let base = two_bands_part(0, 0..=1);
    let step = two_bands_part(base.len(), 1..=1);
    CertificateFile {
        depth: 1,
        base,
        step,
        ..CertificateFile::default()
    }
}
