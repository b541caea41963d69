//! A certificate with constraints multiplied through, for a node that says of
//! two numbers that one is at most the other.

use super::proof::Proof;
use super::{lit, on, opp, CertificateFile, Constraint, Line, NodeFile, Record, INT};
use std::ops::RangeInclusive;

/// 0 and 1 are int inputs u and v; 2 is u at most v, 3 is v at most u, and 4
/// is 2 or 3, the property.
pub fn node() -> NodeFile {
    let records = vec![
        Record::input(INT),
        Record::input(INT),
        Record::at_most(0, 1),
        Record::at_most(1, 0),
        Record::or(2, 3),
    ];
    NodeFile::new(records, 4)
}

/// The certificate for [`node`] in which v < u and u < v are written so many
/// times. Factors of at least 1 are right, and up to a multiplier's limit or
/// else equal.
pub fn certificate([more, less]: [i64; 2]) -> CertificateFile {
    let at = |q| {
        let [u, v] = [0, 1].map(|stream| move |coefficient| (stream, q, coefficient));
        [
            Constraint::new(&[u(-1), v(1)], -1).times(more),
            Constraint::new(&[u(1), v(-1)], -1).times(less),
        ]
    };
    let multipliers = if more == less { [1, 1] } else { [less, more] };
    let multipliers = multipliers.map(|m| u32::try_from(m).unwrap_or(u32::MAX));
    let base = part(0, 0..=1, multipliers);
    let step = part(base.len(), 1..=1, multipliers);
    CertificateFile {
        note: Vec::new(),
        depth: 1,
        constraints: [at(0), at(1)].concat(),
        base,
        step,
    }
}

/// A part: the property fails at none of these offsets.
fn part(first: usize, offsets: RangeInclusive<u16>, multipliers: [u32; 2]) -> Vec<Line> {
    let mut proof = Proof::new(first);
    let mut left = proof.fails(4, offsets.clone());
    for q in offsets {
        left = without(&mut proof, left, q, multipliers);
    }
    proof.lines
}

/// The line `fails` without its literal at q: not 2 and not 3, so that v < u
/// and u < v, which add up to a contradiction.
fn without(proof: &mut Proof, fails: u16, q: u16, multipliers: [u32; 2]) -> u16 {
    let at = |stream| lit(stream, q);
    let constraints = [2 * q, 2 * q + 1].map(on);
    let below = [(2, constraints[0]), (3, constraints[1])].map(|(stream, below)| {
        let either = proof.equation(4, q, stream - 2, &[at(4), opp(at(stream))]);
        let is_not = proof.join(either, fails, at(4));
        let or_below = proof.equation(stream, q, 1, &[at(stream), below]);
        proof.join(or_below, is_not, at(stream))
    });
    let [v_u, u_v] = [0, 1].map(|i| (opp(constraints[i]), multipliers[i]));
    let clash = proof.arithmetic(&[v_u, u_v]);
    let clash = proof.join(below[0], clash, constraints[0]);
    proof.join(below[1], clash, constraints[1])
}
