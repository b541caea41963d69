//! Certificates by cuts, for nodes that say of a number that it is no
//! multiple of another: "twice a number is never odd" is that of 2.

use super::proof::Proof;
use super::{lit, on, opp, CertificateFile, Constraint, Line, NodeFile, Record, INT};
use std::ops::RangeInclusive;

/// 0 is an int input; 1 is m times 0; 2 is k; 3 is 1 equal to 2; 4 is not 3,
/// the property, which holds unless m divides k.
pub fn node(m: u16, k: i32) -> NodeFile {
    let records = vec![
        Record::input(INT),
        Record::multiple(i32::from(m), 0),
        Record::constant(INT, k),
        Record::equal(1, 2),
        Record::not(3),
    ];
    NodeFile::new(records, 4)
}

/// The certificate for [`node`] whose cuts say "0 at most `bounds[0]`" and
/// "minus 0 at most `bounds[1]`". It is right if these are k and −k divided
/// by m, rounded toward minus infinity, and m does not divide k.
pub fn certificate(m: u16, k: i32, depth: u8, bounds: [i64; 2]) -> CertificateFile {
    let last = u16::from(depth);
    let base = part(m, 0, 0..=last);
    let step = part(m, base.len(), last..=last);
    let at = |offset| constraints(m, k, offset, bounds);
    CertificateFile {
        note: Vec::new(),
        depth,
        constraints: (0..=depth).flat_map(at).collect(),
        base,
        step,
    }
}

/// The right bounds of the cuts.
pub fn bounds(m: u16, k: i32) -> [i64; 2] {
    let (m, k) = (i64::from(m), i64::from(k));
    [k, -k].map(|bound| bound.div_euclid(m))
}

/// The constraints at an offset: two each of streams 1, 2 and 3, and of the
/// cuts.
fn constraints(m: u16, k: i32, offset: u8, [upper, lower]: [i64; 2]) -> [Constraint; 8] {
    let m = i32::from(m);
    let at = |stream, coefficient| (stream, offset, coefficient);
    [
        Constraint::new(&[at(0, -m), at(1, 1)], 0),
        Constraint::new(&[at(0, m), at(1, -1)], 0),
        Constraint::new(&[at(2, 1)], k.into()),
        Constraint::new(&[at(2, -1)], -i64::from(k)),
        Constraint::new(&[at(1, 1), at(2, -1)], 0),
        Constraint::new(&[at(1, -1), at(2, 1)], 0),
        Constraint::new(&[at(0, 1)], upper),
        Constraint::new(&[at(0, -1)], lower),
    ]
}

/// A part: the property fails at none of these offsets.
fn part(m: u16, first: usize, offsets: RangeInclusive<u16>) -> Vec<Line> {
    let mut proof = Proof::new(first);
    let mut left = proof.fails(4, offsets.clone());
    for q in offsets {
        let either = proof.equation(4, q, 0, &[lit(4, q), lit(3, q)]);
        left = proof.join(either, left, lit(4, q));
        let differ = differ(&mut proof, m, q);
        left = proof.join(left, differ, lit(3, q));
    }
    proof.lines
}

/// The line {!3} at an offset: the cuts' constraints clash, and the six that
/// they are cut from are of equations.
fn differ(proof: &mut Proof, m: u16, q: u16) -> u16 {
    let [times_most, times_least, k_most, k_least, most, least, upper, lower] =
        [0, 1, 2, 3, 4, 5, 6, 7].map(|i| on(8 * q + i));
    let cut = |proof: &mut Proof, from: [u16; 3], to| {
        let [a, b, c] = from.map(|constraint| (opp(constraint), 1));
        proof.cut(m, &[a, b, c, (to, 0)])
    };
    let over = cut(proof, [times_least, most, k_most], upper);
    let under = cut(proof, [times_most, least, k_least], lower);
    let mut line = proof.arithmetic(&[(opp(upper), 1), (opp(lower), 1)]);
    line = proof.join(over, line, upper);
    line = proof.join(under, line, lower);
    let not_3 = opp(lit(3, q));
    for (p, r, literals) in [
        (1, 0, &[times_most][..]),
        (1, 1, &[times_least]),
        (2, 0, &[k_most]),
        (2, 1, &[k_least]),
        (3, 0, &[not_3, most]),
        (3, 1, &[not_3, least]),
    ] {
        let equation = proof.equation(p, q, r, literals);
        let struck = literals[literals.len() - 1];
        line = proof.join(equation, line, struck);
    }
    line
}
