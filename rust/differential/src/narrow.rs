//! Certificates drawn by version 1's windows, the base ending at k − 1, and
//! then made whole: the lines that were measured in version 1 are measured in
//! version 2, one for one.

use reference::build::{lit, opp, CertificateFile, Line, NodeFile};

/// How many lines the base needs more where the property is the constant true.
pub const MORE: usize = 2;

/// The certificate with a base up to k and as many lines, for a node whose
/// property is the constant true; its first line is the base's property line.
///
/// A join brings the property line back to the literals that it had, and what
/// cited one of its kind cites the join. So other property lines can make room
/// for what is more, and where there are too few the step's last lines do.
pub fn made_whole(node: &NodeFile, narrow: &CertificateFile) -> CertificateFile {
    let mut base = front(node, narrow.depth);
    let (property, join) = (base[0], MORE as u16);
    let mut numbers = vec![join];
    let mut left = MORE;
    for line in &narrow.base[1..] {
        if line.kind == 2 {
            numbers.push(join);
            base.extend((left == 0).then_some(property));
            left = left.saturating_sub(1);
            continue;
        }
        numbers.push(base.len() as u16);
        base.push(moved(line, |old| numbers[usize::from(old)]));
    }
    let kept = &narrow.step[..narrow.step.len() - left];
    let step = kept.iter().map(|line| moved(line, |old| old + left as u16));
    CertificateFile {
        step: step.collect(),
        base,
        ..narrow.clone()
    }
}

/// The property line, that the property holds at k, and what is left.
fn front(node: &NodeFile, depth: u8) -> Vec<Line> {
    let (p, k) = (node.property, u16::from(depth));
    let fails: Vec<u16> = (0..=k).map(|q| opp(lit(p, q))).collect();
    vec![
        Line::property(0, &fails),
        Line::equation(p, k, 0, &[lit(p, k)]),
        Line::join(0, 1, opp(lit(p, k)), &fails[..usize::from(k)]),
    ]
}

/// The line; a join cites what now has another number.
fn moved(line: &Line, number: impl Fn(u16) -> u16) -> Line {
    let mut line = *line;
    if line.kind == 3 {
        (line.p, line.q) = (number(line.p), number(line.q));
    }
    line
}
