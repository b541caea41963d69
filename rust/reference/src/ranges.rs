//! The check of a table of ranges, refusals 71 and 72.
//!
//! 02: "A listed node comes with a table of two ends a stream, both 0 for a
//! bool."

use crate::answer::{Place, Refusal};
use crate::node::{self, Equation, Node, Type};
use crate::wide;
use std::ops::RangeInclusive;

/// 02: "a range within ±4,000,000,000 for each int stream".
const ENDS: RangeInclusive<i64> = -4_000_000_000..=4_000_000_000;

/// The two ends of a stream's range, the least first.
type Ends = [i64; 2];

/// Checks a node against a table: the least and the greatest of stream 0, of
/// stream 1 and on. 02 has 71 and 72 "in this order, after 23, 7 and 8".
pub fn check(file: &[u8], table: &[i64]) -> Result<(), Refusal> {
    let node = node::read(file)?;
    let ranges = stated(&node, table).ok_or(Refusal::file(71))?;
    match (0..node.count()).find(|i| !keeps_range(&node, ranges, *i)) {
        Some(lowest) => Err(Refusal::new(72, Place::Record(lowest))),
        None => Ok(()),
    }
}

/// The table cut into ranges; nothing is refusal 71: "table length wrong, ends
/// reversed, too large or, for a bool, not 0".
fn stated<'a>(node: &Node, table: &'a [i64]) -> Option<&'a [Ends]> {
    let (ranges, odd) = table.as_chunks();
    let right = odd.is_empty()
        && ranges.len() == node.count()
        && node.types().iter().zip(ranges).all(is_range);
    right.then_some(ranges)
}

/// Whether these are ends that a stream of the type may have.
fn is_range((kind, ends): (&Type, &Ends)) -> bool {
    match kind {
        Type::Bool => *ends == [0, 0],
        Type::Int => ends.is_sorted() && ends.iter().all(|end| ENDS.contains(end)),
    }
}

/// Refusal 72, "a range not inside": the least and the greatest result of an
/// int stream's operator are to lie in the stream's own range. A bool and an
/// input are not asked.
fn keeps_range(node: &Node, ranges: &[Ends], own: usize) -> bool {
    if node.types()[own] == Type::Bool {
        return true;
    }
    let [least, greatest] = ranges[own].map(i128::from);
    let results = results(node.equations()[own], ranges);
    let inside = |result: Option<&i128>| result.is_none_or(|r| (least..=greatest).contains(r));
    inside(results.iter().min()) && inside(results.iter().max())
}

/// What an int operator gives, exactly, where each operand "by itself" is at an
/// end of its range; its least and greatest results are among these. An input
/// has none.
fn results(equation: Equation, ranges: &[Ends]) -> Vec<i128> {
    let ends = |stream: u8| ranges[usize::from(stream)];
    match equation {
        Equation::Constant { k } => vec![k.into()],
        Equation::Sum { a, b } => corners(ends(a), ends(b), wide::sum),
        Equation::Difference { a, b } => corners(ends(a), ends(b), wide::difference),
        Equation::Multiple { k, a } => corners(ends(a), [0, 0], |a, _| wide::product(k, a)),
        Equation::Lesser { a, b } => corners(ends(a), ends(b), |a, b| a.min(b).into()),
        Equation::Greater { a, b } => corners(ends(a), ends(b), |a, b| a.max(b).into()),
        // 02: "for 11, 12 and 13 both a's and b's ranges do".
        Equation::Choice { a, b, .. } | Equation::Arrow { a, b } | Equation::ArrowPre { a, b } => {
            either(ends(a), ends(b))
        }
        Equation::Input
        | Equation::Not { .. }
        | Equation::And { .. }
        | Equation::Or { .. }
        | Equation::Same { .. }
        | Equation::AtMost { .. }
        | Equation::Equal { .. } => Vec::new(),
    }
}

/// The operator's results at all four pairs of ends.
fn corners(a: Ends, b: Ends, operator: impl Fn(i64, i64) -> i128) -> Vec<i128> {
    let pairs = a.into_iter().flat_map(|a| b.map(|b| (a, b)));
    pairs.map(|(a, b)| operator(a, b)).collect()
}

/// The ends of both ranges: either operand may be the one chosen.
fn either(a: Ends, b: Ends) -> Vec<i128> {
    a.into_iter().chain(b).map(i128::from).collect()
}
