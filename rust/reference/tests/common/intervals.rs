//! Ranges by one formula an operator, where the checker tries the corners.

#![allow(dead_code)]

use reference::answer::{Place, Refusal};
use reference::build::{NodeFile, Record, BOOL, INT};

/// The least and the greatest value of a stream.
pub type Ends = [i64; 2];

/// 02: "within ±4,000,000,000".
pub const MOST: i64 = 4_000_000_000;

/// The least and the greatest result of a record that is not an input, if it
/// is an int one. With ends within the limits all fits 64 bits.
pub fn results(record: &Record, ranges: &[Ends]) -> Option<Ends> {
    let of = |stream: u16| ranges[usize::from(stream)];
    let ([a0, a1], [b0, b1]) = (of(record.a), of(record.b));
    let k = i64::from(record.k);
    let ends = match record.operator {
        1 => [k, k],
        6 => [a0 + b0, a1 + b1],
        7 => [a0 - b1, a1 - b0],
        8 if k < 0 => [k * a1, k * a0],
        8 => [k * a0, k * a1],
        11..=13 => [a0.min(b0), a1.max(b1)],
        14 => [a0.min(b0), a1.min(b1)],
        15 => [a0.max(b0), a1.max(b1)],
        _ => return None,
    };
    (record.type_byte == INT).then_some(ends)
}

/// Whether the first range lies inside the second.
pub fn lies_inside(inner: Ends, outer: Ends) -> bool {
    outer[0] <= inner[0] && inner[1] <= outer[1]
}

/// The answer to a node that is accepted and a table.
pub fn answer(node: &NodeFile, table: &[i64]) -> Result<(), Refusal> {
    let ranges: Vec<Ends> = table
        .chunks_exact(2)
        .map(|ends| [ends[0], ends[1]])
        .collect();
    let stated = node.records.iter().zip(&ranges).all(|(record, ends)| {
        let most = if record.type_byte == BOOL { 0 } else { MOST };
        -most <= ends[0] && ends[0] <= ends[1] && ends[1] <= most
    });
    if table.len() != 2 * node.records.len() || !stated {
        return Err(Refusal::file(71));
    }
    let outside = node.records.iter().zip(&ranges).position(|(record, own)| {
        results(record, &ranges).is_some_and(|results| !lies_inside(results, *own))
    });
    outside.map_or(Ok(()), |i| Err(Refusal::new(72, Place::Record(i))))
}
