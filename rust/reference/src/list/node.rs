//! The listing of a node file.

use super::fields::record;
use super::{remarks, Trailer, NOT_ZERO};
use crate::build::Record;

/// The trailer's fields.
pub struct Fields {
    version: u8,
    count: u16,
    property: u16,
    distance: u32,
    zeros: [u8; 5],
}

impl Trailer<16> for Fields {
    const FILE: &'static str = "node";

    fn decode(bytes: &[u8; 16]) -> Option<Self> {
        let [0x4C, 0x4E, version, z0, n0, n1, p0, p1, d0, d1, d2, d3, z1, z2, z3, z4] = *bytes
        else {
            return None;
        };
        Some(Fields {
            version,
            count: u16::from_le_bytes([n0, n1]),
            property: u16::from_le_bytes([p0, p1]),
            distance: u32::from_le_bytes([d0, d1, d2, d3]),
            zeros: [z0, z1, z2, z3, z4],
        })
    }

    fn text(&self) -> String {
        format!(
            "version {}, streams {}, property {}, distance {}{}",
            self.version,
            self.count,
            self.property,
            self.distance,
            remarks([(self.zeros != [0; 5], NOT_ZERO)])
        )
    }

    fn total(&self) -> usize {
        usize::from(self.count)
    }

    fn block(&self, i: usize, block: &[u8; 16]) -> String {
        let is_property = i == usize::from(self.property);
        let mark = if is_property { " (property)" } else { "" };
        format!("stream {i} {}{mark}", stream(&record(block)))
    }
}

/// A record's type and equation.
fn stream(record: &Record) -> String {
    let (equation, plain) = equation(record);
    let plain = Record {
        type_byte: record.type_byte,
        ..plain
    };
    let remark = remarks([(*record != plain, NOT_ZERO)]);
    match record.type_byte {
        0 => format!("bool = {equation}{remark}"),
        1 => format!("int = {equation}{remark}"),
        other => format!("type {other} = {equation}{remark}"),
    }
}

/// The equation in the words of 01's table, or 02's of 14 and 15, and the
/// record that says this and no more, its type aside.
fn equation(record: &Record) -> (String, Record) {
    let Record {
        operator,
        type_byte,
        a,
        b,
        c,
        k,
        ..
    } = *record;
    match operator {
        0 => ("input".to_string(), Record::input(type_byte)),
        1 => (format!("constant {k}"), Record::constant(type_byte, k)),
        2 => (format!("not {a}"), Record::not(a)),
        3 => (format!("{a} and {b}"), Record::and(a, b)),
        4 => (format!("{a} or {b}"), Record::or(a, b)),
        5 => (format!("{a} same as {b}"), Record::same(a, b)),
        6 => (format!("{a} + {b}"), Record::sum(a, b)),
        7 => (format!("{a} - {b}"), Record::difference(a, b)),
        8 => (format!("constant {k} * {a}"), Record::multiple(k, a)),
        9 => (format!("{a} at most {b}"), Record::at_most(a, b)),
        10 => (format!("{a} equal to {b}"), Record::equal(a, b)),
        11 => (
            format!("if {c} then {a} else {b}"),
            Record::choice(type_byte, c, a, b),
        ),
        12 => (format!("{a} -> {b}"), Record::arrow(type_byte, a, b)),
        13 => (
            format!("{a} -> pre {b}"),
            Record::arrow_pre(type_byte, a, b),
        ),
        14 => (format!("lesser of {a} and {b}"), Record::lesser(a, b)),
        15 => (format!("greater of {a} and {b}"), Record::greater(a, b)),
        _ => (
            format!("operator {operator} of {a}, {b}, {c}, constant {k}"),
            *record,
        ),
    }
}
