//! The listing of a certificate file.

use super::{fields, remarks, Trailer, NOT_ZERO};
use crate::build::{Constraint, Line, Term};
use crate::certificate::literal::Literal;

/// The trailer's fields.
pub struct Fields {
    version: u8,
    depth: u8,
    constraints: u16,
    base: u16,
    step: u16,
    distance: u32,
    zeros: [u8; 2],
}

impl Trailer<80> for Fields {
    const FILE: &'static str = "certificate";

    fn decode(bytes: &[u8; 16]) -> Option<Self> {
        let [0x4B, 0x43, version, depth, c0, c1, b0, b1, s0, s1, z0, z1, distance @ ..] = *bytes
        else {
            return None;
        };
        Some(Fields {
            version,
            depth,
            constraints: u16::from_le_bytes([c0, c1]),
            base: u16::from_le_bytes([b0, b1]),
            step: u16::from_le_bytes([s0, s1]),
            distance: u32::from_le_bytes(distance),
            zeros: [z0, z1],
        })
    }

    fn text(&self) -> String {
        format!(
            "version {}, depth {}, constraints {}, base lines {}, step lines {}, distance {}{}",
            self.version,
            self.depth,
            self.constraints,
            self.base,
            self.step,
            self.distance,
            remarks([(self.zeros != [0; 2], NOT_ZERO)])
        )
    }

    fn total(&self) -> usize {
        let counts = [self.constraints, self.base, self.step];
        counts.into_iter().map(usize::from).sum()
    }

    fn block(&self, i: usize, block: &[u8; 80]) -> String {
        let Some(number) = i.checked_sub(usize::from(self.constraints)) else {
            return format!("c{i}: {}", constraint(&fields::constraint(block)));
        };
        let is_base = number < usize::from(self.base);
        let part = if is_base { "base" } else { "step" };
        format!("line {number} {part}: {}", line(&fields::line(block)))
    }
}

/// A constraint: its used terms, and the bound.
fn constraint(constraint: &Constraint) -> String {
    let Constraint {
        count,
        bound,
        terms,
        ..
    } = *constraint;
    let used = &terms[..usize::from(count).min(terms.len())];
    let said = used.iter().map(|t| (t.stream, t.offset, t.coefficient));
    let plain = Constraint {
        count,
        ..Constraint::new(&said.collect::<Vec<_>>(), bound)
    };
    let over = format!("term count {count}");
    let remarks = remarks([
        (used.len() < usize::from(count), &over),
        (*constraint != plain, NOT_ZERO),
    ]);
    format!("{} <= {bound}{remarks}", sum(used))
}

/// The sum of the terms; 0 if there are none.
fn sum(terms: &[Term]) -> String {
    let Some((first, others)) = terms.split_first() else {
        return "0".to_string();
    };
    let variable = |term: &Term| format!("s{}@{}", term.stream, term.offset);
    let first = format!("{}*{}", first.coefficient, variable(first));
    others.iter().fold(first, |sum, term| {
        let sign = if term.coefficient < 0 { '-' } else { '+' };
        let size = term.coefficient.unsigned_abs();
        format!("{sum} {sign} {size}*{}", variable(term))
    })
}

/// A line: what it is by, and the clause it gives.
fn line(line: &Line) -> String {
    let (by, plain) = justification(line);
    let plain = Line {
        count: line.count,
        ..plain
    };
    let over = format!("literal count {}", line.count);
    let remarks = remarks([
        (line.clause().len() < usize::from(line.count), &over),
        (*line != plain, NOT_ZERO),
    ]);
    format!("{by} gives {}{remarks}", clause(line.clause()))
}

/// What a line is by, and the line that says this and no more.
fn justification(line: &Line) -> (String, Line) {
    let Line { kind, p, q, r, .. } = *line;
    let literals = line.clause();
    match kind {
        1 => (
            format!("clause {r} of stream {p} at {q}"),
            Line::equation(p, q, r, literals),
        ),
        2 => (format!("property at {q}"), Line::property(q, literals)),
        3 => (
            format!("join of {p} and {q} on {}", Literal::from_number(r)),
            Line::join(p, q, r, literals),
        ),
        4 | 5 => summed(line),
        _ => (format!("kind {kind} with {p}, {q}, {r}"), *line),
    }
}

/// The same of a line of kind 4 or 5.
fn summed(line: &Line) -> (String, Line) {
    let literals = line.clause().iter().copied();
    let weighted: Vec<_> = literals.zip(line.multipliers).collect();
    let times = listed(weighted.iter().map(|(_, multiplier)| multiplier));
    match line.kind {
        4 => (
            format!("arithmetic times {times}"),
            Line::arithmetic(&weighted),
        ),
        _ => (
            format!("cut by {} times {times}", line.r),
            Line::cut(line.r, &weighted),
        ),
    }
}

/// The literals in braces.
fn clause(literals: &[u16]) -> String {
    let shown = listed(literals.iter().map(|l| Literal::from_number(*l)));
    match literals {
        [] => "{ }".to_string(),
        _ => format!("{{{shown}}}"),
    }
}

/// The items with commas between them.
fn listed<T: ToString>(items: impl Iterator<Item = T>) -> String {
    let items: Vec<String> = items.map(|item| item.to_string()).collect();
    items.join(", ")
}
