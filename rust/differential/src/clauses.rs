//! The list of clauses, written once more and over the writers' records: what
//! is built from it and refused shows a difference.

use crate::linear::{Linear, Variable};
use reference::build::{lit, opp, Constraint, Record, BOOL};
use reference::certificate::Part;

/// A place in a clause.
#[derive(Clone, Debug, PartialEq, Eq)]
pub enum Item {
    /// A literal on a bool stream.
    Literal(u16),
    /// A constraint by content.
    AtMost(Constraint),
}

/// The clauses that stream p gives at offset q, in order.
pub fn clauses(records: &[Record], part: Part, p: u16, q: u8) -> Vec<Vec<Item>> {
    let Some(record) = records.get(usize::from(p)) else {
        return Vec::new();
    };
    match (record.operator, record.type_byte) {
        (0, _) => Vec::new(),
        (9 | 10, _) => comparison(record, p, q),
        (12 | 13, _) => chosen(record, part, q).map_or(Vec::new(), |(offset, t)| {
            same(record.type_byte == BOOL, (q, p), (offset, t))
        }),
        (_, BOOL) => over_bools(record, p, q),
        (11, _) => int_choice(record, p, q),
        (14, _) => extreme(record, p, q, |x, y| less(x, y, 0)),
        (15, _) => extreme(record, p, q, |x, y| less(y, x, 0)),
        _ => equality(record, p, q),
    }
}

/// The operand of 12 and 13 that is chosen, if there is one: the step begins
/// after the first instant, and what 13 reads at its offset 0 lies before it.
fn chosen(record: &Record, part: Part, q: u8) -> Option<Variable> {
    match (part, record.operator, q) {
        (Part::Base, _, 0) => Some((0, record.a)),
        (_, 12, _) => Some((q, record.b)),
        (_, _, 0) => None,
        _ => Some((q - 1, record.b)),
    }
}

fn literals(clause: &[u16]) -> Vec<Item> {
    clause.iter().map(|l| Item::Literal(*l)).collect()
}

/// "x − y at most `bound`".
fn less(x: Variable, y: Variable, bound: i128) -> Item {
    made(Linear::bounded(bound).plus(1, x).plus(-1, y))
}

/// Every clause's constraint is within the limits: |K| is.
fn made(linear: Linear) -> Item {
    Item::AtMost(linear.constraint().expect("within the limits"))
}

/// {!s, t} {s, !t} or {s ≤ t} {t ≤ s}.
fn same(bools: bool, s: Variable, t: Variable) -> Vec<Vec<Item>> {
    if !bools {
        return vec![vec![less(s, t, 0)], vec![less(t, s, 0)]];
    }
    let [s, t] = [s, t].map(|(offset, stream)| lit(stream, offset.into()));
    [[opp(s), t], [s, opp(t)]].map(|c| literals(&c)).into()
}

/// Operators 2 to 5, and 1 and 11 over bools.
fn over_bools(record: &Record, p: u16, q: u8) -> Vec<Vec<Item>> {
    let [s, a, b, c] = [p, record.a, record.b, record.c].map(|i| lit(i, q.into()));
    let [ns, na, nb, nc] = [s, a, b, c].map(opp);
    let listed: &[&[u16]] = match record.operator {
        1 if record.k == 1 => &[&[s]],
        1 => &[&[ns]],
        2 => &[&[s, a], &[ns, na]],
        3 => &[&[ns, a], &[ns, b], &[s, na, nb]],
        4 => &[&[s, na], &[s, nb], &[ns, a, b]],
        5 => &[&[ns, na, b], &[ns, a, nb], &[s, a, b], &[s, na, nb]],
        11 => &[&[nc, ns, a], &[nc, s, na], &[c, ns, b], &[c, s, nb]],
        _ => &[],
    };
    listed.iter().map(|clause| literals(clause)).collect()
}

/// Operators 1, 6, 7 and 8 over ints: {s ≤ e} {e ≤ s}.
fn equality(record: &Record, p: u16, q: u8) -> Vec<Vec<Item>> {
    let k = i128::from(record.k);
    let (a, b) = ((q, record.a), (q, record.b));
    let minus_e = match record.operator {
        1 => Linear::bounded(k),
        6 => Linear::default().plus(-1, a).plus(-1, b),
        7 => Linear::default().plus(-1, a).plus(1, b),
        _ => Linear::default().plus(-k, a),
    };
    let under = minus_e.plus(1, (q, p));
    let over = under.negated(-under.bound);
    vec![vec![made(under)], vec![made(over)]]
}

/// {!c, s ≤ a} {!c, a ≤ s} {c, s ≤ b} {c, b ≤ s}.
fn int_choice(record: &Record, p: u16, q: u8) -> Vec<Vec<Item>> {
    let c = lit(record.c, q.into());
    let (s, a, b) = ((q, p), (q, record.a), (q, record.b));
    let with = |literal, item| vec![Item::Literal(literal), item];
    vec![
        with(opp(c), less(s, a, 0)),
        with(opp(c), less(a, s, 0)),
        with(c, less(s, b, 0)),
        with(c, less(b, s, 0)),
    ]
}

/// 14: {s ≤ a} {s ≤ b} {a ≤ s, b ≤ s}. 15: the same the other way round.
fn extreme(
    record: &Record,
    p: u16,
    q: u8,
    ordered: impl Fn(Variable, Variable) -> Item,
) -> Vec<Vec<Item>> {
    let (s, a, b) = ((q, p), (q, record.a), (q, record.b));
    vec![
        vec![ordered(s, a)],
        vec![ordered(s, b)],
        vec![ordered(a, s), ordered(b, s)],
    ]
}

/// 9: {!s, a ≤ b} {s, b < a}. 10: {!s, a ≤ b} {!s, b ≤ a} {s, a < b, b < a}.
fn comparison(record: &Record, p: u16, q: u8) -> Vec<Vec<Item>> {
    let s = lit(p, q.into());
    let (a, b) = ((q, record.a), (q, record.b));
    let with = |literal, item| vec![Item::Literal(literal), item];
    if record.operator == 9 {
        return vec![with(opp(s), less(a, b, 0)), with(s, less(b, a, -1))];
    }
    vec![
        with(opp(s), less(a, b, 0)),
        with(opp(s), less(b, a, 0)),
        vec![Item::Literal(s), less(a, b, -1), less(b, a, -1)],
    ]
}
