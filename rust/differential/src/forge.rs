//! 01's false turns, those of [`windows`], a cut below the floor, a bound or a
//! coefficient that is not multiplied with the other and a lesser taken for a
//! greater: whole arguments for properties that fail, each right but for one
//! turn, and single lines that take such a turn.

use crate::clauses::{clauses, Item};
use crate::delays::delay;
use crate::draft::Draft;
use crate::grow::{grow, Mix};
use crate::linear::Linear;
use crate::prove::refute;
use crate::random::Random;
use crate::{miscuts, misfactors, windows};
use reference::build::proof::resolvent;
use reference::build::{lit, multiples, opp, CertificateFile, Line, NodeFile, Record, BOOL, INT};
use reference::certificate::Part;

/// A node, a forged certificate for it, and the number that refuses it.
pub type Forgery = (NodeFile, CertificateFile, u8);

/// One of the nine turns at some depth, with other right lines around it.
pub fn forgery(random: &mut Random) -> Forgery {
    let k = random.within(1, 8) as u8;
    let (node, turn, number): (_, Turn, u8) = match random.below(9) {
        0 => (windows::first_node(random, k), windows::first, 17),
        1 => (windows::before_node(k), windows::before, 17),
        2 => (windows::short_node(k), windows::short, 18),
        3 => (never_equal_node(), never_equal, 20),
        4 => (input_node(), both_signs, 19),
        5 => (multiple_node(random), below_the_floor, 22),
        6 => (one_less_node(random), not_alike, 17),
        7 => (one_sided_node(random), as_greater, 17),
        _ => (delayed_node(k), base_line_cited, 19),
    };
    let mut draft = Draft::drawn(random, &node, k);
    // 18 is that of a base that ends one offset early.
    draft.base_end -= u8::from(number == 18);
    let padding = random.of([0, 0, 3, 20]);
    grow(random, &mut draft, Mix::ALL, padding);
    let kept = turn(&mut draft);
    draft.begin_step();
    grow(random, &mut draft, Mix::ALL, padding);
    turn_step(&mut draft, turn, kept);
    let certificate = draft.finish();
    (node, certificate, number)
}

/// Writes a part of a forged argument. The base's number is of a line that
/// the step may cite, if it wants one.
type Turn = fn(&mut Draft) -> Option<u16>;

fn turn_step(draft: &mut Draft, turn: Turn, kept: Option<u16>) {
    let last = turn(draft);
    // Only `base_line_cited` leaves a base line to be cited.
    if let (Some(base), Some(line)) = (kept, last) {
        let r = draft.clause(line)[0];
        draft.add(Line::join(line, base, r, &[]));
    }
}

/// 0 and 1 are int inputs, 5 says that they are never equal.
fn never_equal_node() -> NodeFile {
    let records = vec![
        Record::input(INT),
        Record::input(INT),
        Record::at_most(0, 1),
        Record::at_most(1, 0),
        Record::and(2, 3),
        Record::not(4),
    ];
    NodeFile::new(records, 5)
}

/// "dropping the −1 from a negated constraint": u ≤ v and v ≤ u would clash.
fn never_equal(draft: &mut Draft) -> Option<u16> {
    let mut left = draft.fails()?;
    for q in draft.shown() {
        let at = |stream| lit(stream, q.into());
        let either = draft.equation(5, q, 0)?;
        left = draft.strike(left, opp(at(5)), either)?;
        let (two, three) = (draft.equation(4, q, 0)?, draft.equation(4, q, 1)?);
        let under = draft.equation(2, q, 0)?;
        let over = draft.equation(3, q, 0)?;
        let bounds = [under, over].map(|line| draft.clause(line)[1]);
        let clash = draft.arithmetic(&bounds.map(|l| (opp(l), 1)))?;
        let clash = draft.strike(clash, opp(bounds[0]), under)?;
        let clash = draft.strike(clash, opp(bounds[1]), over)?;
        let clash = draft.strike(clash, opp(at(2)), two)?;
        let clash = draft.strike(clash, opp(at(3)), three)?;
        left = draft.strike(left, at(4), clash)?;
    }
    None
}

/// 0 is an input and the property, 1 is not 0.
fn input_node() -> NodeFile {
    NodeFile::new(vec![Record::input(BOOL), Record::not(0)], 0)
}

/// "a join that strikes both signs from both clauses".
fn both_signs(draft: &mut Draft) -> Option<u16> {
    let mut left = draft.fails()?;
    for q in draft.shown() {
        let (either, neither) = (draft.equation(1, q, 0)?, draft.equation(1, q, 1)?);
        let both = draft.join(either, neither, lit(1, q.into()))?;
        let struck = lit(0, q.into());
        let kept: Vec<u16> = resolvent(&[], draft.clause(left), struck);
        left = draft.add(Line::join(both, left, struck, &kept))?;
    }
    None
}

/// 2 is false -> pre true, k delays of it are false to begin with, and the
/// property says that the last is false: it fails at instant k + 1.
fn delayed_node(k: u8) -> NodeFile {
    let mut records = vec![
        Record::constant(BOOL, 0),
        Record::constant(BOOL, 1),
        Record::arrow_pre(BOOL, 0, 1),
    ];
    let last = delay(&mut records, 0, k);
    records.push(Record::not(last));
    NodeFile::new(records, 1 + last)
}

/// "a step line citing a base line": {!2} at offset 0 is the base's.
fn base_line_cited(draft: &mut Draft) -> Option<u16> {
    if draft.part() == Part::Base {
        refute(draft)?;
        let starts = draft.equation(2, 0, 0)?;
        let falsity = draft.equation(0, 0, 0)?;
        return draft.strike(starts, lit(0, 0), falsity);
    }
    let k = draft.depth;
    let line = draft.property(k)?;
    let either = draft.equation(3 + u16::from(k), k, 0)?;
    let mut line = draft.strike(line, opp(lit(3 + u16::from(k), k.into())), either)?;
    for j in (1..=k).rev() {
        let stream = 2 + u16::from(j);
        let before = draft.equation(stream, j, 0)?;
        line = draft.strike(line, lit(stream, j.into()), before)?;
    }
    Some(line)
}

/// 1 is m times 0, and 4 says that it is never some multiple of m.
fn multiple_node(random: &mut Random) -> NodeFile {
    let m = random.of([1, 2, 3, 1_000, 65_535]);
    let times = random.of([0, 1, -1, 7, -7, 15_000, -15_000]);
    multiples::node(m, i32::from(m) * times)
}

/// A cut that rounds one past the floor, which makes the two clash.
fn below_the_floor(draft: &mut Draft) -> Option<u16> {
    let [_, times, constant, ..] = draft.node.records[..] else {
        return None;
    };
    let m = times.k as u16;
    let [upper, lower] = multiples::bounds(m, constant.k);
    let bounds = match draft.depth % 2 {
        0 => [upper - 1, lower],
        _ => [upper, lower - 1],
    };
    let forged = multiples::certificate(m, constant.k, draft.depth, bounds);
    let (lines, first) = match draft.part() {
        Part::Base => (&forged.base, 0),
        Part::Step => (&forged.step, forged.base.len()),
    };
    draft.import(&forged, lines, first)?;
    None
}

/// 0 is k, 1 is k − 1, and 2 says that 0 is at most 1.
fn one_less_node(random: &mut Random) -> NodeFile {
    let k = random.of([1, 2, 5, 1_000_000, -1, -2, -5, -1_000_000]);
    let constants = [k, k - 1].map(|k| Record::constant(INT, k));
    let records = [&constants[..], &[Record::at_most(0, 1)]].concat();
    NodeFile::new(records, 2)
}

/// "0 at most k" with one of its numbers multiplied, the coefficient where k
/// is positive and else the bound: that says too much, and the three
/// constraints clash.
fn not_alike(draft: &mut Draft) -> Option<u16> {
    let (k, factor) = (draft.node.records[0].k.into(), i128::from(draft.depth) + 1);
    let (coefficient, bound) = if k > 0 { (factor, k) } else { (1, factor * k) };
    let mut left = draft.fails()?;
    for q in draft.shown() {
        let forged = Linear::bounded(bound)
            .plus(coefficient, (q, 0))
            .constraint()?;
        let most = draft.literal_on(forged)?;
        let is_most = draft.add(Line::equation(0, q.into(), 0, &[most]))?;
        let is_least = draft.equation(1, q, 1)?;
        let either = draft.equation(2, q, 1)?;
        let (least, below) = (draft.clause(is_least)[0], draft.clause(either)[1]);
        let times = coefficient as u32;
        let sums = [(most, 1), (least, times), (below, times)];
        let clash = draft.arithmetic(&sums.map(|(literal, times)| (opp(literal), times)))?;
        let clash = draft.strike(clash, opp(most), is_most)?;
        let clash = draft.strike(clash, opp(least), is_least)?;
        left = draft.strike(left, opp(lit(2, q.into())), either)?;
        left = draft.strike(left, below, clash)?;
    }
    None
}

/// 0 and 1 are int inputs, 2 is the lesser or the greater of them, and 3 says
/// that 0 is at most the lesser, or the greater at most 0.
fn one_sided_node(random: &mut Random) -> NodeFile {
    let (record, property) = match random.below(2) {
        0 => (Record::lesser(0, 1), Record::at_most(0, 2)),
        _ => (Record::greater(0, 1), Record::at_most(2, 0)),
    };
    let records = vec![Record::input(INT), Record::input(INT), record, property];
    NodeFile::new(records, 3)
}

/// The first clause of 14 taken for that of 15, or the other way round: it
/// says what the property says.
fn as_greater(draft: &mut Draft) -> Option<u16> {
    let mut left = draft.fails()?;
    for q in draft.shown() {
        let forged = mirrored(draft, 2, q, 0)?;
        let (ordered, either) = (draft.clause(forged)[0], draft.equation(3, q, 1)?);
        let reversed = draft.clause(either)[1];
        let clash = draft.arithmetic(&[ordered, reversed].map(|l| (opp(l), 1)))?;
        let clash = draft.strike(clash, opp(ordered), forged)?;
        left = draft.strike(left, opp(lit(3, q.into())), either)?;
        left = draft.strike(left, reversed, clash)?;
    }
    None
}

/// Adds clause r of stream p as if 14 were 15, or 15 were 14.
fn mirrored(draft: &mut Draft, p: u16, q: u8, r: usize) -> Option<u16> {
    let mut records = draft.node.records.clone();
    records[usize::from(p)].operator ^= 1;
    let listed = clauses(&records, draft.part(), p, q);
    written(draft, p, q, r, &listed[r])
}

/// Adds an equation line with these items, right or wrong.
pub fn written(draft: &mut Draft, p: u16, q: u8, r: usize, items: &[Item]) -> Option<u16> {
    let mut literals = Vec::new();
    for item in items {
        literals.push(match item {
            Item::Literal(literal) => *literal,
            Item::AtMost(constraint) => draft.literal_on(*constraint)?,
        });
    }
    draft.add(Line::equation(p, q.into(), r as u16, &literals))
}

/// Adds a line that takes a false turn, if the draft has what it needs.
pub fn forged_line(random: &mut Random, draft: &mut Draft) -> Option<u16> {
    match random.below(9) {
        0 => as_first_instant(random, draft),
        1 => as_later(random, draft),
        2 => as_zero(random, draft),
        3 => as_both_signs(random, draft),
        4 => as_base_line(random, draft),
        5 => miscuts::miscut(random, draft).map(|(line, _)| line),
        6 => misfactors::misfactor(random, draft),
        7 => as_mirrored(random, draft),
        _ => as_other_sign(random, draft),
    }
}

/// Clause r of an operator 12 or 13 at offset 0, as the base has it.
fn as_first_instant(random: &mut Random, draft: &mut Draft) -> Option<u16> {
    let (p, r) = (one_of(random, draft, [12, 13])?, random.below(2));
    let listed = clauses(&draft.node.records, Part::Base, p, 0);
    written(draft, p, 0, r, &listed[r])
}

/// Clause r of an operator 12 or 13 at offset 0, as if it were 12 and offset 0
/// were no first instant.
fn as_later(random: &mut Random, draft: &mut Draft) -> Option<u16> {
    let (p, r) = (one_of(random, draft, [12, 13])?, random.below(2));
    let listed = windows::as_later(&draft.node.records, p);
    written(draft, p, 0, r, &listed[r])
}

/// A clause of an operator 14 as if it were 15, or of a 15 as if it were 14.
fn as_mirrored(random: &mut Random, draft: &mut Draft) -> Option<u16> {
    let p = one_of(random, draft, [14, 15])?;
    let q = random.within(0, draft.last_offset().into()) as u8;
    mirrored(draft, p, q, random.below(3))
}

/// A stream of one of these operators, if there is one.
pub fn one_of<const N: usize>(
    random: &mut Random,
    draft: &Draft,
    operators: [u8; N],
) -> Option<u16> {
    let numbered = (0u16..).zip(&draft.node.records);
    let fitting = numbered.filter(|(_, record)| operators.contains(&record.operator));
    random.pick(&fitting.map(|(p, _)| p).collect::<Vec<_>>())
}

/// A line of kind 4 whose bound is 0.
fn as_zero(random: &mut Random, draft: &mut Draft) -> Option<u16> {
    let i = random.below(draft.constraints.len());
    let constraint = *draft.constraints.get(i)?;
    let literal = draft.literal_on(constraint)?;
    let sum = Linear::of(&constraint);
    let other = draft.literal_on(sum.negated(-sum.bound).constraint()?)?;
    draft.arithmetic(&[(opp(literal), 1), (opp(other), 1)])
}

/// A join that leaves out the struck literal's opposite too.
fn as_both_signs(random: &mut Random, draft: &mut Draft) -> Option<u16> {
    let own = draft.lines.len() - draft.first();
    let p = (draft.first() + random.below(own)) as u16;
    if own == 0 {
        return None;
    }
    let r = random.pick(draft.clause(p))?;
    let q = random.pick(draft.holders(opp(r)))?;
    let mut literals = resolvent(draft.clause(p), draft.clause(q), r);
    literals.retain(|literal| literal / 2 != r / 2);
    literals.truncate(12);
    draft.add(Line::join(p, q, r, &literals))
}

/// A join that cites any line, of the other part too, or itself.
fn as_base_line(random: &mut Random, draft: &mut Draft) -> Option<u16> {
    let p = random.below(draft.lines.len()) as u16;
    let q = random.within(0, draft.lines.len()) as u16;
    let r = random.pick(draft.lines.get(usize::from(p))?.clause())?;
    let other = draft
        .lines
        .get(usize::from(q))
        .map_or(&[][..], Line::clause);
    let mut literals = resolvent(draft.clause(p), other, r);
    literals.truncate(12);
    draft.add(Line::join(p, q, r, &literals))
}

/// A line once more, one literal in the other sign or left out.
fn as_other_sign(random: &mut Random, draft: &mut Draft) -> Option<u16> {
    let i = random.below(draft.lines.len());
    let mut line = *draft.lines.get(i)?;
    let at = random.below(line.count.into());
    match random.below(3) {
        0 => line.literals[at] ^= 1,
        1 => line.literals.swap(at, 0),
        _ if line.count > 0 => {
            line.count -= 1;
            line.literals[usize::from(line.count)] = 0;
            line.multipliers[usize::from(line.count)] = 0;
        }
        _ => line.kind = line.kind % 5 + 1,
    }
    draft.add(line)
}
