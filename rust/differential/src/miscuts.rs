//! Cuts with one field off: each way makes of any right cut one that is
//! refused, or passes it by.

use crate::cuts;
use crate::draft::Draft;
use crate::grow::{any_literal, constraint};
use crate::linear::{Linear, Variable};
use crate::random::Random;
use reference::build::{on, Line};

/// Spoils a right cut; nothing if it can't.
type Spoil = fn(&mut Random, &mut Draft, &mut Line) -> Option<()>;

/// A way to spoil a cut.
pub struct Way {
    /// What is off.
    pub name: &'static str,
    /// The number that refuses it.
    pub number: u8,
    spoil: Spoil,
}

impl Way {
    const fn new(name: &'static str, number: u8, spoil: Spoil) -> Self {
        Way {
            name,
            number,
            spoil,
        }
    }
}

/// All ways.
pub const WAYS: [Way; 22] = [
    Way::new("r is 0", 22, |_, _, line| set(&mut line.r, 0)),
    Way::new("r one off", 22, r_one_off),
    Way::new("bound one up", 22, |_, d, l| moved_bound(d, l, 1)),
    Way::new("bound one down", 22, |_, d, l| moved_bound(d, l, -1)),
    Way::new("bound rounded up", 22, rounded_up),
    Way::new("coefficient one off", 22, coefficient_one_off),
    Way::new("coefficient left out", 22, coefficient_left_out),
    Way::new("coefficient more", 22, coefficient_more),
    Way::new("another literal", 22, another_literal),
    Way::new("other multiplier one off", 22, multiplier_one_off),
    Way::new("other multiplier 0", 22, |r, _, l| {
        other_multiplier(r, l, 0)
    }),
    Way::new("other multiplier 1,000,001", 22, |r, _, l| {
        other_multiplier(r, l, 1_000_001)
    }),
    Way::new("other a bool", 22, other_a_bool),
    Way::new("last a bool", 22, last_a_bool),
    Way::new("last negated", 22, |_, _, line| {
        line.literals[last(line)] ^= 1;
        Some(())
    }),
    Way::new("last with a multiplier", 22, |random, _, line| {
        set(&mut line.multipliers[last(line)], random.of([1, 1_000_000]))
    }),
    Way::new("last not last", 22, last_not_last),
    Way::new("no literal", 22, |_, _, line| {
        *line = Line::cut(line.r, &[]);
        Some(())
    }),
    Way::new("p", 16, |random, _, line| {
        set(&mut line.p, random.of([1, 256]))
    }),
    Way::new("q", 16, |random, _, line| {
        set(&mut line.q, random.of([1, 256]))
    }),
    Way::new("multiplier past the count", 16, |random, _, line| {
        let i = past(random, line)?;
        set(&mut line.multipliers[i], 1)
    }),
    Way::new("literal past the count", 16, |random, _, line| {
        let i = past(random, line)?;
        set(&mut line.literals[i], on(0))
    }),
];

/// Adds a cut spoiled in one way, if the draft has what the way needs.
pub fn spoiled(random: &mut Random, draft: &mut Draft, way: &Way) -> Option<u16> {
    let mut line = cuts::cut(random, draft)?;
    (way.spoil)(random, draft, &mut line)?;
    draft.add(line)
}

/// Adds a cut spoiled in some way, and tells the number that refuses it.
pub fn miscut(random: &mut Random, draft: &mut Draft) -> Option<(u16, u8)> {
    let way = &WAYS[random.below(WAYS.len())];
    Some((spoiled(random, draft, way)?, way.number))
}

fn set<T>(field: &mut T, value: T) -> Option<()> {
    *field = value;
    Some(())
}

/// The place of the last literal.
fn last(line: &Line) -> usize {
    usize::from(line.count) - 1
}

/// A place of another literal, if there is one.
fn other(random: &mut Random, line: &Line) -> Option<usize> {
    let others: Vec<usize> = (0..last(line)).collect();
    random.pick(&others)
}

/// A place past the literals, if there is one.
fn past(random: &mut Random, line: &Line) -> Option<usize> {
    let places: Vec<usize> = (usize::from(line.count)..12).collect();
    random.pick(&places)
}

/// What the last constraint says.
fn cut_out(draft: &Draft, line: &Line) -> Option<Linear> {
    draft
        .constraint_of(line.literals[last(line)])
        .map(Linear::of)
}

/// Puts the literal on another constraint last.
fn put_last(draft: &mut Draft, line: &mut Line, sum: &Linear) -> Option<()> {
    let literal = draft.literal_on(sum.constraint()?)?;
    set(&mut line.literals[last(line)], literal)
}

/// Without terms another r may be right too.
fn r_one_off(random: &mut Random, draft: &mut Draft, line: &mut Line) -> Option<()> {
    cut_out(draft, line)?.used().next()?;
    let off = random.of([line.r.checked_sub(1), line.r.checked_add(1)])?;
    set(&mut line.r, off)
}

fn moved_bound(draft: &mut Draft, line: &mut Line, by: i128) -> Option<()> {
    let mut sum = cut_out(draft, line)?;
    sum.bound += by;
    put_last(draft, line, &sum)
}

/// One up where that is the ceiling, of a negative sum also toward zero.
fn rounded_up(_: &mut Random, draft: &mut Draft, line: &mut Line) -> Option<()> {
    let weighted: Vec<_> = line
        .clause()
        .iter()
        .copied()
        .zip(line.multipliers)
        .collect();
    let sum = cuts::sum(&draft.constraints, &weighted[..last(line)])?;
    let exact = sum.bound % i128::from(line.r) == 0;
    (!exact).then(|| moved_bound(draft, line, 1))?
}

/// A variable of the last constraint, if it has one.
fn variable(random: &mut Random, sum: &Linear) -> Option<Variable> {
    let variables: Vec<Variable> = sum.used().map(|(variable, _)| variable).collect();
    random.pick(&variables)
}

fn coefficient_one_off(random: &mut Random, draft: &mut Draft, line: &mut Line) -> Option<()> {
    let sum = cut_out(draft, line)?;
    let variable = variable(random, &sum)?;
    put_last(draft, line, &sum.plus(random.of([1, -1]), variable))
}

fn coefficient_left_out(random: &mut Random, draft: &mut Draft, line: &mut Line) -> Option<()> {
    let mut sum = cut_out(draft, line)?;
    let variable = variable(random, &sum)?;
    sum.terms.remove(&variable);
    put_last(draft, line, &sum)
}

/// One more at a variable that the last constraint has not.
fn coefficient_more(random: &mut Random, draft: &mut Draft, line: &mut Line) -> Option<()> {
    let (sum, drawn) = (cut_out(draft, line)?, constraint(random, draft));
    let variable = variable(random, &Linear::of(&drawn))?;
    let more = !sum.terms.contains_key(&variable);
    more.then(|| put_last(draft, line, &sum.plus(random.of([1, -1]), variable)))?
}

/// One more literal before the last, with terms.
fn another_literal(random: &mut Random, draft: &mut Draft, line: &mut Line) -> Option<()> {
    let (end, own) = (last(line), constraint(random, draft));
    if own.count == 0 || end > 10 {
        return None;
    }
    let literal = draft.literal_on(own)? | u16::from(random.byte() & 1);
    line.literals.copy_within(end..end + 1, end + 1);
    line.literals[end] = literal;
    line.multipliers[end] = 1;
    line.count += 1;
    Some(())
}

/// Of a literal with terms.
fn multiplier_one_off(random: &mut Random, draft: &mut Draft, line: &mut Line) -> Option<()> {
    let i = other(random, line)?;
    let terms = draft.constraint_of(line.literals[i])?.count;
    let own = line.multipliers[i];
    let off = random.of([own - 1, own + 1]);
    (terms > 0).then(|| set(&mut line.multipliers[i], off))?
}

fn other_multiplier(random: &mut Random, line: &mut Line, multiplier: u32) -> Option<()> {
    let i = other(random, line)?;
    set(&mut line.multipliers[i], multiplier)
}

/// A literal on a bool stream.
fn any_bool(random: &mut Random, draft: &Draft) -> Option<u16> {
    let mut drawn = (0..8).filter_map(|_| any_literal(random, draft));
    drawn.find(|literal| *literal < on(0))
}

fn other_a_bool(random: &mut Random, draft: &mut Draft, line: &mut Line) -> Option<()> {
    let i = other(random, line)?;
    set(&mut line.literals[i], any_bool(random, draft)?)
}

fn last_a_bool(random: &mut Random, draft: &mut Draft, line: &mut Line) -> Option<()> {
    set(
        &mut line.literals[last(line)],
        any_bool(random, draft)? & !1,
    )
}

/// Another in the last one's place, which then has a multiplier.
fn last_not_last(random: &mut Random, _: &mut Draft, line: &mut Line) -> Option<()> {
    let (i, end) = (other(random, line)?, last(line));
    line.literals.swap(i, end);
    line.multipliers.swap(i, end);
    Some(())
}
