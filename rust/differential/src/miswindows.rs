//! Lines that go by another window than their part's: one offset too many or
//! too few, or operators 12 and 13 at offset 0 by the other part's rule. Each
//! way gives a line that is refused, or nothing.

use crate::clauses::{clauses, Item};
use crate::draft::Draft;
use crate::forge::{one_of, written};
use crate::random::Random;
use crate::windows::as_later;
use reference::build::{lit, opp, Constraint, Line};
use reference::certificate::Part;
use std::ops::Range;

/// Adds a wrong line; nothing if it can't.
type Spoil = fn(&mut Random, &mut Draft) -> Option<u16>;

/// A way to go wrong.
pub struct Way {
    /// What is off.
    pub name: &'static str,
    /// The part that it is off in.
    pub part: Part,
    /// The depth that it needs, if not any.
    pub depth: Option<u8>,
    /// The number that refuses it.
    pub number: u8,
    spoil: Spoil,
}

impl Way {
    const fn base(name: &'static str, number: u8, spoil: Spoil) -> Self {
        Way {
            name,
            part: Part::Base,
            depth: None,
            number,
            spoil,
        }
    }

    const fn step(name: &'static str, number: u8, spoil: Spoil) -> Self {
        Way {
            name,
            part: Part::Step,
            depth: None,
            number,
            spoil,
        }
    }

    const fn at_depth(mut self, depth: u8) -> Self {
        self.depth = Some(depth);
        self
    }
}

/// All ways.
pub const WAYS: [Way; 19] = [
    Way::base("base, equation at k + 1", 17, past_the_end),
    Way::step("step, equation at k + 1", 17, past_the_end),
    Way::base("base, literals at k + 1", 16, wholly_past_the_end),
    Way::step("step, literals at k + 1", 16, wholly_past_the_end),
    Way::base("base, property without k", 18, |_, d| fails(d, |k| 0..k)),
    Way::base("base, property without 0", 18, |_, d| {
        fails(d, |k| 1..k + 1)
    }),
    Way::base("base, property without both", 18, |_, d| fails(d, |k| 1..k)),
    Way::base("base, property at k + 1 too", 16, |_, d| {
        (d.depth < 8).then(|| fails(d, |k| 0..k + 2))?
    }),
    Way::base("base, constraints for bools at 9", 17, as_constraints).at_depth(8),
    Way::step("step, constraints for bools at 9", 17, as_constraints).at_depth(8),
    Way::base("base, a constraint for the property at 9", 18, |_, d| {
        filled_up(d)?;
        fails(d, |k| 0..k + 2)
    })
    .at_depth(8),
    Way::step("step, a constraint for the property at 9", 18, |_, d| {
        filled_up(d)?;
        let literal = opp(lit(d.node.property, 9));
        d.add(Line::property(9, &[literal]))
    })
    .at_depth(8),
    Way::step("step, 12 at 0 with a", 17, |r, d| with_first(r, d, 12)),
    Way::step("step, 13 at 0 with a", 17, |r, d| with_first(r, d, 13)),
    Way::step("step, 13 at 0 with b", 17, |r, d| with_later(r, d, 13)),
    Way::base("base, 12 at 0 with b", 17, |r, d| with_later(r, d, 12)),
    Way::base("base, 13 at 0 with b", 17, |r, d| with_later(r, d, 13)),
    Way::step("step, 12 at 0 under the other number", 17, exchanged),
    Way::step("step, third clause of 12 at 0", 17, third),
];

/// Adds a line that goes wrong in one way, if it is the draft's part and has
/// what the way needs.
pub fn spoiled(random: &mut Random, draft: &mut Draft, way: &Way) -> Option<u16> {
    let own = draft.part() == way.part;
    (0..16).find_map(|_| own.then(|| (way.spoil)(random, draft))?)
}

/// A clause of some stream at offset k, said to be of k + 1.
fn past_the_end(random: &mut Random, draft: &mut Draft) -> Option<u16> {
    let (p, k) = (random.below(draft.node.records.len()) as u16, draft.depth);
    let listed = clauses(&draft.node.records, draft.part(), p, k);
    let r = random.below(listed.len());
    written(draft, p, k + 1, r, listed.get(r)?)
}

/// A clause of bools at offset k + 1, where k is below 8: their literals name
/// no atom.
fn wholly_past_the_end(random: &mut Random, draft: &mut Draft) -> Option<u16> {
    (draft.depth < 8).then(|| bools_past_the_end(random, draft))?
}

/// A clause of bools at offset 9: their literals are those of constraints.
fn as_constraints(random: &mut Random, draft: &mut Draft) -> Option<u16> {
    filled_up(draft)?;
    bools_past_the_end(random, draft)
}

/// Adds constraints until there are as many as streams.
fn filled_up(draft: &mut Draft) -> Option<()> {
    while draft.constraints.len() < draft.node.records.len() {
        draft.another(Constraint::new(&[], 0))?;
    }
    Some(())
}

/// A clause of bools at offset k + 1.
fn bools_past_the_end(random: &mut Random, draft: &mut Draft) -> Option<u16> {
    let p = random.below(draft.node.records.len()) as u16;
    let q = draft.depth + 1;
    let listed = clauses(&draft.node.records, draft.part(), p, q);
    let r = random.below(listed.len());
    let clause = listed.get(r)?;
    let of_bools = clause.iter().all(|item| matches!(item, Item::Literal(_)));
    of_bools.then(|| written(draft, p, q, r, clause))?
}

/// The base's property line at other offsets.
fn fails(draft: &mut Draft, offsets: fn(u8) -> Range<u8>) -> Option<u16> {
    let offsets = offsets(draft.depth).map(u16::from);
    let property = draft.node.property;
    let literals: Vec<u16> = offsets.map(|q| opp(lit(property, q))).collect();
    draft.add(Line::property(0, &literals))
}

/// A clause of this operator at offset 0, as the base has it; in the step that
/// of 12 is wrong unless a is b.
fn with_first(random: &mut Random, draft: &mut Draft, operator: u8) -> Option<u16> {
    let (p, r) = (one_of(random, draft, [operator])?, random.below(2));
    let listed = clauses(&draft.node.records, Part::Base, p, 0);
    chosen_otherwise(draft, p).then(|| written(draft, p, 0, r, &listed[r]))?
}

/// A clause of this operator at offset 0, as the step has that of 12; in the
/// base it is wrong unless a is b.
fn with_later(random: &mut Random, draft: &mut Draft, operator: u8) -> Option<u16> {
    let (p, r) = (one_of(random, draft, [operator])?, random.below(2));
    let listed = as_later(&draft.node.records, p);
    chosen_otherwise(draft, p).then(|| written(draft, p, 0, r, &listed[r]))?
}

/// Whether a stream's operands differ.
fn chosen_otherwise(draft: &Draft, p: u16) -> bool {
    let record = draft.node.records[usize::from(p)];
    record.a != record.b
}

/// A clause of operator 12 at step offset 0 under the other one's number.
fn exchanged(random: &mut Random, draft: &mut Draft) -> Option<u16> {
    let (p, r) = (one_of(random, draft, [12])?, random.below(2));
    let listed = clauses(&draft.node.records, Part::Step, p, 0);
    written(draft, p, 0, 1 - r, &listed[r])
}

/// Operator 12 has two clauses.
fn third(random: &mut Random, draft: &mut Draft) -> Option<u16> {
    let p = one_of(random, draft, [12])?;
    let listed = clauses(&draft.node.records, Part::Step, p, 0);
    let r = random.of([2, 3]);
    written(draft, p, 0, r, &listed[r % 2])
}
