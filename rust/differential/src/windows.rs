//! False turns of the windows: whole arguments for properties that fail, each
//! right but for the instants that its base covers or its step begins at.
//!
//! The property is what a stream was k instants before, and true before that.

use crate::clauses::{clauses, Item};
use crate::delays::delay;
use crate::draft::Draft;
use crate::forge::written;
use crate::prove::refute;
use crate::random::Random;
use reference::build::{lit, opp, NodeFile, Record, BOOL};
use reference::certificate::Part;

/// 0 is true, 1 is false, and the property is what the last of these was.
fn delayed(more: &[Record], k: u8) -> NodeFile {
    let mut records = [1, 0].map(|k| Record::constant(BOOL, k)).to_vec();
    records.extend(more);
    let property = delay(&mut records, 0, k);
    NodeFile::new(records, property)
}

/// 2 is true -> false, or pre false: the property fails at instant k + 1.
pub fn first_node(random: &mut Random, k: u8) -> NodeFile {
    let arrow = random.of([Record::arrow, Record::arrow_pre]);
    delayed(&[arrow(BOOL, 0, 1)], k)
}

/// "treating step offset 0 as instant 0".
pub fn first(draft: &mut Draft) -> Option<u16> {
    if draft.part() == Part::Base {
        refute(draft)?;
        return None;
    }
    let line = led_back(draft)?;
    let listed = clauses(&draft.node.records, Part::Base, 2, 0);
    let line = struck(draft, line, &listed[1])?;
    true_after_all(draft, line)
}

/// 2 is false -> true, 3 is true -> pre 2: the property fails at instant k + 1,
/// since 3 fails at instant 1.
pub fn before_node(k: u8) -> NodeFile {
    delayed(
        &[Record::arrow(BOOL, 1, 0), Record::arrow_pre(BOOL, 0, 2)],
        k,
    )
}

/// Operator 13 at step offset 0 taken for 12: b at that offset and not before.
pub fn before(draft: &mut Draft) -> Option<u16> {
    if draft.part() == Part::Base {
        refute(draft)?;
        return None;
    }
    let line = led_back(draft)?;
    let listed = as_later(&draft.node.records, 3);
    let line = struck(draft, line, &listed[1])?;
    let later = draft.equation(2, 0, 1)?;
    let line = draft.strike(line, opp(lit(2, 0)), later)?;
    true_after_all(draft, line)
}

/// 2 is false -> true: the property fails at instant k and never else.
pub fn short_node(k: u8) -> NodeFile {
    delayed(&[Record::arrow(BOOL, 1, 0)], k)
}

/// A base that ends at k − 1, and a step that begins after the first instant:
/// no one looks at instant k. The draft's base ends so.
pub fn short(draft: &mut Draft) -> Option<u16> {
    refute(draft)?;
    None
}

/// The clauses of an operator 12 or 13 at offset 0, as if it were 12 and
/// offset 0 were no first instant.
pub fn as_later(records: &[Record], p: u16) -> Vec<Vec<Item>> {
    let mut records = records.to_vec();
    records[usize::from(p)].operator = 12;
    clauses(&records, Part::Step, p, 0)
}

/// Adds the step's lines from the property, which fails, back to the stream
/// that is delayed: it fails at offset 0.
fn led_back(draft: &mut Draft) -> Option<u16> {
    let mut line = draft.fails()?;
    for j in (1..=draft.depth).rev() {
        let stream = draft.node.property - u16::from(draft.depth - j);
        let before = draft.equation(stream, j, 1)?;
        line = draft.strike(line, opp(lit(stream, j.into())), before)?;
    }
    Some(line)
}

/// Adds a forged clause 1 of the delayed stream at offset 0, and the line
/// without that stream.
fn struck(draft: &mut Draft, line: u16, forged: &[Item]) -> Option<u16> {
    let stream = draft.node.property - u16::from(draft.depth);
    let forged = written(draft, stream, 0, 1, forged)?;
    draft.strike(line, opp(lit(stream, 0)), forged)
}

/// Adds the line without !0: it is empty.
fn true_after_all(draft: &mut Draft, line: u16) -> Option<u16> {
    let truth = draft.equation(0, 0, 0)?;
    draft.strike(line, opp(lit(0, 0)), truth)?;
    None
}
