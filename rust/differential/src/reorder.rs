//! Nodes with their records in another order, and nodes for which there is no
//! order: operands needed now that lead back to their record.

use crate::random::Random;
use reference::build::renumber::Renumbering;
use reference::build::{NodeFile, Record};

/// Another order of a node's records: any, the last one first, the property
/// first, or two of them exchanged.
pub fn renumbering(random: &mut Random, node: &NodeFile) -> Renumbering {
    let size = node.records.len();
    let mut order: Vec<u16> = (0..size as u16).collect();
    match random.below(6) {
        0 => return Renumbering::reversed(size as u16),
        1 => return Renumbering::first(node.property, size as u16),
        2 => order.swap(random.below(size), random.below(size)),
        _ => random.shuffle(&mut order),
    }
    Renumbering::new(order)
}

/// Whether an operand needed now is not lower than its record.
pub fn is_reordered(records: &[Record]) -> bool {
    let mut numbered = (0u16..).zip(records);
    numbered.any(|(own, record)| record.needed_now().iter().any(|operand| *operand >= own))
}

/// An operand that a loop goes through.
#[derive(Clone, Copy, Debug, PartialEq, Eq, PartialOrd, Ord)]
pub struct Slot {
    /// The record's operator.
    pub operator: u8,
    /// 0, 1 and 2 are a, b and c.
    pub operand: usize,
}

/// A node that is right but for a loop, and for types along it.
#[derive(Clone, Debug)]
pub struct Looped {
    /// The node.
    pub node: NodeFile,
    /// An operand on the loop.
    pub slot: Slot,
    /// How many streams are on the loop, on the shortest through the operand.
    pub length: usize,
}

/// The node with an operand needed now that leads back to its record, and at
/// times with a record more that waits for it. Nothing if no record has
/// operands needed now.
pub fn looped(random: &mut Random, node: &NodeFile) -> Option<Looped> {
    let mut node = node.clone();
    let numbered = (0u16..).zip(&node.records);
    let reading = numbered.filter(|(_, record)| !record.needed_now().is_empty());
    let reading: Vec<u16> = reading.map(|(own, _)| own).collect();
    // Of several the one that the longest chain leads to: else long loops are rare.
    let tried = (0..random.of([1, 6])).filter_map(|_| random.pick(&reading));
    let own = tried.max_by_key(|own| steps_to(&node.records, *own).into_iter().max())?;
    let to = leading(random, &node.records, own);
    let slot = changed(random, &mut node.records[usize::from(own)], to);
    if random.once_in(3) {
        let waiting = random.pick(&reading)?;
        changed(random, &mut node.records[usize::from(waiting)], own);
    }
    let to = node.records[usize::from(own)].operands()[slot.operand];
    let length = 1 + steps_to(&node.records, own)[usize::from(to)]?;
    Some(Looped { node, slot, length })
}

/// A record from which operands needed now lead to this one, or itself: any,
/// or as often the one that is furthest off.
fn leading(random: &mut Random, records: &[Record], own: u16) -> u16 {
    let steps = steps_to(records, own);
    let leads = |i: &u16| steps[usize::from(*i)].is_some();
    let mut leading: Vec<u16> = (0..records.len() as u16).filter(leads).collect();
    leading.sort_by_key(|i| steps[usize::from(*i)]);
    match random.below(2) {
        0 => leading[random.below(leading.len())],
        _ => leading[leading.len() - 1],
    }
}

/// Makes one of a record's operands needed now this stream.
fn changed(random: &mut Random, record: &mut Record, to: u16) -> Slot {
    let mut operands = record.operands();
    let operand = random.below(record.needed_now().len());
    operands[operand] = to;
    *record = record.with_operands(&operands);
    Slot {
        operator: record.operator,
        operand,
    }
}

/// How many operands needed now, at least, lead from each record to this one;
/// nothing where none do.
fn steps_to(records: &[Record], own: u16) -> Vec<Option<usize>> {
    let mut steps = vec![None; records.len()];
    steps[usize::from(own)] = Some(0);
    for taken in 0..records.len() {
        let is_next = |i: &usize| {
            let mut operands = records[*i].needed_now().into_iter();
            steps[*i].is_none() && operands.any(|o| steps[usize::from(o)] == Some(taken))
        };
        let next: Vec<usize> = (0..records.len()).filter(is_next).collect();
        if next.is_empty() {
            break;
        }
        next.into_iter().for_each(|i| steps[i] = Some(taken + 1));
    }
    steps
}

/// Whether operands needed now lead from a record back to it.
pub fn is_on_loop(records: &[Record], own: u16) -> bool {
    let steps = steps_to(records, own);
    let mut operands = records[usize::from(own)].needed_now().into_iter();
    operands.any(|operand| steps[usize::from(operand)].is_some())
}

/// The records from which chains of operands needed now go on for ever: those
/// that no order places.
pub fn never_placed(records: &[Record]) -> Vec<u16> {
    let mut left: Vec<u16> = (0..records.len() as u16).collect();
    for _ in records {
        let goes_on = |own: &u16| {
            let mut operands = records[usize::from(*own)].needed_now().into_iter();
            operands.any(|operand| left.contains(&operand))
        };
        left = left.iter().copied().filter(goes_on).collect();
    }
    left
}
