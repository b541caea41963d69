//! Tables of ranges with something off: each way makes of a table that lists
//! its node one that is refused, or passes it by. Some make another that
//! lists it too.

use crate::listed::Listed;
use crate::random::Random;
use crate::ranges::{answer, results, Range, LIMIT};
use reference::build::{BOOL, INT};
use std::collections::BTreeSet;

/// Spoils a table; nothing if it can't.
type Spoil = fn(&mut Random, &Listed, &mut Vec<i64>) -> Option<()>;

/// A way to spoil a table.
pub struct Way {
    /// What is off.
    pub name: &'static str,
    /// The number that refuses it; 0 where it still lists the node.
    pub number: u8,
    spoil: Spoil,
}

impl Way {
    const fn new(name: &'static str, number: u8, spoil: Spoil) -> Self {
        Way {
            name,
            number,
            spoil,
        }
    }
}

/// The place of a least or a greatest number.
const ENDS: [usize; 2] = [0, 1];

/// All ways.
pub const WAYS: [Way; 21] = [
    Way::new("no wider than the results", 0, |r, l, t| as_given(r, l, t)),
    Way::new("at the limit", 0, |r, l, t| at_the_limit(r, l, t)),
    Way::new("least one up", 72, |r, l, t| own_end(r, l, t, 0)),
    Way::new("greatest one down", 72, |r, l, t| own_end(r, l, t, 1)),
    Way::new("an operand's least one down", 72, |r, l, t| {
        operand_end(r, l, t, 0)
    }),
    Way::new("an operand's greatest one up", 72, |r, l, t| {
        operand_end(r, l, t, 1)
    }),
    Way::new("two not inside", 72, |random, listed, table| {
        own_end(random, listed, table, 0)?;
        own_end(random, listed, table, 1)?;
        is_refused(listed, table, 72)
    }),
    Way::new("an int's ends both 0", 72, |random, listed, table| {
        let i = stream(random, listed, INT)?;
        set(table, i, [0, 0]);
        is_refused(listed, table, 72)
    }),
    Way::new("ends exchanged", 71, |random, listed, table| {
        let i = stream(random, listed, INT)?;
        table.swap(2 * i, 2 * i + 1);
        (listed.ends[i][0] < listed.ends[i][1]).then_some(())
    }),
    Way::new("least one over greatest", 71, |random, listed, table| {
        let i = stream(random, listed, INT)?;
        table[2 * i] = listed.ends[i][1] + 1;
        Some(())
    }),
    Way::new("greatest past the limit", 71, |random, listed, table| {
        let i = stream(random, listed, INT)?;
        table[2 * i + 1] = random.of([LIMIT + 1, LIMIT + 1, 1 << 32, i64::MAX]);
        Some(())
    }),
    Way::new("least past the limit", 71, |random, listed, table| {
        let i = stream(random, listed, INT)?;
        table[2 * i] = random.of([-LIMIT - 1, -LIMIT - 1, -1 << 32, i64::MIN]);
        Some(())
    }),
    Way::new("both past the limit", 71, |random, listed, table| {
        let i = stream(random, listed, INT)?;
        let past = random.of([LIMIT + 1, -LIMIT - 1, i64::MIN, i64::MAX]);
        set(table, i, [past, past]);
        Some(())
    }),
    Way::new("a bool's least", 71, |r, l, t| of_bool(r, l, t, &[0])),
    Way::new("a bool's greatest", 71, |r, l, t| of_bool(r, l, t, &[1])),
    Way::new("a bool's both", 71, |r, l, t| of_bool(r, l, t, &ENDS)),
    Way::new("not inside, and reversed after", 71, |r, l, t| {
        own_end(r, l, t, 0)?;
        let i = stream(r, l, INT)?;
        set(t, i, [1, 0]);
        Some(())
    }),
    Way::new("one number less", 71, |_, _, table| table.pop().map(drop)),
    Way::new("one number more", 71, |random, _, table| {
        table.push(random.of([0, 1]));
        Some(())
    }),
    Way::new("one stream less or more", 71, |random, _, table| {
        match random.below(2) {
            0 => table.truncate(table.len() - 2),
            _ => table.extend([0, 0]),
        }
        Some(())
    }),
    Way::new("another length", 71, |random, _, table| {
        let length = random.of([0, 1, 128, 130, table.len() / 2, 2 * table.len()]);
        let other = length != table.len();
        table.resize(length, 0);
        other.then_some(())
    }),
];

/// The table spoiled in one way, if it has what the way needs.
pub fn spoiled(random: &mut Random, listed: &Listed, way: &Way) -> Option<Vec<i64>> {
    let mut table = listed.table().to_vec();
    (way.spoil)(random, listed, &mut table)?;
    Some(table)
}

fn set(table: &mut [i64], stream: usize, ends: [i64; 2]) {
    table[2 * stream..2 * stream + 2].copy_from_slice(&ends);
}

/// Whether the table is refused so; a way that only may spoil asks it.
fn is_refused(listed: &Listed, table: &[i64], number: u8) -> Option<()> {
    let refusal = answer(&listed.node, table).err()?;
    (refusal.number == number).then_some(())
}

/// A stream of this type, if there is one.
fn stream(random: &mut Random, listed: &Listed, wanted: u8) -> Option<usize> {
    let records = listed.node.records.iter().enumerate();
    let fitting = records.filter(|(_, record)| record.type_byte == wanted);
    random.pick(&fitting.map(|(i, _)| i).collect::<Vec<_>>())
}

/// An int stream that is no input, if there is one: each operator that there
/// is as often as any other.
fn subject(random: &mut Random, listed: &Listed) -> Option<usize> {
    let records = || {
        let numbered = listed.node.records.iter().enumerate();
        numbered.filter(|(_, record)| record.type_byte == INT && record.operator > 0)
    };
    let operators: BTreeSet<u8> = records().map(|(_, record)| record.operator).collect();
    let operator = random.pick(&Vec::from_iter(operators))?;
    let fitting = records().filter(|(_, record)| record.operator == operator);
    random.pick(&fitting.map(|(i, _)| i).collect::<Vec<_>>())
}

/// What a stream's record gives.
fn given(listed: &Listed, own: usize) -> Option<[i64; 2]> {
    let range = |stream: u16| Some(Range::of(listed.ends[usize::from(stream)]));
    let given = results(&listed.node.records[own], range)?;
    Some([given.least as i64, given.greatest as i64])
}

/// A range that is just what its record gives; those of streams that read it
/// are no less right for it.
fn as_given(random: &mut Random, listed: &Listed, table: &mut [i64]) -> Option<()> {
    let own = subject(random, listed)?;
    set(table, own, given(listed, own)?);
    Some(())
}

/// The ends of a range that no int stream rests on at the limit.
fn at_the_limit(random: &mut Random, listed: &Listed, table: &mut [i64]) -> Option<()> {
    let own = stream(random, listed, INT)?;
    let records = listed.node.records.iter();
    let ints = records.filter(|record| record.type_byte == INT);
    let free = !ints.clone().any(|r| r.operands().contains(&(own as u16)));
    set(table, own, [-LIMIT, LIMIT]);
    free.then_some(())
}

/// One end of a range such that it just misses what its record gives, if it
/// does not give less then; the other end gives way.
fn own_end(random: &mut Random, listed: &Listed, table: &mut [i64], end: usize) -> Option<()> {
    let own = subject(random, listed)?;
    let off = given(listed, own)?[end] + [1, -1][end];
    let place = 2 * own;
    table[place + end] = off;
    table[place] = table[place].min(off);
    table[place + 1] = table[place + 1].max(off);
    is_refused(listed, table, 72)
}

/// The range of an operand one wider at an end, if some range is then too
/// narrow.
fn operand_end(random: &mut Random, listed: &Listed, table: &mut [i64], end: usize) -> Option<()> {
    let own = subject(random, listed)?;
    let operands = listed.node.records[own].operands();
    let operand = usize::from(random.pick(&operands)?);
    table[2 * operand + end] += [-1, 1][end];
    is_refused(listed, table, 72)
}

/// A bool stream with these ends not 0.
fn of_bool(random: &mut Random, listed: &Listed, table: &mut [i64], ends: &[usize]) -> Option<()> {
    let own = stream(random, listed, BOOL)?;
    let number = random.of([1, -1, i64::MIN, 1 << 32]);
    ends.iter().for_each(|end| table[2 * own + end] = number);
    Some(())
}
