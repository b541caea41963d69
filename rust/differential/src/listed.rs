//! Listed nodes: random ones, some with counters that are held between two
//! constants, and tables of ranges that follow from those of their inputs.
//! What grows past the limit is made a lesser or a greater.

use crate::nodes::{self, Taste};
use crate::random::Random;
use crate::ranges::{results, Range, LIMIT, WHOLE};
use crate::reorder::renumbering;
use reference::build::{NodeFile, Record, BOOL, INT};

/// Further than any end that a table may have.
const FAR: i128 = 1_000_000_000_000_000;
/// How many records a held counter has.
const HELD: usize = 6;

/// A node and a table of ranges that lists it.
#[derive(Clone, Debug)]
pub struct Listed {
    /// The node.
    pub node: NodeFile,
    /// The ends of each stream.
    pub ends: Vec<[i64; 2]>,
}

impl Listed {
    /// The table as it is given.
    pub fn table(&self) -> &[i64] {
        self.ends.as_flattened()
    }

    /// One number an input: at an end of its range as often as not.
    pub fn inputs(&self, random: &mut Random) -> Vec<i64> {
        let streams = self.node.records.iter().zip(&self.ends);
        let inputs = streams.filter(|(record, _)| record.operator == 0);
        let drawn = inputs.map(|(record, ends)| match record.type_byte {
            BOOL => i64::from(random.byte() & 1),
            _ => number(random, *ends),
        });
        drawn.collect()
    }
}

/// A number in a range.
fn number(random: &mut Random, [least, greatest]: [i64; 2]) -> i64 {
    let any = least + random.below((greatest - least) as usize + 1) as i64;
    random.of([least, greatest, any, any])
}

/// What is known of each stream's range; nothing of bools.
type Known = Vec<Option<Range>>;

/// A listed node of up to this size.
pub fn listed(random: &mut Random, size: usize) -> Listed {
    loop {
        let mut node = drawn(random, size);
        let given = given(random, &node.records);
        if let Some(known) = within_limit(random, &mut node.records, &given) {
            let known = loosened(random, &node.records, known);
            let ends = known.into_iter().map(ends).collect();
            return Listed { node, ends };
        }
    }
}

/// The ends of a range that is within the limit, 0 and 0 for a bool.
fn ends(range: Option<Range>) -> [i64; 2] {
    range.map_or([0, 0], |range| [range.least as i64, range.greatest as i64])
}

/// A node, with held counters where there is room for them.
fn drawn(random: &mut Random, size: usize) -> NodeFile {
    let mut taste = Taste::any(random);
    taste.size = taste.size.min(size);
    taste.ints = random.of([5, 8, 9]);
    taste.inputs = 10;
    taste.reordered = false;
    let mut node = nodes::node(random, taste);
    for _ in 0..random.below(3) {
        if node.records.len() + HELD <= size {
            add_held(random, &mut node.records);
        }
    }
    if random.once_in(2) {
        return renumbering(random, &node).node(&node);
    }
    node
}

/// Adds a level that changes by some int stream and is held between two
/// constants.
fn add_held(random: &mut Random, records: &mut Vec<Record>) {
    let types: Vec<u8> = records.iter().map(|record| record.type_byte).collect();
    let ints = nodes::streams(&types, types.len(), INT);
    let Some(step) = random.pick(&ints) else {
        return;
    };
    let first = records.len() as u16;
    let [low, high, level, moved, half, held] = std::array::from_fn(|i| first + i as u16);
    let [least, greatest] = constants(random);
    let up = random.of([Record::sum, Record::difference]);
    records.extend([
        Record::constant(INT, least),
        Record::constant(INT, greatest),
        Record::arrow_pre(INT, random.of([low, high]), held),
        up(level, step),
    ]);
    records.extend(match random.below(2) {
        0 => [Record::greater(moved, low), Record::lesser(high, half)],
        _ => [Record::lesser(moved, high), Record::greater(low, half)],
    });
}

/// Two constants, the lesser first.
fn constants(random: &mut Random) -> [i32; 2] {
    let size = random.of([1, 10, 1_000, 1_000_000_000]);
    let mut drawn = [0; 2].map(|_| random.within(0, 2 * size) as i32 - size as i32);
    drawn.sort_unstable();
    drawn
}

/// The ranges of int inputs.
fn given(random: &mut Random, records: &[Record]) -> Known {
    let of = |record: &Record| {
        let is_int_input = (record.operator, record.type_byte) == (0, INT);
        is_int_input.then(|| Range::of(any_ends(random)))
    };
    records.iter().map(of).collect()
}

/// A range: small ones as often as large ones, single numbers, and all there
/// are.
fn any_ends(random: &mut Random) -> [i64; 2] {
    let near = |random: &mut Random| random.within(0, 40) as i64 - 20;
    let far = |random: &mut Random| random.spread() % (LIMIT + 1);
    let mut ends = match random.below(8) {
        0 => [-LIMIT, LIMIT],
        1 => [0, random.of([1, LIMIT])],
        2 => [near(random); 2],
        3 | 4 => [far(random), far(random)],
        _ => [near(random), near(random)],
    };
    ends.sort_unstable();
    ends
}

/// Ranges that hold what their records give and are within the limit, where
/// records that give more are mended; nothing if some cannot be.
fn within_limit(random: &mut Random, records: &mut [Record], given: &Known) -> Option<Known> {
    loop {
        let mut known = closed(records, given.clone());
        narrow(records, &mut known);
        if is_within(&known) {
            return Some(known);
        }
        mend(random, records, &known)?;
    }
}

fn is_within(known: &Known) -> bool {
    known.iter().flatten().all(|range| WHOLE.holds(*range))
}

/// What a record gives, of ends further than any only that they are.
fn next(record: &Record, known: &Known) -> Option<Range> {
    let is_int = record.type_byte == INT;
    let given = is_int.then(|| results(record, |stream| known[usize::from(stream)]))?;
    given.map(|range| {
        let [least, greatest] = [range.least, range.greatest].map(|end| end.clamp(-FAR, FAR));
        Range::new(least, greatest)
    })
}

/// The ranges, wider until they hold what their records give. What is still
/// growing after many rounds becomes as wide as any.
fn closed(records: &[Record], mut known: Known) -> Known {
    let patience = 2 * records.len() + 8;
    for round in 0.. {
        let before = known.clone();
        for (own, record) in records.iter().enumerate() {
            let Some(given) = next(record, &known) else {
                continue;
            };
            let old = known[own].unwrap_or(given);
            let wider = old.joined(given);
            known[own] = Some(match round < patience || wider == old {
                true => wider,
                false => Range::new(-FAR, FAR),
            });
        }
        if known == before {
            break;
        }
    }
    known
}

/// The ranges, which hold what their records give, as much narrower as some
/// rounds make them.
fn narrow(records: &[Record], known: &mut Known) {
    for _ in 0..records.len() + 8 {
        for (own, record) in records.iter().enumerate() {
            if let Some(given) = next(record, known) {
                known[own] = Some(given);
            }
        }
    }
}

/// Makes a sum, a difference or a multiple past the limit an operator that
/// adds nothing.
fn mend(random: &mut Random, records: &mut [Record], known: &Known) -> Option<()> {
    let is_past = |own: &usize| {
        let past = known[*own].is_some_and(|range| !WHOLE.holds(range));
        past && matches!(records[*own].operator, 6..=8)
    };
    let past: Vec<usize> = (0..records.len()).filter(is_past).collect();
    let record = &mut records[random.pick(&past)?];
    match record.operator {
        8 => record.k = random.of([-1, 0, 1]),
        _ => record.operator = random.of([14, 15]),
    }
    Some(())
}

/// At times some ranges wider than need be, and those that rest on them.
fn loosened(random: &mut Random, records: &[Record], known: Known) -> Known {
    if random.once_in(2) {
        return known;
    }
    let mut looser = known.clone();
    for range in looser.iter_mut().flatten() {
        let mut more = || random.of([0, 0, 0, 0, 0, 1, 30, 1_000_000_000]);
        *range = Range::new(range.least - more(), range.greatest + more());
    }
    let looser = closed(records, looser);
    match is_within(&looser) {
        true => looser,
        false => known,
    }
}
