//! Random nodes with tables: 72 is given just where some choice of values
//! leaves a range, and a listed node's values stay inside when it runs.

mod common;
#[path = "common/intervals.rs"]
mod intervals;

use intervals::{lies_inside, results, Ends, MOST};
use reference::answer::Place::Record as At;
use reference::answer::Refusal;
use reference::build::random::{self, Random};
use reference::build::renumber::Renumbering;
use reference::build::{NodeFile, Record, BOOL, INT};
use reference::ranges::check;
use reference::session::{begin, instant, Record as Session};
use std::collections::BTreeMap;

/// The widest range.
const ALL: Ends = [-MOST, MOST];

/// A number from `least` on, up to `greatest`.
fn within(random: &mut Random, [least, greatest]: Ends) -> i64 {
    let count = usize::try_from(greatest - least + 1).unwrap();
    least + i64::try_from(random.below(count)).unwrap()
}

/// A range inside another.
fn range(random: &mut Random, outer: Ends) -> Ends {
    let mut ends = [0, 1].map(|_| within(random, outer));
    ends.sort_unstable();
    ends
}

/// The node and its ranges, records in some other order.
fn shuffled(random: &mut Random, node: &NodeFile, ranges: &[Ends]) -> (NodeFile, Vec<Ends>) {
    let count = u16::try_from(node.records.len()).unwrap();
    let other = Renumbering::random(random, count);
    let column = |end: usize| other.values(&ranges.iter().map(|r| r[end]).collect::<Vec<_>>());
    let ends = column(0).into_iter().zip(column(1));
    (other.node(node), ends.map(|(l, g)| [l, g]).collect())
}

/// Every result of an int record that is not an input, for every choice of its
/// operands' values, each by itself.
fn every_result(record: &Record, ranges: &[Ends]) -> Vec<i64> {
    let values = |stream: u16| {
        let [least, greatest] = ranges[usize::from(stream)];
        least..=greatest
    };
    let k = i64::from(record.k);
    let mut results = Vec::new();
    for a in values(record.a) {
        for b in values(record.b) {
            match record.operator {
                0 => {}
                1 => results.push(k),
                6 => results.push(a + b),
                7 => results.push(a - b),
                8 => results.push((0..k.abs()).map(|_| a * k.signum()).sum()),
                11..=13 => results.extend([a, b]),
                14 => results.push(if a <= b { a } else { b }),
                _ => results.push(if a <= b { b } else { a }),
            }
        }
    }
    results
}

/// A node of a few records, with small constants.
fn small_ints(random: &mut Random) -> NodeFile {
    let size = 4 + random.below(5);
    let mut node = random::node(random, size);
    for record in &mut node.records {
        if record.type_byte == INT {
            record.k %= 4;
        }
    }
    node
}

/// A range for each stream, those of most records the least they may be or one
/// off at an end.
fn few_values(random: &mut Random, node: &NodeFile) -> Vec<Ends> {
    let mut ranges: Vec<Ends> = Vec::new();
    for record in &node.records {
        ranges.push(match record.type_byte {
            BOOL => [0, 0],
            _ => {
                let least = within(random, [-5, 5]);
                [least, least + within(random, [0, 3])]
            }
        });
    }
    for (i, record) in node.records.iter().enumerate() {
        let all = every_result(record, &ranges);
        let (Some(least), Some(greatest)) = (all.iter().min(), all.iter().max()) else {
            continue;
        };
        if record.type_byte == INT && greatest - least < 12 {
            let ends = [least, greatest].map(|end| end + random.pick(&OFF).unwrap());
            ranges[i] = [ends[0].min(ends[1]), ends[0].max(ends[1])];
        }
    }
    ranges
}

/// How far an end is off.
const OFF: [i64; 8] = [0, 0, 0, 0, 0, 0, 1, -1];

/// The lowest record that has a result outside its range.
fn first_outside(node: &NodeFile, ranges: &[Ends]) -> Option<usize> {
    let mut numbered = node.records.iter().zip(ranges);
    numbered.position(|(record, [least, greatest])| {
        let all = every_result(record, ranges);
        let outside = |result: &i64| result < least || greatest < result;
        record.type_byte == INT && all.iter().any(outside)
    })
}

#[test]
fn a_range_is_kept_just_where_every_choice_of_values_keeps_it() {
    let mut random = Random::new(71);
    let mut accepted = 0;
    let mut at: BTreeMap<u8, usize> = BTreeMap::new();
    for _ in 0..20_000 {
        let node = small_ints(&mut random);
        let ranges = few_values(&mut random, &node);
        let (node, ranges) = shuffled(&mut random, &node, &ranges);
        let verdict = check(&node.bytes(), ranges.as_flattened());
        match first_outside(&node, &ranges) {
            Some(i) => {
                assert_eq!(verdict, Err(Refusal::new(72, At(i))));
                *at.entry(node.records[i].operator).or_default() += 1;
            }
            None => {
                assert_eq!(verdict, Ok(()));
                accepted += 1;
            }
        }
    }
    assert!(accepted > 2_000, "{accepted}");
    // Every operator was at fault.
    for operator in [1, 6, 7, 8, 11, 12, 13, 14, 15] {
        assert!(at[&operator] > 200, "{at:?}");
    }
}

/// Ranges of the inputs, up to a size that is the same for all; 0 elsewhere.
fn input_ranges(random: &mut Random, node: &NodeFile) -> Vec<Ends> {
    let sizes = [3, 1_000, 1_000_000, MOST / 8, MOST / 2, MOST];
    let size = random.pick(&sizes).unwrap();
    let of = |record: &Record| match (record.operator, record.type_byte) {
        (0, INT) if random.below(3) == 0 => [-size, size],
        (0, INT) => range(random, [-size, size]),
        _ => [0, 0],
    };
    node.records.iter().map(of).collect()
}

/// A table for the node, if one within the limits is found: each range is at
/// first what its operator gives, at times with some slack, and then grows
/// until all results lie inside.
fn table(random: &mut Random, node: &NodeFile) -> Option<Vec<Ends>> {
    let mut ranges = input_ranges(random, node);
    for round in 0..40 {
        let before = ranges.clone();
        for (i, record) in node.records.iter().enumerate() {
            let Some([least, greatest]) = results(record, &ranges) else {
                continue;
            };
            let slack = random.pick(&[0, 0, 0, 1, 1_000]).unwrap();
            ranges[i] = match (round, ranges[i]) {
                (0, _) => [least - slack, greatest + slack],
                (_, own) => [own[0].min(least), own[1].max(greatest)],
            };
            if !lies_inside(ranges[i], ALL) {
                return None;
            }
        }
        if ranges == before {
            return Some(ranges);
        }
    }
    None
}

/// A random node and a table for it, records in some order.
fn listed(random: &mut Random) -> (NodeFile, Vec<Ends>) {
    loop {
        let size = 3 + random.below(22);
        let node = random::node(random, size);
        if let Some(ranges) = table(random, &node) {
            return shuffled(random, &node, &ranges);
        }
    }
}

/// Inputs for an instant, inside their ranges and often at an end.
fn inputs(random: &mut Random, node: &NodeFile, ranges: &[Ends]) -> Vec<i64> {
    let streams = node.records.iter().zip(ranges);
    let inputs = streams.filter(|(record, _)| record.operator == 0);
    inputs
        .map(|(record, ends)| match (record.type_byte, random.below(3)) {
            (BOOL, _) => random.input(BOOL),
            (_, 0) => within(random, *ends),
            _ => random.pick(ends).unwrap(),
        })
        .collect()
}

/// Runs a listed node on inputs inside their ranges; no call is refused, and
/// every int value is inside. Gives how many values were at an end of theirs.
fn run(random: &mut Random, node: &NodeFile, ranges: &[Ends], calls: usize) -> usize {
    let mut session = Session::new();
    begin(&mut session, &node.bytes()).unwrap();
    let mut values = vec![0; node.records.len()];
    let mut ends_met = 0;
    for _ in 0..calls {
        let inputs = inputs(random, node, ranges);
        assert_eq!(instant(&mut session, &inputs, &mut values), Ok(()));
        for ((record, ends), value) in node.records.iter().zip(ranges).zip(&values) {
            if record.type_byte == INT {
                assert!(lies_inside([*value; 2], *ends), "{value} of {ends:?}");
                ends_met += usize::from(record.operator != 0 && ends.contains(value));
            }
        }
    }
    ends_met
}

#[test]
fn a_listed_node_is_never_refused_and_keeps_its_ranges() {
    let mut random = Random::new(72);
    let (mut ends_met, mut widest) = (0, 0);
    let mut operators: BTreeMap<u8, usize> = BTreeMap::new();
    for _ in 0..6_000 {
        let (node, ranges) = listed(&mut random);
        assert_eq!(check(&node.bytes(), ranges.as_flattened()), Ok(()));
        ends_met += run(&mut random, &node, &ranges, 12);
        widest += usize::from(ranges.as_flattened().iter().any(|end| end.abs() == MOST));
        for record in node.records.iter().filter(|r| r.type_byte == INT) {
            *operators.entry(record.operator).or_default() += 1;
        }
    }
    assert!(ends_met > 50_000 && widest > 100, "{ends_met} {widest}");
    for operator in [0, 1, 6, 7, 8, 11, 12, 13, 14, 15] {
        assert!(operators[&operator] > 500, "{operators:?}");
    }
}

/// Changes a number of the table, mostly one of an int stream and by little.
fn damage(random: &mut Random, node: &NodeFile, table: &mut Vec<i64>) {
    let is_int = |at: &usize| node.records[at / 2].type_byte == INT;
    let ints: Vec<usize> = (0..table.len()).filter(is_int).collect();
    let at = match random.below(16) {
        0 => random.below(table.len()),
        _ => random.pick(&ints).unwrap_or(0),
    };
    let by = random.pick(&[1, -1]).unwrap();
    table[at] = match random.below(12) {
        0 => i64::from_le_bytes(random.bits().to_le_bytes()),
        1 => random.pick(&[i64::MIN, MOST + 1, -MOST - 1]).unwrap(),
        2 => random.pick(&[0, MOST, -MOST]).unwrap(),
        3 => table[at ^ 1] + by,
        4 => table[at ^ 1],
        _ => table[at] + by,
    };
    match random.below(40) {
        0 => table.truncate(at),
        1 => table.push(0),
        _ => {}
    }
}

/// Damaged tables, and ranges by chance, against the formulas.
#[test]
fn corners_and_formulas_agree() {
    let mut random = Random::new(73);
    let mut tally: BTreeMap<u8, usize> = BTreeMap::new();
    for i in 0..30_000 {
        let (node, mut ranges) = listed(&mut random);
        if i % 4 == 0 {
            for (record, ends) in node.records.iter().zip(&mut ranges) {
                if record.type_byte == INT {
                    *ends = range(&mut random, ALL);
                }
            }
        }
        let mut table = ranges.as_flattened().to_vec();
        damage(&mut random, &node, &mut table);
        let answer = check(&node.bytes(), &table);
        assert_eq!(answer, intervals::answer(&node, &table));
        let number = answer.map_or_else(|refusal| refusal.number, |()| 0);
        *tally.entry(number).or_default() += 1;
        if answer.is_ok() {
            run(&mut random, &node, table.as_chunks().0, 2);
        }
    }
    let met: Vec<u8> = tally.keys().copied().collect();
    assert_eq!(met, [0, 71, 72]);
    assert!(tally.values().all(|count| *count > 5_000), "{tally:?}");
}

/// Any bytes and any numbers are answered.
#[test]
fn any_file_and_any_table() {
    let mut random = Random::new(74);
    for _ in 0..20_000 {
        let (node, ranges) = listed(&mut random);
        let mut file = node.bytes();
        random::damage(&mut random, &mut file);
        let table = ranges.as_flattened();
        let own = reference::node::read(&file).err();
        let answer = check(&file, table).err();
        match answer.map(|refusal| refusal.number) {
            None | Some(71 | 72) => assert_eq!(own, None),
            Some(_) => assert_eq!(own, answer),
        }
    }
}
