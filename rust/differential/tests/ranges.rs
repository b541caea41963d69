//! All say the same of tables of ranges, right and wrong, and in a session on
//! a listed node with inputs inside their ranges nothing is too large.
//!
//! `DIFFERENTIAL_TABLES` and `DIFFERENTIAL_SEED` make a longer or another run;
//! with `--nocapture` the counts are shown.

use differential::checker::{Place, Record as Session, Refusal};
use differential::checkers::CHECKERS;
use differential::compare::{self, hex, Origin};
use differential::damage::{damage, Layout};
use differential::listed::{listed, Listed};
use differential::misranges::{spoiled, WAYS};
use differential::nodes;
use differential::random::Random;
use differential::ranges::{answer, results, Range};
use differential::reorder::is_reordered;
use differential::tally::Tally;
use reference::build::{NodeFile, INT};
use std::collections::BTreeMap;
use std::fmt;
use std::time::Instant;

/// The int operators that have a range of their own to keep.
const OPERATORS: [u8; 9] = [1, 6, 7, 8, 11, 12, 13, 14, 15];
/// How many listed nodes are run, and how many instants each.
const NODES: u64 = 6_000;
const INSTANTS: usize = 16;

/// A number given in the environment, or else this one.
fn wanted(name: &str, default: u64) -> u64 {
    let given = std::env::var(name).ok();
    given.and_then(|text| text.parse().ok()).unwrap_or(default)
}

/// The operator of a record that is not inside, and which of its ends are not.
type Outside = (u8, [bool; 2]);

/// What was met.
#[derive(Default)]
struct Met {
    tally: Tally,
    ways: BTreeMap<&'static str, u64>,
    outside: BTreeMap<Outside, u64>,
    reordered: u64,
}

impl Met {
    /// Compares all on a table for a right node, asks for the answer that is
    /// worked out here, and counts it. Gives the number.
    fn table(&mut self, origin: Origin, node: &NodeFile, file: &[u8], table: &[i64]) -> u8 {
        let said = compare::ranges(CHECKERS, origin, file, table);
        let expected = answer(node, table);
        assert_eq!(said, expected, "{origin:?}: {table:?}\n{}", hex(file));
        if let Err(Refusal {
            number: 72,
            place: Place::Record(own),
        }) = said
        {
            *self.outside.entry(outside(node, table, own)).or_default() += 1;
        }
        self.tally.answer(said);
        said.map_or_else(|refusal| refusal.number, |()| 0)
    }

    /// How often results of an operator were outside at this end.
    fn of(&self, operator: u8, end: usize) -> u64 {
        let own = self.outside.iter();
        let fitting = own.filter(|((op, ends), _)| *op == operator && ends[end]);
        fitting.map(|(_, count)| count).sum()
    }
}

impl fmt::Display for Met {
    fn fmt(&self, f: &mut fmt::Formatter<'_>) -> fmt::Result {
        let Met { tally, ways, .. } = self;
        write!(f, "{tally}; {ways:?}; 72 {:?}", self.outside)?;
        write!(f, "; {} nodes reordered", self.reordered)
    }
}

/// What a record that is not inside was met as.
fn outside(node: &NodeFile, table: &[i64], own: usize) -> Outside {
    let (ends, _) = table.as_chunks();
    let range = |stream: usize| Range::of(ends[stream]);
    let record = &node.records[own];
    let given = results(record, |stream| Some(range(stream.into()))).expect("an int's");
    let ends = [
        given.least < range(own).least,
        given.greatest > range(own).greatest,
    ];
    (record.operator, ends)
}

/// A listed node, and its file with or without a note.
fn drawn(random: &mut Random) -> (Listed, Vec<u8>) {
    let size = random.of([8, 16, 64]);
    let mut listed = listed(random, size);
    listed.node.note = nodes::note(random, 1_040);
    let file = listed.node.bytes();
    (listed, file)
}

/// Any table: mostly refused, and by which rule is not told.
fn any_table(random: &mut Random, listed: &Listed) -> Vec<i64> {
    let mut table = listed.table().to_vec();
    for _ in 0..random.within(1, 4) {
        let at = random.below(table.len());
        table[at] = match random.below(3) {
            0 => random.spread(),
            1 => table[at] + random.of([-1, 1]),
            _ => table[random.below(table.len())],
        };
    }
    table
}

#[test]
fn tables() {
    let all = wanted("DIFFERENTIAL_TABLES", 240_000);
    let (since, seed) = (Instant::now(), wanted("DIFFERENTIAL_SEED", 1));
    let mut met = Met::default();
    for case in 0.. {
        let origin = Origin { seed, case };
        let mut random = Random::of_case(seed ^ 17, case);
        let (listed, file) = drawn(&mut random);
        let own = met.table(origin, &listed.node, &file, listed.table());
        assert_eq!(own, 0, "{origin:?}: {listed:?}");
        met.reordered += u64::from(is_reordered(&listed.node.records));
        for way in &WAYS {
            let Some(table) = spoiled(&mut random, &listed, way) else {
                continue;
            };
            let number = met.table(origin, &listed.node, &file, &table);
            assert_eq!(number, way.number, "{origin:?}: {}", way.name);
            *met.ways.entry(way.name).or_default() += 1;
        }
        let table = any_table(&mut random, &listed);
        met.table(origin, &listed.node, &file, &table);
        let mut wrong = file.clone();
        damage(&mut random, Layout::of_node(&file), &mut wrong);
        let said = compare::ranges(CHECKERS, origin, &wrong, &table);
        met.tally.answer(said);
        if met.tally.total >= all {
            break;
        }
    }
    let seconds = since.elapsed().as_secs_f64();
    println!("tables, seed {seed}, {seconds:.1} s: {met}");
    enough(&met, all);
}

/// Each answer, each way and each end of each operator was met often enough.
fn enough(met: &Met, all: u64) {
    let tally = &met.tally;
    assert!(tally.of(0) >= all / 20, "{tally}");
    assert!(tally.of(71) >= all / 4, "{tally}");
    assert!(tally.of(72) >= all / 10, "{tally}");
    for number in (1..=8).chain([23]) {
        assert!(tally.of(number) >= all / 20_000, "{number}: {tally}");
    }
    for way in &WAYS {
        let often = met.ways.get(way.name);
        assert!(often >= Some(&(all / 100)), "{}: {often:?}", way.name);
    }
    for operator in OPERATORS {
        for end in [0, 1] {
            let often = met.of(operator, end);
            assert!(often >= all / 400, "{operator}, {end}: {often}");
        }
    }
    assert!(met.reordered >= all / 200, "{}", met.reordered);
}

/// What was met in sessions.
#[derive(Debug, Default)]
struct Runs {
    answered: u64,
    /// Nodes on which operator 13 came to both ends of its range.
    both_ends: u64,
    /// Trials with all ints far outside that were answered, and so held.
    held: u64,
    /// Those that were refused with 34.
    too_much: u64,
}

/// Inputs inside their ranges: every instant's call is answered, every trial
/// with its commit too, and every int value is in its range. What is far
/// outside may be too much; where it is only tried it does not count.
#[test]
fn inside_their_ranges() {
    let mut runs = Runs::default();
    for case in 0..NODES {
        let origin = Origin { seed: 18, case };
        let mut random = Random::of_case(18, case);
        let (listed, file) = drawn(&mut random);
        let mut session = Session::new();
        let begun = compare::begin(CHECKERS, origin, &mut session, &file);
        assert_eq!(begun, Ok(()), "{origin:?}");
        let mut values = vec![0; listed.ends.len()];
        let mut reached = vec![[false; 2]; listed.ends.len()];
        for _ in 0..INSTANTS {
            if random.once_in(4) {
                let inputs = far_outside(&mut random, &listed);
                let said = compare::trial(CHECKERS, origin, &mut session, &inputs, &mut values);
                runs.outside(said);
            }
            let inputs = listed.inputs(&mut random);
            let said = committed(origin, &mut random, &mut session, &inputs, &mut values);
            assert_eq!(said, Ok(()), "{origin:?}: {inputs:?} {listed:?}");
            inside(origin, &listed, &values);
            runs.answered += 1;
            for (own, value) in values.iter().enumerate() {
                let met = listed.ends[own].map(|end| end == *value);
                reached[own] = [0, 1].map(|end| reached[own][end] || met[end]);
            }
        }
        runs.both_ends += u64::from(has_both_ends(&listed, &reached));
    }
    println!("inside their ranges: {runs:?}");
    assert_eq!(runs.answered, NODES * INSTANTS as u64);
    assert!(runs.both_ends >= NODES / 20, "{runs:?}");
    assert!(runs.too_much >= NODES / 20, "{runs:?}");
    assert!(runs.held >= NODES / 20, "{runs:?}");
}

/// Whether operator 13 came to both ends of a range of more than one number.
fn has_both_ends(listed: &Listed, reached: &[[bool; 2]]) -> bool {
    let mut streams = listed.node.records.iter().zip(reached).zip(&listed.ends);
    streams.any(|((record, reached), ends)| {
        (record.operator, record.type_byte) == (13, INT)
            && *reached == [true; 2]
            && ends[0] < ends[1]
    })
}

impl Runs {
    /// Counts a trial far outside.
    fn outside(&mut self, said: Result<(), Refusal>) {
        self.held += u64::from(said.is_ok());
        self.too_much += u64::from(said.is_err_and(|refusal| refusal.number == 34));
    }
}

/// An instant's call, or a trial and its commit.
fn committed(
    origin: Origin,
    random: &mut Random,
    session: &mut Session,
    inputs: &[i64],
    values: &mut [i64],
) -> Result<(), Refusal> {
    if random.once_in(2) {
        return compare::instant(CHECKERS, origin, session, inputs, values);
    }
    compare::trial(CHECKERS, origin, session, inputs, values)?;
    compare::commit(CHECKERS, origin, session)
}

/// Every int value is in its range.
fn inside(origin: Origin, listed: &Listed, values: &[i64]) {
    let streams = listed.node.records.iter().zip(&listed.ends).zip(values);
    for (own, ((record, [least, greatest]), value)) in streams.enumerate() {
        let inside = record.type_byte != INT || (least..=greatest).contains(&value);
        assert!(inside, "{origin:?}: {own} is {value}: {listed:?}");
    }
}

/// Inputs that are all far outside, of ints.
fn far_outside(random: &mut Random, listed: &Listed) -> Vec<i64> {
    let records = listed.node.records.iter();
    let inputs = records.filter(|record| record.operator == 0);
    let far = inputs.map(|record| match record.type_byte {
        INT => random.of([i64::MIN, i64::MAX]),
        _ => 1,
    });
    far.collect()
}
