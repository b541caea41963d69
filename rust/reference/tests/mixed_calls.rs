//! Trials, commits, old calls and beginnings in any mix, refused ones in
//! between: values and records are those of the committed inputs.

#[path = "common/calls.rs"]
mod calls;
#[path = "common/folders.rs"]
mod folders;

use calls::Call::{self, Begin, Commit, Instant, Trial};
use calls::{answer, begun, draw, holding, padded, past};
use folders::{all, named, Folder};
use reference::answer::Refusal;
use reference::build::random::{self, Random};
use reference::build::renumber::Renumbering;
use reference::build::{NodeFile, Record as R, INT};
use reference::certificate::check;
use reference::node::{self, Type};
use reference::session::{begin, Record};
use std::collections::BTreeMap;

/// A session beside one of old calls alone, on the committed inputs.
#[derive(Clone)]
struct Beside {
    mixed: Record,
    committed: Record,
    /// The second one moved on by the held trial's inputs.
    held: Option<Record>,
}

impl Beside {
    fn new() -> Self {
        Beside {
            mixed: Record::new(),
            committed: Record::new(),
            held: None,
        }
    }

    /// Makes the call and asserts its answer, its values and the record that
    /// it leaves. Gives the number, 0 for an answered one.
    #[track_caller]
    fn make(&mut self, call: Call) -> u8 {
        let answer = answer(&mut self.mixed, call);
        let mut next = self.committed.clone();
        let expected = match (call, &self.held) {
            (Trial(inputs, count), _) => self::answer(&mut next, Instant(inputs, count)),
            (Commit, Some(held)) => {
                next.clone_from(held);
                Ok(Vec::new())
            }
            (Commit, None) => Err(Refusal::file(35)),
            (Instant(..) | Begin(_), _) => self::answer(&mut next, call),
        };
        assert_eq!(answer, expected, "{call:?}");
        match (call, &answer) {
            (_, Err(_)) => {}
            (Trial(..), _) => self.held = Some(next),
            _ => (self.committed, self.held) = (next, None),
        }
        assert_eq!(self.mixed, self.expected());
        answer.map_or_else(|refusal| refusal.number, |_| 0)
    }

    /// What the session's record must be.
    fn expected(&self) -> Record {
        match &self.held {
            Some(next) => holding(&self.committed, &next.last),
            None => self.committed.clone(),
        }
    }
}

/// A random node, in a random order.
fn any_node(random: &mut Random) -> NodeFile {
    let size = 1 + random.below(12);
    let node = random::node(random, size);
    let count = u16::try_from(size).unwrap();
    Renumbering::random(random, count).node(&node)
}

/// A call by chance, right or wrong.
fn make_some(random: &mut Random, beside: &mut Beside, node: &NodeFile) -> (&'static str, u8) {
    let mut file = node.bytes();
    let mut inputs = draw(random, &file);
    let mut count = node.records.len();
    match random.below(12) {
        0 => inputs.push(0),
        1 => count += 1,
        2 | 3 => inputs.iter_mut().for_each(|x| *x = random.input(INT)),
        4 => file.truncate(random.below(file.len())),
        _ => {}
    }
    let call = match random.below(20) {
        0..8 => Trial(&inputs, count),
        8..15 => Commit,
        15..19 => Instant(&inputs, count),
        _ => Begin(&file),
    };
    (call.name(), beside.make(call))
}

/// 02: "A trial's values are those on the committed inputs and its own". Any
/// mix of calls is as old calls are, refused ones in between.
#[test]
fn any_mix_is_as_old_calls_are() {
    let mut random = Random::new(50);
    let mut tally: BTreeMap<(&str, u8), usize> = BTreeMap::new();
    for _ in 0..4_000 {
        let node = any_node(&mut random);
        let mut beside = Beside::new();
        assert_eq!(beside.make(Begin(&node.bytes())), 0);
        for _ in 0..30 {
            let met = make_some(&mut random, &mut beside, &node);
            *tally.entry(met).or_default() += 1;
        }
    }
    for name in ["trial", "instant"] {
        for number in [0, 31, 32, 33, 34] {
            assert!(tally[&(name, number)] > 100, "{tally:?}");
        }
    }
    assert!(tally[&("trial", 0)] > 20_000, "{tally:?}");
    for met in [("commit", 0), ("commit", 35), ("begin", 0), ("begin", 1)] {
        assert!(tally[&met] > 10, "{tally:?}");
    }
    let refusals = tally.keys().filter(|(name, _)| *name == "commit");
    assert_eq!(refusals.count(), 2, "{tally:?}");
}

/// Makes every list of calls of this length; gives how many calls that is.
fn make_all(beside: &Beside, calls: &[Call], length: usize) -> usize {
    if length == 0 {
        return 0;
    }
    let made = calls.iter().map(|call| {
        let mut beside = beside.clone();
        beside.make(*call);
        1 + make_all(&beside, calls, length - 1)
    });
    made.sum()
}

/// On the node of handover, whose values come from up to two instants before.
#[test]
fn every_list_of_five_calls() {
    let file = named("handover").node;
    let calls = [
        Trial(&[0], 8),
        Trial(&[1], 8),
        Trial(&[2], 8),
        Commit,
        Instant(&[0], 8),
        Instant(&[1], 8),
        Instant(&[1], 7),
        Begin(&file),
        Begin(&file[1..]),
    ];
    let mut beside = Beside::new();
    assert_eq!(beside.make(Begin(&file)), 0);
    let numbers = calls.map(|call| beside.clone().make(call));
    assert_eq!(numbers, [0, 0, 33, 35, 0, 0, 32, 0, 4]);
    assert_eq!(make_all(&beside, &calls, 5), 9 + 81 + 729 + 6_561 + 59_049);
}

/// The value that the record's equation gives, if it is no input.
fn equation(record: &R, now: &[i64], before: Option<&Vec<i64>>) -> Option<i128> {
    let in_row = |row: &[i64], stream: u16| i128::from(row[usize::from(stream)]);
    let [a, b, c] = [record.a, record.b, record.c].map(|stream| in_row(now, stream));
    let k = i128::from(record.k);
    let value = match record.operator {
        0 => return None,
        1 => k,
        2 => 1 - a,
        3 => a * b,
        4 => a + b - a * b,
        5 | 10 => i128::from(a == b),
        6 => a + b,
        7 => a - b,
        8 => k * a,
        9 => i128::from(a <= b),
        11 => c * a + (1 - c) * b,
        12 => before.map_or(a, |_| b),
        13 => before.map_or(a, |row| in_row(row, record.b)),
        14 => a.min(b),
        _ => a.max(b),
    };
    Some(value)
}

/// Whether the values are those on the inputs after the row before.
fn solves(node: &NodeFile, inputs: &[i64], now: &[i64], before: Option<&Vec<i64>>) -> bool {
    let mut inputs = inputs.iter();
    let mut streams = node.records.iter().zip(now);
    streams.all(|(record, value)| match equation(record, now, before) {
        Some(wanted) => wanted == i128::from(*value),
        None => inputs.next() == Some(value),
    })
}

/// 02: "Values along the committed instants are those of the equations on the
/// committed inputs." Those of a trial too.
#[test]
fn committed_values_are_those_of_the_equations() {
    let mut random = Random::new(51);
    let (mut trials, mut replaced, mut longest) = (0, 0, 0);
    for _ in 0..4_000 {
        let node = any_node(&mut random);
        let mut record = begun(&node);
        let mut rows: Vec<Vec<i64>> = Vec::new();
        for _ in 0..12 {
            let mut last = None;
            for _ in 0..=random.below(3) {
                let inputs = draw(&mut random, &node.bytes());
                let count = node.records.len();
                if let Ok(values) = answer(&mut record, Trial(&inputs, count)) {
                    assert!(solves(&node, &inputs, &values, rows.last()));
                    replaced += usize::from(last.is_some());
                    trials += 1;
                    last = Some(values);
                }
            }
            let Some(values) = last else { continue };
            assert_eq!(answer(&mut record, Commit), Ok(Vec::new()));
            assert_eq!(record.last, padded(&values));
            rows.push(values);
        }
        longest += usize::from(rows.len() == 12);
    }
    assert!(trials > 80_000 && replaced > 35_000, "{trials} {replaced}");
    assert!(longest > 3_000, "{longest}");
}

/// Runs a pass on a node whose property is proved: each answered trial and old
/// call shows it true. Gives how many trials were answered.
fn run(random: &mut Random, file: &[u8], calls: usize) -> usize {
    let node = node::read(file).unwrap();
    let property = usize::from(node.property());
    let mut record = Record::new();
    begin(&mut record, file).unwrap();
    let mut trials = 0;
    for _ in 0..calls {
        let inputs = draw(random, file);
        let call = match random.below(8) {
            0..4 => Trial(&inputs, node.count()),
            4 => Instant(&inputs, node.count()),
            _ => Commit,
        };
        match (call, answer(&mut record, call)) {
            (Commit, Ok(_)) => {}
            (Commit, Err(refusal)) => assert_eq!(refusal, Refusal::file(35)),
            (_, Err(refusal)) => assert_eq!(refusal.number, 34),
            (_, Ok(values)) => {
                assert_eq!(values[property], 1);
                trials += usize::from(call.name() == "trial");
            }
        }
    }
    trials
}

/// 02: "On a node with an accepted certificate a trial too shows the property
/// true."
#[test]
fn a_trial_shows_the_property_true() {
    let mut random = Random::new(52);
    let is_accepted = |folder: &Folder| check(&folder.node, &folder.certificate).is_ok();
    let folders: Vec<Folder> = all().into_iter().filter(is_accepted).collect();
    assert!(folders.len() >= 12, "{}", folders.len());
    for folder in folders {
        let trials = (0..40).map(|_| run(&mut random, &folder.node, 60));
        assert!(trials.sum::<usize>() > 500, "{}", folder.name());
    }
}

/// 30's condition, part by part.
fn is_30(record: &Record) -> bool {
    let Some(file) = record.bytes.get(..record.length) else {
        return true;
    };
    let Ok(node) = node::read(file) else {
        return true;
    };
    let bools: Vec<usize> = (0..node.count())
        .filter(|i| node.types()[*i] == Type::Bool)
        .collect();
    let is_odd = |values: &[i64; 64]| bools.iter().any(|i| !(0..=1).contains(&values[*i]));
    record.answered && is_odd(&record.last) || record.held && is_odd(&record.trial)
}

/// A record that no call left, and the node that it was begun on.
fn damaged(random: &mut Random) -> (Record, NodeFile) {
    let node = any_node(random);
    let mut record = begun(&node);
    let inputs = draw(random, &node.bytes());
    let count = node.records.len();
    if random.below(2) == 0 {
        let _ = answer(&mut record, Instant(&inputs, count));
    }
    if random.below(2) == 0 {
        let _ = answer(&mut record, Trial(&inputs, count));
    }
    match random.below(9) {
        0 => record.length = random.below(1100),
        1 => record.bytes[random.below(16 * count)] ^= 1,
        2 => record.last[random.below(count)] = random.input(INT),
        3 | 4 => record.trial[random.below(count)] = random.input(INT),
        5 => record.trial = [0; 64].map(|_: i64| random.input(INT)),
        6 => record.held = true,
        7 => record.held = false,
        _ => record.answered = !record.answered,
    }
    (record, node)
}

/// Any record is answered or refused, with 30 just where its condition says.
#[test]
fn damaged_session_records() {
    let mut random = Random::new(53);
    let mut tally: BTreeMap<(&str, u8), usize> = BTreeMap::new();
    for _ in 0..60_000 {
        let (record, node) = damaged(&mut random);
        let inputs = draw(&mut random, &node.bytes());
        let count = node.records.len();
        let [mut tried, mut called, mut committed] = [0; 3].map(|_| record.clone());
        let trial = answer(&mut tried, Trial(&inputs, count));
        let old = answer(&mut called, Instant(&inputs, count));
        let commit = answer(&mut committed, Commit);
        assert_eq!(trial, old);
        if let Ok(values) = &trial {
            assert_eq!(tried, holding(&record, values));
            assert_eq!(called, past(&record, values));
        }
        let wanted = match (is_30(&record), record.held) {
            (true, _) => Err(Refusal::file(30)),
            (false, false) => Err(Refusal::file(35)),
            (false, true) => Ok(past(&record, &record.trial)),
        };
        assert_eq!(commit.as_ref().map(|_| committed).map_err(|r| *r), wanted);
        for (name, answer) in [("trial", trial), ("commit", commit)] {
            let number = answer.map_or_else(|refusal| refusal.number, |_| 0);
            assert_eq!(number == 30, is_30(&record));
            *tally.entry((name, number)).or_default() += 1;
        }
    }
    let met: Vec<_> = tally.keys().copied().collect();
    let trials = [0, 30, 31, 33, 34].map(|number| ("trial", number));
    let commits = [0, 30, 35].map(|number| ("commit", number));
    assert_eq!(met, [&commits[..], &trials].concat());
}
