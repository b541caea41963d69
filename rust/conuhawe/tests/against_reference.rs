//! The proved library and the second implementation give the same answers on
//! damaged pairs and on sessions.

mod common;

use common::{two_bands, FILE, HELD, LAST, STARTED};
use conuhawe::Session;
use reference::build::random::{self, damage, Random};
use reference::build::renumber::Renumbering;
use reference::build::{multiples, orders, search, NodeFile, BOOL, INT};
use reference::certificate;
use reference::node::{self, Type};
use reference::session::{self, Record};
use std::collections::{BTreeMap, BTreeSet};
use std::fmt::Display;

type Pair = (Vec<u8>, Vec<u8>);

/// An answer as its line: equal lines are equal answers.
fn line<A: Display, R: Display>(answer: Result<A, R>) -> String {
    answer.map_or_else(|refusal| refusal.to_string(), |a| a.to_string())
}

/// A multiple of m is never k, by cuts.
fn never(m: u16, k: i32) -> Pair {
    let certificate = multiples::certificate(m, k, 1, multiples::bounds(m, k));
    (multiples::node(m, k).bytes(), certificate.bytes())
}

/// Of two numbers one is at most the other, by constraints multiplied through.
fn either_order(factors: [i64; 2]) -> Pair {
    (orders::node().bytes(), orders::certificate(factors).bytes())
}

/// A node's records in some order.
fn another_order(random: &mut Random, node: &NodeFile) -> Renumbering {
    let count = u16::try_from(node.records.len()).unwrap();
    Renumbering::random(random, count)
}

/// The two bands, nodes proved by cuts, one by multiplied constraints, and
/// random nodes that have a certificate, in record order and in another.
fn seeds(random: &mut Random) -> Vec<Pair> {
    let mut pairs = vec![two_bands()];
    let cuts = [(2, 7), (2, -7), (65_535, 1), (1_000, -999_999_999)];
    pairs.extend(cuts.map(|(m, k)| never(m, k)));
    pairs.extend([[2, 2], [2, 3], [1_000_000_000; 2]].map(either_order));
    for i in 0..300 {
        let node = random::node(random, 3 + i % 9);
        let depth = [1, 1, 2, 3][random.below(4)];
        if let Some(found) = search::certificate(&node.bytes(), depth) {
            let other = another_order(random, &node);
            pairs.push((node.bytes(), found.bytes()));
            pairs.push((other.node(&node).bytes(), other.certificate(&found).bytes()));
        }
    }
    assert!(pairs.len() > 100);
    pairs
}

/// The answer that both give.
fn agreed((node, certificate): &Pair) -> String {
    let answer = line(conuhawe::check(node, certificate));
    assert_eq!(answer, line(certificate::check(node, certificate)));
    assert_eq!(conuhawe::node_note(node), node::note(node));
    assert_eq!(
        conuhawe::certificate_note(certificate),
        certificate::note(certificate)
    );
    answer
}

#[test]
fn whole_pairs() {
    let mut random = Random::new(71);
    for pair in seeds(&mut random) {
        assert!(agreed(&pair).starts_with("accepted "));
    }
}

#[test]
fn damaged_pairs() {
    let mut random = Random::new(72);
    let pairs = seeds(&mut random);
    let mut met = BTreeSet::new();
    for _ in 0..60_000 {
        let (mut node, mut certificate) = pairs[random.below(pairs.len())].clone();
        let which = random.below(8);
        if which < 2 {
            damage(&mut random, &mut node);
        }
        if which > 0 {
            damage(&mut random, &mut certificate);
        }
        let answer = agreed(&(node, certificate));
        met.extend(answer.split(' ').nth(1).map(str::to_owned));
    }
    for number in (1..=8).chain(11..=23) {
        assert!(met.contains(&number.to_string()), "{number} of {met:?}");
    }
}

/// Inputs for one instant, now and then one too many or out of its type.
fn inputs(random: &mut Random, node: &node::Node) -> Vec<i64> {
    let types = node.inputs().iter().map(|i| node.types()[usize::from(*i)]);
    let mut drawn: Vec<i64> = types
        .map(|own| match own {
            Type::Bool if random.below(40) == 0 => 2,
            Type::Bool => random.input(BOOL),
            Type::Int => random.input(INT),
        })
        .collect();
    if random.below(40) == 0 {
        drawn.push(0);
    }
    drawn
}

/// An answer of a session's call: nothing where it is answered.
fn told<A, R: Display>(answer: Result<A, R>) -> String {
    answer.map_or_else(|refusal| refusal.to_string(), |_| String::new())
}

/// The record as the library lends it.
fn bytes(record: &Record) -> [u8; Session::SIZE] {
    let mut bytes = [0; Session::SIZE];
    bytes[..LAST].copy_from_slice(&record.length.to_le_bytes());
    let numbers = record.last.iter().chain(&record.trial);
    for (place, number) in bytes[LAST..FILE].chunks_exact_mut(8).zip(numbers) {
        place.copy_from_slice(&number.to_le_bytes());
    }
    bytes[FILE..STARTED].copy_from_slice(&record.bytes);
    bytes[STARTED] = record.answered.into();
    bytes[HELD] = record.held.into();
    bytes
}

/// What a session's event is.
#[derive(Clone, Copy, Debug, PartialEq, Eq, PartialOrd, Ord)]
enum Event {
    Begin,
    Instant,
    Trial,
    Commit,
}

/// Both sessions, beside each other.
struct Both {
    ours: Session,
    theirs: Record,
    file: Vec<u8>,
}

impl Both {
    fn begun(file: Vec<u8>) -> Self {
        let mut theirs = Record::new();
        session::begin(&mut theirs, &file).unwrap();
        let ours = Session::begin(&file).unwrap();
        Both { ours, theirs, file }
    }

    /// One event; gives the answer of both.
    fn event(&mut self, random: &mut Random, event: Event) -> String {
        let node = node::read(&self.file).unwrap();
        let given = inputs(random, &node);
        let room = node.count() + usize::from(random.below(40) == 0);
        let (mut values, mut expected) = (vec![-7; room], vec![-7; room]);
        let (ours, theirs) = (&mut self.ours, &mut self.theirs);
        let answers = match event {
            Event::Begin => {
                let mut file = self.file.clone();
                if random.below(2) == 0 {
                    damage(random, &mut file);
                }
                let begun = told(ours.begin_again(&file));
                [begun, told(session::begin(theirs, &file))]
            }
            Event::Instant => [
                told(ours.instant(&given, &mut values)),
                told(session::instant(theirs, &given, &mut expected)),
            ],
            Event::Trial => [
                told(ours.trial(&given, &mut values)),
                told(session::trial(theirs, &given, &mut expected)),
            ],
            Event::Commit => [told(ours.commit()), told(session::commit(theirs))],
        };
        let [answer, other] = answers;
        assert_eq!(answer, other, "{event:?}");
        assert_eq!(values, expected, "{event:?}");
        assert_eq!(ours.to_bytes(), bytes(theirs), "{event:?}");
        answer
    }
}

/// Lists of events: answers, slices and whole records.
#[test]
fn sessions() {
    let mut random = Random::new(73);
    let mut met: BTreeMap<(Event, String), usize> = BTreeMap::new();
    for i in 0..4_000 {
        let mut node = random::node(&mut random, 3 + i % 62);
        if i % 2 == 1 {
            node = another_order(&mut random, &node).node(&node);
        }
        let mut both = Both::begun(node.bytes());
        for _ in 0..20 {
            let event = match random.below(20) {
                0 => Event::Begin,
                1..=6 => Event::Instant,
                7..=14 => Event::Trial,
                _ => Event::Commit,
            };
            let answer = both.event(&mut random, event);
            let number = answer.split(' ').nth(1).unwrap_or("answered");
            *met.entry((event, number.to_owned())).or_default() += 1;
        }
    }
    let often = |event| {
        let own = met.iter().filter(|((of, _), _)| *of == event);
        let often = own.filter(|(_, count)| **count >= 100);
        Vec::from_iter(often.map(|((_, number), _)| number.as_str()))
    };
    assert_eq!(often(Event::Begin), ["2", "4", "5", "7", "answered"]);
    for event in [Event::Instant, Event::Trial] {
        assert_eq!(often(event), ["31", "32", "33", "34", "answered"]);
    }
    assert_eq!(often(Event::Commit), ["35", "answered"]);
}
