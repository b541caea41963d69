//! Damaged and random files: nothing panics, and what is accepted holds.

mod common;
#[path = "common/examples.rs"]
mod examples;

use reference::answer::Verdict;
use reference::build::random::{self, damage, Random};
use reference::build::renumber::Renumbering;
use reference::build::{search, NodeFile, BOOL, INT};
use reference::node::{self, Type};
use reference::session::{begin, instant, Record as Session};
use reference::{certificate, session};
use std::collections::BTreeMap;

type Pair = (Vec<u8>, Vec<u8>);

/// The examples, and nodes drawn at random that have a certificate, each also
/// in another order.
fn seeds(random: &mut Random) -> Vec<Pair> {
    let mut certified = examples::certified();
    for i in 0..1_500 {
        let node = random::node(random, 3 + i % 9);
        let depth = [1, 1, 2, 3][random.below(4)];
        if let Some(found) = search::certificate(&node.bytes(), depth) {
            certified.push((node, found));
        }
    }
    let mut pairs = Vec::new();
    for (node, certificate) in certified {
        pairs.push((node.bytes(), certificate.bytes()));
        let other = another_order(random, &node);
        let certificate = other.certificate(&certificate);
        pairs.push((other.node(&node).bytes(), certificate.bytes()));
    }
    pairs
}

/// Some order of the node's records.
fn another_order(random: &mut Random, node: &NodeFile) -> Renumbering {
    let count = u16::try_from(node.records.len()).unwrap();
    Renumbering::random(random, count)
}

/// Inputs for one instant.
fn inputs(random: &mut Random, node: &node::Node) -> Vec<i64> {
    let types = node.inputs().iter().map(|i| node.types()[usize::from(*i)]);
    let drawn = types.map(|own| match own {
        Type::Bool => random.input(BOOL),
        Type::Int => random.input(INT),
    });
    drawn.collect()
}

/// Runs a node and asserts that a refused call changes nothing. Gives the
/// property's values at the answered instants.
fn run(random: &mut Random, file: &[u8], calls: usize) -> Vec<i64> {
    let mut record = Session::new();
    if begin(&mut record, file).is_err() {
        assert_eq!(record, Session::new());
        return Vec::new();
    }
    let node = node::read(file).unwrap();
    let mut answered = Vec::new();
    for _ in 0..calls {
        let inputs = inputs(random, &node);
        let mut values = vec![-7; node.count()];
        let before = record.clone();
        match instant(&mut record, &inputs, &mut values) {
            Ok(()) => answered.push(values[usize::from(node.property())]),
            Err(refusal) => {
                assert_eq!(refusal.number, 34);
                assert_eq!(record, before);
                assert_eq!(values, vec![-7; node.count()]);
            }
        }
    }
    answered
}

/// Checks a pair. Demand 3: where the certificate is accepted, the property
/// is 1 at every answered instant.
fn checked(random: &mut Random, (node, certificate): &Pair) -> Verdict {
    let verdict = certificate::check(node, certificate);
    assert!(node.starts_with(node::note(node)));
    assert!(certificate.starts_with(certificate::note(certificate)));
    if verdict.is_ok() {
        let values = run(random, node, 12);
        assert!(values.iter().all(|value| *value == 1), "{verdict:?}");
    }
    verdict
}

#[test]
fn seeds_are_accepted_and_hold() {
    let mut random = Random::new(1);
    let pairs = seeds(&mut random);
    assert!(pairs.len() > 600, "{}", pairs.len());
    for pair in &pairs {
        for _ in 0..5 {
            assert!(checked(&mut random, pair).is_ok());
        }
    }
}

#[test]
fn damaged_pairs() {
    let mut random = Random::new(2);
    let pairs = seeds(&mut random);
    let mut tally: BTreeMap<u8, usize> = BTreeMap::new();
    for _ in 0..120_000 {
        let (mut node, mut certificate) = pairs[random.below(pairs.len())].clone();
        let which = random.below(8);
        if which < 2 {
            damage(&mut random, &mut node);
        }
        if which > 0 {
            damage(&mut random, &mut certificate);
        }
        let verdict = checked(&mut random, &(node, certificate));
        let number = verdict.map_or_else(|refusal| refusal.number, |_| 0);
        *tally.entry(number).or_default() += 1;
    }
    // Every refusal was met, and some damage does no harm.
    for number in (0..=8).chain(11..=23) {
        assert!(tally.contains_key(&number), "{number} of {tally:?}");
    }
}

/// A pair's own certificate against another pair's node.
#[test]
fn exchanged_pairs() {
    let mut random = Random::new(3);
    let pairs = seeds(&mut random);
    for _ in 0..20_000 {
        let (node, _) = &pairs[random.below(pairs.len())];
        let (_, certificate) = &pairs[random.below(pairs.len())];
        let _ = checked(&mut random, &(node.clone(), certificate.clone()));
    }
}

#[test]
fn random_bytes() {
    let mut random = Random::new(4);
    for _ in 0..40_000 {
        let [node, certificate] = [0, 1].map(|_| {
            let length = random.below(400);
            let mut bytes: Vec<u8> = (0..length).map(|_| random.byte()).collect();
            if random.below(2) == 0 {
                bytes.iter_mut().for_each(|byte| *byte &= 15);
            }
            bytes
        });
        // The same bytes again behind the trailer's fixed bytes.
        let framed = |bytes: &[u8], front: [u8; 4], zeros: std::ops::Range<usize>| {
            let mut bytes = bytes.to_vec();
            if let Some(trailer) = bytes.last_chunk_mut::<16>() {
                trailer[..3].copy_from_slice(&front[..3]);
                trailer[zeros].fill(0);
            }
            bytes
        };
        let node_framed = framed(&node, [0x4C, 0x4E, 1, 0], 12..16);
        let certificate_framed = framed(&certificate, [0x4B, 0x43, 2, 0], 10..12);
        let valid = random::node(&mut random, 6).bytes();
        let _ = checked(&mut random, &(node, certificate.clone()));
        let _ = checked(&mut random, &(node_framed, certificate.clone()));
        let _ = checked(&mut random, &(valid.clone(), certificate));
        let _ = checked(&mut random, &(valid, certificate_framed));
    }
}

/// Lines of random but well-formed content: the checks behind 16 are met.
#[test]
fn random_lines() {
    let mut random = Random::new(5);
    let pairs = seeds(&mut random);
    for _ in 0..40_000 {
        let (node, mut file) = pairs[random.below(pairs.len())].clone();
        let lines = (file.len() - 16) / 80;
        for _ in 0..=random.below(3) {
            let start = file.len() - 16 - 80 * (1 + random.below(lines));
            let field = start + [0, 2, 4, 6, 8, 10, 12, 14][random.below(8)];
            let other = file.len() - 16 - 80 * (1 + random.below(lines));
            let from = other + [2, 4, 6, 8, 10, 12][random.below(6)];
            match random.below(3) {
                0 => file.copy_within(from..from + 2, field),
                1 => file[field] ^= 1,
                _ => file[field] = random.byte() & 15,
            }
        }
        let _ = checked(&mut random, &(node, file));
    }
}

/// Records that no beginning made: an instant's call answers or refuses.
#[test]
fn damaged_session_records() {
    let mut random = Random::new(6);
    let mut tally: BTreeMap<u8, usize> = BTreeMap::new();
    for _ in 0..60_000 {
        let size = 3 + random.below(8);
        let mut node = random::node(&mut random, size);
        if random.below(2) == 0 {
            node = another_order(&mut random, &node).node(&node);
        }
        let file = node.bytes();
        let mut record = Session::new();
        begin(&mut record, &file).unwrap();
        let mut drawn = inputs(&mut random, &node::read(&file).unwrap());
        let mut values = vec![5; size];
        let _ = instant(&mut record, &drawn, &mut values);
        match random.below(6) {
            0 => record.length = random.below(1100),
            1 => record.bytes[random.below(file.len())] ^= 1,
            2 => record.last[random.below(size)] = random.input(INT),
            3 => values.truncate(random.below(size)),
            4 => drawn.push(0),
            _ => drawn
                .iter_mut()
                .for_each(|input| *input = random.input(INT)),
        }
        let lent = (record.clone(), values.clone());
        let answer = session::instant(&mut record, &drawn, &mut values);
        if answer.is_err() {
            assert_eq!((record, values), lent);
        }
        let number = answer.map_or_else(|refusal| refusal.number, |()| 0);
        *tally.entry(number).or_default() += 1;
    }
    let met: Vec<u8> = tally.keys().copied().collect();
    assert_eq!(met, [0, 30, 31, 32, 33, 34]);
}
