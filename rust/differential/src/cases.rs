//! The mixture of pairs: each case draws a node and a certificate, and some
//! damaged copies of both.

use crate::damage::{damage, Layout};
use crate::delays::delayed_arrow;
use crate::draft::{Draft, MAX_BLOCKS};
use crate::forge;
use crate::grow::{grow, Mix};
use crate::nodes::{self, Taste};
use crate::pool::Certified;
use crate::random::Random;
use crate::reorder::{looped, renumbering};
use crate::{miscuts, misfactors, miswindows, prove};
use reference::build::{CertificateFile, NodeFile};
use reference::certificate::Part;

/// A node file and a certificate file.
pub type Pair = (Vec<u8>, Vec<u8>);

/// What a case is told to be by its generator.
#[derive(Clone, Copy, Debug, PartialEq, Eq)]
pub enum Expected {
    /// Accepted.
    Accepted,
    /// Refused with this number.
    Refused(u8),
    /// Anything.
    Unknown,
}

/// The pairs of one case, with what is known of each.
pub fn case(random: &mut Random, pool: &[Certified]) -> Vec<(Pair, Expected)> {
    let (mut node, mut certificate, expected) = original(random, pool);
    if random.once_in(3) {
        let other = renumbering(random, &node);
        (node, certificate) = (other.node(&node), other.certificate(&certificate));
    }
    let pair = written(random, &node, &certificate);
    let copies = random.within(2, 7);
    let mut pairs = Vec::with_capacity(copies + 3);
    if random.once_in(12) {
        pairs.push((strange(random, &pair, pool), Expected::Unknown));
    }
    let wrong = random.once_in(6).then(|| looped(random, &node));
    if let Some(wrong) = wrong.flatten() {
        let pair = written(random, &wrong.node, &certificate);
        pairs.push((pair, Expected::Refused(23)));
    }
    for _ in 0..copies {
        pairs.push((damaged(random, &pair), Expected::Unknown));
    }
    pairs.push((pair, expected));
    pairs
}

/// A right pair or a forged one.
fn original(random: &mut Random, pool: &[Certified]) -> (NodeFile, CertificateFile, Expected) {
    match random.below(12) {
        0 => {
            let (node, certificate, number) = forge::forgery(random);
            (node, certificate, Expected::Refused(number))
        }
        1..4 => from_pool(random, pool),
        4..8 => proved(random),
        _ => grown(random),
    }
}

/// As many more lines as a part gets: mostly few, at times all there is room
/// for.
fn padding(random: &mut Random) -> usize {
    match random.below(120) {
        0 => MAX_BLOCKS,
        1..4 => random.within(50, 200),
        4..50 => random.within(1, 12),
        _ => 0,
    }
}

/// A certificate of the pool among other lines, if they fit.
fn from_pool(random: &mut Random, pool: &[Certified]) -> (NodeFile, CertificateFile, Expected) {
    let (node, found) = &pool[random.below(pool.len())];
    let mut draft = Draft::drawn(random, node, found.depth);
    let whole = imported(random, &mut draft, found);
    let certificate = match whole {
        Some(()) => draft.finish(),
        None => found.clone(),
    };
    (node.clone(), certificate, Expected::Accepted)
}

fn imported(random: &mut Random, draft: &mut Draft, found: &CertificateFile) -> Option<()> {
    let spare = MAX_BLOCKS - found.base.len() - found.step.len() - found.constraints.len();
    let count = padding(random).min(spare / 6);
    grow(random, draft, Mix::ALL, count);
    draft.import(found, &found.base, 0)?;
    grow(random, draft, Mix::ALL, count);
    draft.begin_step();
    draft.import(found, &found.step, found.base.len())?;
    grow(random, draft, Mix::ALL, count);
    Some(())
}

/// A random node with a property that unit steps prove, and the proof.
fn proved(random: &mut Random) -> (NodeFile, CertificateFile, Expected) {
    let (node, certificate) = proof_with(random, |draft| draft);
    (node, certificate, Expected::Accepted)
}

/// The same by version 1's windows.
pub fn of_version_1(random: &mut Random) -> Certified {
    proof_with(random, |draft| draft.of_version_1())
}

/// A random node with a property that unit steps prove, and the proof, its
/// draft changed before it is written.
fn proof_with(random: &mut Random, changed: fn(Draft) -> Draft) -> Certified {
    loop {
        let depth = random.within(1, 8) as u8;
        let Some(node) = provable(random, depth) else {
            continue;
        };
        let draft = changed(Draft::drawn(random, &node, depth));
        if let Some(certificate) = proof(random, draft) {
            return (node, certificate);
        }
    }
}

/// A random node with a property that unit steps prove at this depth: now and
/// then one that needs operator 12 at the step's first offset.
fn provable(random: &mut Random, depth: u8) -> Option<NodeFile> {
    let taste = Taste {
        size: random.of([3, 6, 10, 16, 64]),
        ints: 5,
        inputs: random.of([0, 1, 2]),
        extremes: true,
        large: random.once_in(4),
        truth: false,
        reordered: random.once_in(3),
    };
    let mut node = nodes::node(random, taste);
    if random.once_in(4) {
        let delayed = delayed_arrow(random, &node, depth)?;
        let provable = prove::provable(&delayed, depth);
        return provable.contains(&delayed.property).then_some(delayed);
    }
    node.property = random.pick(&prove::provable(&node, depth))?;
    Some(node)
}

fn proof(random: &mut Random, mut draft: Draft) -> Option<CertificateFile> {
    let count = padding(random).min(60);
    grow(random, &mut draft, Mix::ALL, count);
    prove::refute(&mut draft)?;
    draft.begin_step();
    prove::refute(&mut draft)?;
    let count = padding(random);
    grow(random, &mut draft, Mix::ALL, count);
    Some(draft.finish())
}

/// Random lines over a random node: accepted where the property is the
/// constant true, else without an empty line, or with a forged line at the
/// end of a part.
fn grown(random: &mut Random) -> (NodeFile, CertificateFile, Expected) {
    let taste = Taste::any(random);
    let node = nodes::node(random, taste);
    let depth = random.within(1, 8) as u8;
    let mut draft = Draft::drawn(random, &node, depth);
    let count = 4 + padding(random).min(300);
    grow(random, &mut draft, Mix::ALL, count);
    let mut refuted = taste.truth && prove::refute(&mut draft).is_some();
    let mut forged = random.once_in(8) && forge::forged_line(random, &mut draft).is_some();
    draft.begin_step();
    grow(random, &mut draft, Mix::ALL, count);
    refuted &= taste.truth && prove::refute(&mut draft).is_some();
    forged |= !refuted && forge::forged_line(random, &mut draft).is_some();
    let certificate = draft.finish();
    let ended =
        [&certificate.base, &certificate.step].map(|part| part.iter().any(|line| line.count == 0));
    let expected = match (forged, ended) {
        (true, _) => Expected::Unknown,
        (false, [true, true]) => Expected::Accepted,
        (false, _) => Expected::Refused(21),
    };
    (node, certificate, expected)
}

/// A proof among cuts; a way spoils one more.
pub fn among_cuts(random: &mut Random, way: Option<&miscuts::Way>) -> Option<Certified> {
    let spoil = way.map(|way| {
        move |random: &mut Random, draft: &mut Draft| miscuts::spoiled(random, draft, way)
    });
    let depth = random.within(1, 8) as u8;
    among(random, depth, Mix::CUTS, None, spoil)
}

/// A proof among equations, with constraints multiplied through in all; a way
/// spoils one more.
pub fn among_factors(random: &mut Random, way: Option<&misfactors::Way>) -> Option<Certified> {
    let spoil = way.map(|way| {
        move |random: &mut Random, draft: &mut Draft| misfactors::spoiled(random, draft, way)
    });
    let factors = Random::new(random.bits());
    let depth = random.within(1, 8) as u8;
    among(random, depth, Mix::EQUATIONS, Some(factors), spoil)
}

/// A proof among equations; a way spoils one more.
pub fn among_windows(random: &mut Random, way: Option<&miswindows::Way>) -> Option<Certified> {
    let spoil = way.map(|way| {
        move |random: &mut Random, draft: &mut Draft| miswindows::spoiled(random, draft, way)
    });
    let any = random.within(1, 8) as u8;
    let depth = way.and_then(|way| way.depth).unwrap_or(any);
    among(random, depth, Mix::EQUATIONS, None, spoil)
}

/// A proof with other lines before and after it in both parts, and a spoiled
/// one at the end of either part, if one is wanted. Nothing if it is and there
/// is nothing to spoil.
fn among(
    random: &mut Random,
    depth: u8,
    mix: Mix,
    factors: Option<Random>,
    spoil: Option<impl Fn(&mut Random, &mut Draft) -> Option<u16>>,
) -> Option<Certified> {
    let taste = Taste {
        ints: 8,
        truth: true,
        ..Taste::any(random)
    };
    let node = nodes::node(random, taste);
    let mut draft = Draft::new(&node, depth);
    draft.factors = factors;
    let part = random.of([Part::Base, Part::Step]);
    for own in [Part::Base, Part::Step] {
        if own == Part::Step {
            draft.begin_step();
        }
        grow(random, &mut draft, mix, 3);
        prove::refute(&mut draft)?;
        grow(random, &mut draft, mix, 3);
        if let Some(spoil) = spoil.as_ref().filter(|_| own == part) {
            spoil(random, &mut draft)?;
        }
    }
    let certificate = draft.finish();
    Some((node, certificate))
}

/// The files' bytes, with or without notes.
fn written(random: &mut Random, node: &NodeFile, certificate: &CertificateFile) -> Pair {
    let behind_note = |random: &mut Random, bytes: Vec<u8>| {
        let mut file = nodes::note(random, bytes.len());
        file.extend(bytes);
        file
    };
    let node = behind_note(random, node.bytes());
    (node, behind_note(random, certificate.bytes()))
}

/// A pair of files that both pass 1 to 4 and 11 to 14, one or both damaged.
pub fn damaged(random: &mut Random, (node, certificate): &Pair) -> Pair {
    let (mut node, mut certificate) = (node.clone(), certificate.clone());
    let layout = Layout::of_node(&node);
    let Layout::Node(n) = layout else {
        return (node, certificate);
    };
    let which = random.below(10);
    if which > 0 {
        let layout = Layout::of_certificate(n, &certificate);
        damage(random, layout, &mut certificate);
    }
    if which < 3 {
        damage(random, layout, &mut node);
    }
    (node, certificate)
}

/// Files that do not belong together, or random bytes.
fn strange(random: &mut Random, (node, certificate): &Pair, pool: &[Certified]) -> Pair {
    let (other_node, other) = &pool[random.below(pool.len())];
    let length = random.below(400);
    match random.below(4) {
        0 => (node.clone(), other.bytes()),
        1 => (other_node.bytes(), certificate.clone()),
        2 => (random.bytes(length), certificate.clone()),
        _ => (node.clone(), random.bytes(length)),
    }
}
