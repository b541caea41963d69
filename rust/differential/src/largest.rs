//! Certificates of a given size and kind, accepted, for measuring and for the
//! largest files, and nodes of 64 streams.

use crate::draft::{Draft, MAX_BLOCKS, MAX_CONSTRAINTS};
use crate::grow::{grow, Mix};
use crate::linear::Linear;
use crate::listed::{self, Listed};
use crate::narrow::made_whole;
use crate::nodes::{self, Taste};
use crate::prove::refute;
use crate::random::Random;
use reference::build::{lit, CertificateFile, Line, NodeFile, Record, BOOL, INT};

/// A kind of certificate, by what most of its lines are.
#[derive(Clone, Copy, Debug)]
pub struct Kind {
    /// Its name.
    pub name: &'static str,
    /// How often a stream of its node is an int one, in ten.
    pub ints: usize,
    /// How many constraints it may have.
    pub constraints: usize,
    /// What its lines are.
    pub mix: Mix,
}

/// The kinds of 01's lines; few constraints leave room for about 800 lines.
pub const KINDS: [Kind; 4] = [
    Kind::new("joins", 0, 0, [1, 20, 0, 0]),
    Kind::new("arithmetic", 8, 32, [0, 0, 1, 0]),
    Kind::new("equations", 5, 32, [1, 0, 0, 0]),
    Kind::new("all", 8, MAX_CONSTRAINTS, [1, 1, 1, 0]),
];

/// Equations of ints, each with a constraint.
pub const OF_INTS: Kind = Kind::new("int equations", 10, 128, [1, 0, 0, 0]);

/// What is measured in turns: joins, and all kinds with as many constraints as
/// leave room for 800 lines.
pub const IN_TURNS: [Kind; 2] = [
    KINDS[0],
    Kind::new("all", 8, MAX_BLOCKS - 800, [1, 1, 1, 0]),
];

/// Cuts, and arithmetic among them.
pub const CUTS: Kind = Kind::new("cuts", 8, MAX_CONSTRAINTS, [0, 0, 1, 4]);

impl Kind {
    const fn new(name: &'static str, ints: usize, constraints: usize, mix: [usize; 4]) -> Self {
        let [equations, joins, arithmetic, cuts] = mix;
        let mix = Mix {
            equations,
            joins,
            arithmetic,
            cuts,
        };
        Kind {
            name,
            ints,
            constraints,
            mix,
        }
    }
}

/// A node of 64 streams, in record order, whose property is the constant true,
/// with lessers and greaters or without.
pub fn node(random: &mut Random, ints: usize, extremes: bool) -> NodeFile {
    sized(random, 64, ints, extremes)
}

/// The same of some streams.
fn sized(random: &mut Random, size: usize, ints: usize, extremes: bool) -> NodeFile {
    let taste = Taste {
        size,
        ints,
        inputs: 3,
        extremes,
        large: false,
        truth: true,
        reordered: false,
    };
    nodes::node(random, taste)
}

/// A node of some streams, at least three of them ints.
pub fn small(random: &mut Random, size: usize) -> NodeFile {
    loop {
        let drawn = sized(random, size, 5, false);
        if int_streams(&drawn).len() >= 3 {
            return drawn;
        }
    }
}

/// The int streams of a node.
fn int_streams(node: &NodeFile) -> Vec<u16> {
    let numbered = (0..).zip(&node.records);
    let ints = numbered.filter(|(_, record)| record.type_byte == INT);
    ints.map(|(stream, _)| stream).collect()
}

/// A listed node of 64 streams.
pub fn listed(random: &mut Random) -> Listed {
    loop {
        let drawn = listed::listed(random, 64);
        if drawn.node.records.len() == 64 {
            return drawn;
        }
    }
}

/// A node of 64 streams, in record order: the constant true, some int inputs,
/// and lessers and greaters of any two before.
pub fn extremes(random: &mut Random) -> NodeFile {
    let mut records = vec![Record::constant(BOOL, 1)];
    records.resize(8, Record::input(INT));
    for own in 8..64 {
        let [a, b] = [0; 2].map(|_| random.within(1, own - 1) as u16);
        let of = random.of([Record::lesser, Record::greater]);
        records.push(of(a, b));
    }
    NodeFile::new(records, 0)
}

/// An accepted certificate of at most `lines` lines, or as near to it as the
/// largest file has room for.
pub fn certificate(
    random: &mut Random,
    node: &NodeFile,
    depth: u8,
    kind: Kind,
    lines: usize,
) -> CertificateFile {
    filled(random, Draft::new(node, depth), kind, lines)
}

/// The same with the lines that it had in version 1, so that runs from before
/// and after measure alike.
pub fn as_before(
    random: &mut Random,
    node: &NodeFile,
    depth: u8,
    kind: Kind,
    lines: usize,
) -> CertificateFile {
    let draft = Draft::new(node, depth).of_version_1();
    made_whole(node, &filled(random, draft, kind, lines))
}

/// The certificate, accepted as before, with one empty line in each part, its
/// last, where a refutation ends. Looked for from the front, as the reference
/// does for 21, it is found after all others. A join may have more literals than it
/// needs, so that those which were empty get the property.
pub fn closed_last(node: &NodeFile, mut certificate: CertificateFile) -> CertificateFile {
    for part in [&mut certificate.base, &mut certificate.step] {
        let is_empty = |line: &&mut Line| line.count == 0;
        let mut last = Line::default();
        for line in part.iter_mut().filter(is_empty) {
            last = *line;
            (line.count, line.literals[0]) = (1, lit(node.property, 0));
        }
        part.splice(part.len() - 1.., [last]);
    }
    certificate
}

/// An accepted certificate of depth 2 with so many constraints of eight terms
/// each, for a node with three int streams, and no lines but those that refute
/// its parts.
pub fn constrained(random: &mut Random, node: &NodeFile, count: usize) -> CertificateFile {
    let mut draft = Draft::new(node, 2);
    refute(&mut draft).expect("room for a few lines");
    draft.begin_step();
    refute(&mut draft).expect("room for a few lines");
    for _ in 0..count {
        let constraint = longest(random, &int_streams(node)).constraint();
        let constraint = constraint.expect("small numbers");
        draft.another(constraint).expect("room for all constraints");
    }
    draft.finish()
}

/// A sum of eight terms, of these streams at offsets 0 to 2.
fn longest(random: &mut Random, streams: &[u16]) -> Linear {
    let mut sum = Linear::bounded(random.within(0, 1_000) as i128);
    while sum.terms.len() < 8 {
        let stream = streams[random.below(streams.len())];
        let variable = (random.within(0, 2) as u8, stream);
        sum.terms.insert(variable, random.of([1, -1, 2, -3, 100]));
    }
    sum
}

/// Both parts refuted and filled.
fn filled(random: &mut Random, mut draft: Draft, kind: Kind, lines: usize) -> CertificateFile {
    draft.limit = kind.constraints;
    refute(&mut draft).expect("room for a few lines");
    fill(random, &mut draft, kind.mix, lines / 2, 20);
    draft.begin_step();
    refute(&mut draft).expect("room for a few lines");
    fill(random, &mut draft, kind.mix, lines, 0);
    draft.finish()
}

/// Grows up to a number of lines, or until no more than `spare` blocks are
/// left.
fn fill(random: &mut Random, draft: &mut Draft, mix: Mix, lines: usize, spare: usize) {
    for _ in 0..20 * lines {
        if draft.lines.len() >= lines || draft.room() <= spare {
            return;
        }
        grow(random, draft, mix, 1);
    }
}
