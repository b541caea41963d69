//! Arithmetic lines and cuts that differ in nothing but their kind: the same
//! literals in the same order over the same constraints.

use crate::cuts::arithmetic;
use crate::draft::Draft;
use crate::linear::Linear;
use crate::narrow;
use crate::prove::refute;
use crate::random::Random;
use reference::build::{opp, CertificateFile, Line, NodeFile, Record, BOOL, INT};

/// How many groups of constraints lines are drawn from.
const GROUPS: usize = 32;
/// Offsets are 0 to this.
const DEPTH: u8 = 2;
/// Streams 1 to 63 are int inputs.
const INPUTS: usize = 63;

/// Accepted certificates with the same constraints.
pub struct Alike {
    /// The node.
    pub node: NodeFile,
    /// With no line but those that refute the parts.
    pub none: CertificateFile,
    /// With arithmetic lines.
    pub arithmetic: CertificateFile,
    /// With cuts.
    pub cuts: CertificateFile,
    /// How many of either.
    pub lines: usize,
}

/// The literals on a sum, on minus the sum, and on two multiples of it.
struct Group {
    sum: u16,
    minus: u16,
    multiples: [(u16, u16); 2],
}

/// As many lines as the largest file has room for, each of some literals on
/// constraints of some terms, at least two and one.
pub fn alike(random: &mut Random, literals: usize, terms: usize) -> Alike {
    let node = node();
    let mut draft = Draft::new(&node, DEPTH);
    refute(&mut draft).expect("room for a few lines");
    draft.begin_step();
    refute(&mut draft).expect("room for a few lines");
    let drawn = (0..GROUPS).map(|_| group(random, &mut draft, terms));
    let groups: Vec<Group> = drawn.collect::<Option<_>>().expect("room for all groups");
    let [mut with_sums, mut with_cuts] = [draft.clone(), draft.clone()];
    let lines = draft.room();
    // Version 1 had room for more: what is drawn after these stays the same.
    for _ in 0..lines + narrow::MORE {
        let line = cut(random, &groups, literals - 1);
        with_cuts.add(line);
        with_sums.add(arithmetic(line));
    }
    let [none, arithmetic, cuts] = [draft, with_sums, with_cuts].map(Draft::finish);
    Alike {
        node: node.clone(),
        none,
        arithmetic,
        cuts,
        lines,
    }
}

/// 0 is true and the property; the others are int inputs.
fn node() -> NodeFile {
    let mut records = vec![Record::constant(BOOL, 1)];
    records.resize(1 + INPUTS, Record::input(INT));
    NodeFile::new(records, 0)
}

/// A sum of that many terms, and its multiples by 2 to 5,000, their bounds
/// rounded off no further.
fn group(random: &mut Random, draft: &mut Draft, terms: usize) -> Option<Group> {
    let mut sum = Linear::bounded(random.within(0, 2_000) as i128 - 1_000);
    while sum.terms.len() < terms {
        let offset = random.within(0, DEPTH.into()) as u8;
        let stream = random.within(1, INPUTS) as u16;
        let coefficient = random.of([1, -1, 2, -3, 100, -100]);
        sum.terms.insert((offset, stream), coefficient);
    }
    let own = sum.constraint()?;
    let mut times = |draft: &mut Draft| {
        let by = random.within(2, 5_000) as u16;
        let mut multiple = Linear::default().plus_all(by.into(), &own);
        multiple.bound += random.below(by.into()) as i128;
        Some((draft.another(multiple.constraint()?)?, by))
    };
    Some(Group {
        multiples: [times(draft)?, times(draft)?],
        sum: draft.another(own)?,
        minus: draft.another(sum.negated(-sum.bound).constraint()?)?,
    })
}

/// A cut of some others: sums that are taken back, and one or two multiples
/// of the last constraint.
fn cut(random: &mut Random, groups: &[Group], others: usize) -> Line {
    let last = &groups[random.below(groups.len())];
    let (mut weighted, mut r) = (Vec::new(), 0);
    for (literal, by) in &last.multiples[..2 - others % 2] {
        let times = random.within(1, 6) as u16;
        weighted.push((opp(*literal), times.into()));
        r += by * times;
    }
    while weighted.len() < others {
        let group = &groups[random.below(groups.len())];
        let times = random.within(1, 1_000_000) as u32;
        weighted.extend([group.sum, group.minus].map(|literal| (opp(literal), times)));
    }
    random.shuffle(&mut weighted);
    weighted.push((last.sum, 0));
    Line::cut(r, &weighted)
}
