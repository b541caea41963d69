//! The windows of version 2: the base covers offsets 0 to k, the step begins
//! after the first instant, and no other version is read.

use differential::cases;
use differential::checker::{Place, Record as Session, Refusal, Verdict};
use differential::checkers::CHECKERS;
use differential::compare::{self, Origin};
use differential::draft::{Draft, MAX_BLOCKS};
use differential::largest;
use differential::miswindows::WAYS;
use differential::nodes;
use differential::random::Random;
use differential::tally::Tally;
use differential::windows;
use reference::build::{lit, opp, CertificateFile, Line, NodeFile, VERSION};
use std::collections::BTreeMap;

/// What all say of a certificate file.
fn said(origin: Origin, node: &NodeFile, certificate: &[u8]) -> Verdict {
    compare::pair(CHECKERS, origin, &node.bytes(), certificate)
}

/// A refusal by its number, with whatever place.
fn number(verdict: Verdict) -> u8 {
    verdict.map_or_else(|refusal| refusal.number, |_| 0)
}

/// Every version byte but 2 is refused with 12, and such a file has no note.
#[test]
fn other_versions() {
    for case in 0..60 {
        let origin = Origin { seed: 19, case };
        let mut random = Random::of_case(19, case);
        let Some((node, mut certificate)) = cases::among_windows(&mut random, None) else {
            continue;
        };
        certificate.note = nodes::note(&mut random, 40_000);
        for version in 0..=u8::MAX {
            let file = certificate.bytes_of_version(version);
            let verdict = said(origin, &node, &file);
            if version == VERSION {
                assert!(verdict.is_ok(), "{origin:?}: {verdict:?}");
                continue;
            }
            assert_eq!(verdict, Err(Refusal::file(12)), "{origin:?}: {version}");
            for by in CHECKERS {
                assert_eq!(by.certificate_note(&file), 0, "{}", by.name());
            }
        }
    }
}

/// A right certificate is accepted; with a line that goes by another window it
/// is refused by the way's number at that line. Each way is met often enough.
#[test]
fn spoiled_windows() {
    let mut tally = Tally::default();
    let mut met = BTreeMap::new();
    for case in 0..18_000 {
        let origin = Origin { seed: 20, case };
        let mut random = Random::of_case(20, case);
        let way = WAYS.get(case as usize % (2 * WAYS.len()));
        let Some((node, certificate)) = cases::among_windows(&mut random, way) else {
            continue;
        };
        let (node, file) = (node.bytes(), certificate.bytes());
        let verdict = compare::pair(CHECKERS, origin, &node, &file);
        let expected = way.map_or(0, |way| way.number);
        let name = way.map(|way| way.name);
        assert_eq!(number(verdict), expected, "{origin:?}: {name:?}");
        tally.verdict(verdict, &node, &file);
        *met.entry(name).or_insert(0) += 1;
    }
    println!("spoiled windows: {tally}; {met:?}");
    for way in &WAYS {
        assert!(met.get(&Some(way.name)) >= Some(&50), "{}", way.name);
    }
    assert!(tally.of(0) > 5_000 && tally.arrows > 500, "{tally}");
    assert!(tally.ends > 5_000, "{tally}");
}

/// The line of a certificate's first property line.
fn first_property(certificate: &CertificateFile) -> Option<usize> {
    let is_property = |line: &Line| line.kind == 2;
    certificate.base.iter().position(is_property)
}

/// A certificate in version 1's shape is refused: with 12 under its own version
/// byte, and under the other at the base's property line, one literal short.
#[test]
fn version_one() {
    let mut depths = BTreeMap::new();
    for case in 0..4_000 {
        let origin = Origin { seed: 21, case };
        let mut random = Random::of_case(21, case);
        let (node, certificate) = cases::of_version_1(&mut random);
        let before = said(origin, &node, &certificate.bytes_of_version(1));
        assert_eq!(before, Err(Refusal::file(12)), "{origin:?}");
        let line = first_property(&certificate).expect("a base refuted");
        let short = Refusal::new(18, Place::Line(line));
        let now = said(origin, &node, &certificate.bytes());
        assert_eq!(now, Err(short), "{origin:?}");
        *depths.entry(certificate.depth).or_insert(0) += 1;
    }
    println!("version 1 by depth: {depths:?}");
    assert!((1..=8).all(|depth| depths[&depth] >= 100), "{depths:?}");
}

/// The property's values at instants 0 to `last` of a node without inputs.
fn property(node: &NodeFile, last: u8) -> Vec<i64> {
    let origin = Origin { seed: 22, case: 0 };
    let mut session = Session::new();
    compare::begin(CHECKERS, origin, &mut session, &node.bytes()).expect("a right node");
    let mut values = vec![0; node.records.len()];
    let mut instant = |_| {
        compare::instant(CHECKERS, origin, &mut session, &[], &mut values).expect("small values");
        values[usize::from(node.property)]
    };
    (0..=last).map(&mut instant).collect()
}

/// The base with one literal more in its property line and in each join.
fn with_literal(base: &mut [Line], literal: u16) {
    for line in base.iter_mut().filter(|line| matches!(line.kind, 2 | 3)) {
        line.literals[usize::from(line.count)] = literal;
        line.count += 1;
    }
}

/// A base that ends at k − 1 beside a step that begins after the first instant
/// would show a property that fails at instant k: it is refused at each depth.
/// All else is right: with not-prop at k every line passes, and the base has no
/// empty one.
#[test]
fn instant_k_is_looked_at() {
    for k in 1..=8 {
        let origin = Origin {
            seed: 22,
            case: k.into(),
        };
        let node = windows::short_node(k);
        let values = property(&node, k + 2);
        let expected = (0..=k + 2).map(|t| i64::from(t != k));
        assert!(values.iter().copied().eq(expected), "{k}: {values:?}");
        let mut draft = Draft::new(&node, k);
        draft.base_end -= 1;
        windows::short(&mut draft);
        draft.begin_step();
        windows::short(&mut draft);
        let mut short = draft.finish();
        let verdict = said(origin, &node, &short.bytes());
        assert_eq!(verdict, Err(Refusal::new(18, Place::Line(0))), "{k}");
        with_literal(&mut short.base, opp(lit(node.property, k.into())));
        let verdict = said(origin, &node, &short.bytes());
        assert_eq!(verdict, Err(Refusal::new(21, Place::Base)), "{k}");
    }
}

/// The certificates that are measured are accepted, and as large as they were
/// in version 1.
#[test]
fn measured_files() {
    let mut random = Random::new(1);
    let others = [largest::CUTS, largest::OF_INTS];
    for kind in [&largest::KINDS[..], &others].concat() {
        for (lines, case) in [(80, 0), (MAX_BLOCKS, 1)] {
            let node = largest::node(&mut random, kind.ints, false);
            let certificate = largest::as_before(&mut random, &node, 2, kind, lines);
            let origin = Origin { seed: 1, case };
            let verdict = said(origin, &node, &certificate.bytes());
            assert!(verdict.is_ok(), "{}: {verdict:?}", kind.name);
            let count = certificate.base.len() + certificate.step.len();
            let whole = count + certificate.constraints.len() == MAX_BLOCKS;
            assert!(count == lines || whole, "{}: {count}", kind.name);
        }
    }
}
