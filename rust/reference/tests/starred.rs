//! The starred cases of 01, the two bands as 02 has them redone.

mod common;
#[path = "common/examples.rs"]
mod examples;

use common::{accepted, constant_certificate, node_accepted, node_refused, trial, two_bands};
use reference::answer::{Place, Refusal};
use reference::build::search;
use reference::build::{lit, on, opp, Constraint, Line, NodeFile, Record, BOOL, INT};
use reference::certificate::check;
use reference::certificate::literal::{Atom, Literal};
use reference::certificate::Part::{Base, Step};
use reference::session::{begin, instant, Record as Session};

/// One instant's answer on a fresh session.
fn first_instant(node: &NodeFile, inputs: &[i64]) -> Result<Vec<i64>, Refusal> {
    let mut session = Session::new();
    begin(&mut session, &node.bytes())?;
    let mut values = vec![0; node.records.len()];
    instant(&mut session, inputs, &mut values)?;
    Ok(values)
}

/// "Inputs 1, 1 give 1, 1, 0, 0, 0, 1."
#[test]
fn two_bands_on_1_and_1() {
    let (node, _) = two_bands();
    assert_eq!(first_instant(&node, &[1, 1]), Ok(vec![1, 1, 0, 0, 0, 1]));
}

/// 01's clauses after "{!5}": "{5, 4}, join {4}, {!4, 0}, join {0}, {!4, 3},
/// join {3}, {!3, 2}, join {2}, {!2, !0}, join {!0}, join { }", at an offset.
/// The joins also have the literals `kept`.
fn eleven_clauses(q: u16, kept: &[u16]) -> Vec<Vec<u16>> {
    let at = |stream| lit(stream, q);
    let not = |stream| opp(at(stream));
    let joined = |literals: &[u16]| [literals, kept].concat();
    vec![
        vec![at(5), at(4)],
        joined(&[at(4)]),
        vec![not(4), at(0)],
        joined(&[at(0)]),
        vec![not(4), at(3)],
        joined(&[at(3)]),
        vec![not(3), at(2)],
        joined(&[at(2)]),
        vec![not(2), not(0)],
        joined(&[not(0)]),
        joined(&[]),
    ]
}

/// 02: "The two-band certificate, redone at both base instants, prints base 23
/// and step 12."
#[test]
fn two_bands_redone() {
    let (node, certificate) = two_bands();
    let verdict = check(&node.bytes(), &certificate.bytes()).unwrap();
    assert_eq!(verdict.to_string(), "accepted depth 1 base 23 step 12");
    let clauses = |lines: &[Line]| -> Vec<Vec<u16>> {
        let literals = lines.iter().map(Line::clause);
        literals.map(sorted).collect()
    };
    let fails = vec![11, 139];
    let base = [
        vec![fails],
        eleven_clauses(0, &[139]),
        eleven_clauses(1, &[]),
    ]
    .concat();
    let step = [vec![vec![139]], eleven_clauses(1, &[])].concat();
    for (lines, wanted) in [(&certificate.base, base), (&certificate.step, step)] {
        let wanted: Vec<_> = wanted.iter().map(|clause| sorted(clause)).collect();
        assert_eq!(clauses(lines), wanted);
    }
}

/// The literals of a clause, whose order in a join is free.
fn sorted(clause: &[u16]) -> Vec<u16> {
    let mut clause = clause.to_vec();
    clause.sort_unstable();
    clause
}

/// "!5 at offset 0 is literal 11, at offset 1 it is 139."
#[test]
fn literal_numbers() {
    for (offset, number) in [(0, 11), (1, 139)] {
        let literal = !Literal::stream(5, offset);
        assert_eq!(literal.number(), number);
        assert!(literal.is_negated());
        let (stream, offset) = (5, u16::from(offset));
        assert_eq!(literal.atom(), Atom::Stream { stream, offset });
        assert_eq!(literal.opposite().number(), number - 1);
        assert_eq!(literal.opposite().opposite(), literal);
        assert_eq!(opp(lit(5, offset)), number);
    }
    let (_, certificate) = two_bands();
    assert_eq!(certificate.base[0].clause(), [11, 139]);
    assert_eq!(certificate.step[0].clause(), [139]);
}

/// "Sum 0 + 0 on input 4611686018427387903 gives 9223372036854775806; one
/// more is 34; −4611686018427387904 is answered."
#[test]
fn sums_at_the_edge() {
    let records = vec![
        Record::input(INT),
        Record::sum(0, 0),
        Record::constant(BOOL, 1),
    ];
    let node = NodeFile::new(records, 2);
    let on = |input| first_instant(&node, &[input]);
    let most = 4_611_686_018_427_387_903;
    assert_eq!(on(most), Ok(vec![most, 9_223_372_036_854_775_806, 1]));
    assert_eq!(on(most + 1), Err(Refusal::new(34, Place::Record(1))));
    let least = -4_611_686_018_427_387_904;
    assert_eq!(on(least), Ok(vec![least, i64::MIN, 1]));
    assert_eq!(on(least - 1), Err(Refusal::new(34, Place::Record(1))));
}

/// "Opposites “u − v at most −1” and “v − u at most 0” pass as kind 4,
/// multipliers 1 and 1; with both bounds 0 it is 20."
#[test]
fn opposites_sum_to_minus_1() {
    let node = common::comparing_node();
    let mut certificate = constant_certificate(3, 1);
    certificate.constraints = vec![
        Constraint::new(&[(0, 0, 1), (1, 0, -1)], -1),
        Constraint::new(&[(0, 0, -1), (1, 0, 1)], 0),
        Constraint::new(&[(0, 0, 1), (1, 0, -1)], 0),
    ];
    let sum = |x, y| Line::arithmetic(&[(x, 1), (y, 1)]);
    for part in [Base, Step] {
        let answer = |line| trial(&node, &certificate, part, line);
        assert_eq!(answer(sum(opp(on(0)), opp(on(1)))), Ok(()));
        assert_eq!(answer(sum(opp(on(2)), opp(on(1)))), Err(20));
        // "u − v at most −1" is also the opposite of "v − u at most 0".
        assert_eq!(answer(sum(on(1), opp(on(1)))), Ok(()));
    }
}

/// "Depth 8 passes, 9 is 13."
#[test]
fn depths_8_and_9() {
    let (node, certificate) = two_bands();
    let found = search::certificate(&node.bytes(), 8).unwrap();
    accepted(&node, &found);
    let ring = examples::ring(8);
    accepted(&ring, &search::certificate(&ring.bytes(), 8).unwrap());
    for mut wrong in [found, certificate] {
        wrong.depth = 9;
        common::refused(&node, &wrong, 13, Place::File);
    }
}

/// "n = 64 passes, 65 is 3."
#[test]
fn streams_64_and_65() {
    let (mut node, certificate) = two_bands();
    node.records.resize(64, Record::input(BOOL));
    node_accepted(&node.bytes());
    accepted(&node, &certificate);
    node.records.push(Record::input(BOOL));
    node_refused(&node.bytes(), 3, Place::File);
    common::refused(&node, &certificate, 3, Place::File);
}

/// "No base lines: 21."
#[test]
fn no_base_lines() {
    let (node, mut certificate) = two_bands();
    certificate.base.clear();
    for line in certificate.step.iter_mut().filter(|line| line.kind == 3) {
        line.p -= 23;
        line.q -= 23;
    }
    common::refused(&node, &certificate, 21, Place::Base);
    certificate.step.clear();
    common::refused(&node, &certificate, 21, Place::Base);
}
