//! Refusal 22: each condition of a cut alone, at its limits and one past them.

mod common;

use common::{constant_certificate, trial};
use reference::build::{lit, on, opp};
use reference::build::{CertificateFile, Constraint, Line, NodeFile, Record, BOOL, INT};
use reference::certificate::Part::{Base, Step};

/// 0 bool input; 1, 2, 3 int inputs u, v, w; 4 true, the property.
fn node() -> NodeFile {
    let inputs = [BOOL, INT, INT, INT].map(Record::input);
    let mut records = inputs.to_vec();
    records.push(Record::constant(BOOL, 1));
    NodeFile::new(records, 4)
}

/// Terms of u, v and w at offset 0, with a bound.
type Terms<'a> = (&'a [(u16, i32)], i64);

fn certificate(constraints: &[Terms]) -> CertificateFile {
    let made = constraints.iter().map(|(terms, bound)| {
        let terms: Vec<_> = terms.iter().map(|(s, c)| (*s, 0, *c)).collect();
        Constraint::new(&terms, *bound)
    });
    CertificateFile {
        constraints: made.collect(),
        ..constant_certificate(4, 1)
    }
}

/// The number by which a line over these constraints is refused at the end of
/// either part, if it is.
#[track_caller]
fn answer(constraints: &[Terms], line: Line) -> Result<(), u8> {
    let (node, certificate) = (node(), certificate(constraints));
    let [base, step] = [Base, Step].map(|part| trial(&node, &certificate, part, line));
    assert_eq!(base, step);
    base
}

/// The answer to the cut by r of constraint 0, times 1, to constraint 1.
#[track_caller]
fn cut(r: u16, from: Terms, to: Terms) -> Result<(), u8> {
    answer(&[from, to], Line::cut(r, &[(opp(on(0)), 1), (on(1), 0)]))
}

/// Constraint 0 is 2u − 2v at most 5, 1 is u − v at most 2, 2 is the same,
/// 3 is 0 at most 0, 4 is 0 at most −1, 5 is 2v − 2u at most −5.
const PAIRS: [Terms<'static>; 6] = [
    (&[(1, 2), (2, -2)], 5),
    (&[(1, 1), (2, -1)], 2),
    (&[(1, 1), (2, -1)], 2),
    (&[], 0),
    (&[], -1),
    (&[(1, -2), (2, 2)], -5),
];

/// The answer to a cut over [`PAIRS`].
#[track_caller]
fn pairs(r: u16, weighted: &[(u16, u32)]) -> Result<(), u8> {
    answer(&PAIRS, Line::cut(r, weighted))
}

/// The right cut that is spoiled below.
fn right() -> Line {
    Line::cut(2, &[(opp(on(0)), 1), (on(1), 0)])
}

#[test]
fn the_bound_is_the_floor() {
    let rows = [
        (5, 2, 2),
        (4, 2, 2),
        (1, 2, 0),
        (0, 2, 0),
        (-1, 2, -1),
        (-4, 2, -2),
        (-5, 2, -3),
        (-6, 3, -2),
        (-7, 3, -3),
        (7, 1, 7),
        (-7, 1, -7),
        (65_534, 65_535, 0),
        (65_535, 65_535, 1),
        (-1, 65_535, -1),
        (-65_535, 65_535, -1),
        (-65_536, 65_535, -2),
        (100_000_000_000, 3, 33_333_333_333),
        (-100_000_000_000, 3, -33_333_333_334),
    ];
    for (bound, r, floor) in rows {
        let terms = [(1, i32::from(r)), (3, -2 * i32::from(r))];
        let cut_to = |to| cut(r, (&terms, bound), (&[(1, 1), (3, -2)], to));
        assert_eq!(cut_to(floor), Ok(()), "{bound} by {r}");
        assert_eq!(cut_to(floor + 1), Err(22), "{bound} by {r}");
        assert_eq!(cut_to(floor - 1), Err(22), "{bound} by {r}");
    }
}

#[test]
fn r_and_its_limits() {
    assert_eq!(answer(&PAIRS, right()), Ok(()));
    for r in [0, 1, 3, 4, 65_535] {
        assert_eq!(answer(&PAIRS, Line { r, ..right() }), Err(22));
    }
    for r in [1, 2, 65_534, 65_535] {
        let terms = [(2, i32::from(r))];
        assert_eq!(cut(r, (&terms, 0), (&[(2, 1)], 0)), Ok(()));
        assert_eq!(cut(r - 1, (&terms, 0), (&[(2, 1)], 0)), Err(22));
        // Where all coefficients are 0 no r but 0 is too small.
        assert_eq!(cut(r, (&[], 0), (&[], 0)), Ok(()));
    }
    assert_eq!(cut(0, (&[], 0), (&[], 0)), Err(22));
    // Any r, but not with p or q.
    assert_eq!(answer(&PAIRS, Line { p: 1, ..right() }), Err(16));
    assert_eq!(answer(&PAIRS, Line { q: 1, ..right() }), Err(16));
    let r = 0;
    assert_eq!(answer(&PAIRS, Line { p: 1, r, ..right() }), Err(16));
}

#[test]
fn every_coefficient_counts() {
    let from: Terms = (&[(1, 6), (2, -3), (3, 9)], 3);
    let to = |terms: &[(u16, i32)]| cut(3, from, (terms, 1));
    assert_eq!(to(&[(1, 2), (2, -1), (3, 3)]), Ok(()));
    for terms in [
        [(1, 1), (2, -1), (3, 3)],
        [(1, 3), (2, -1), (3, 3)],
        [(1, 2), (2, -2), (3, 3)],
        [(1, 2), (2, 1), (3, 3)],
        [(1, 2), (2, -1), (3, 2)],
        [(1, 2), (2, -1), (3, 4)],
        [(1, -2), (2, 1), (3, -3)],
    ] {
        assert_eq!(to(&terms), Err(22));
    }
    // A variable that one side alone has, be it the first or the last.
    for terms in [
        &[(2, -1), (3, 3)][..],
        &[(1, 2), (3, 3)],
        &[(1, 2), (2, -1)],
        &[],
    ] {
        assert_eq!(to(terms), Err(22));
        assert_eq!(cut(1, (terms, 1), (&[(1, 2), (2, -1), (3, 3)], 1)), Err(22));
    }
    // A coefficient that is no multiple of r.
    assert_eq!(cut(2, (&[(1, 3)], 2), (&[(1, 1)], 1)), Err(22));
    assert_eq!(cut(2, (&[(1, 1)], 0), (&[], 0)), Err(22));
    assert_eq!(cut(2, (&[(1, -3)], 2), (&[(1, -1)], 1)), Err(22));
    assert_eq!(cut(2, (&[(1, -3)], 2), (&[(1, -2)], 1)), Err(22));
}

#[test]
fn the_same_stream_at_another_offset_is_another_variable() {
    let mut certificate = certificate(&[(&[(1, 2)], 0), (&[(1, 1)], 0)]);
    let line = Line::cut(2, &[(opp(on(0)), 1), (on(1), 0)]);
    assert_eq!(trial(&node(), &certificate, Step, line), Ok(()));
    certificate.constraints[1].terms[0].offset = 1;
    assert_eq!(trial(&node(), &certificate, Step, line), Err(22));
}

#[test]
fn the_last_literal() {
    let (not_0, last) = ((opp(on(0)), 1), on(1));
    assert_eq!(pairs(2, &[not_0, (last, 0)]), Ok(()));
    assert_eq!(pairs(2, &[not_0, (opp(last), 0)]), Err(22));
    for multiplier in [1, 2, 1_000_000, 1_000_001, u32::MAX] {
        assert_eq!(pairs(2, &[not_0, (last, multiplier)]), Err(22));
    }
    // It stands last, and an equal constraint serves as well.
    assert_eq!(pairs(2, &[(last, 0), not_0]), Err(22));
    assert_eq!(pairs(2, &[not_0, (on(2), 0)]), Ok(()));
    // Another follows it; a bool literal is none.
    assert_eq!(pairs(2, &[not_0, (last, 0), (on(3), 0)]), Err(22));
    assert_eq!(pairs(2, &[not_0, (lit(0, 0), 0)]), Err(22));
    assert_eq!(pairs(1, &[(lit(0, 0), 0)]), Err(22));
}

#[test]
fn the_other_literals() {
    let last = (on(1), 0);
    assert_eq!(pairs(2, &[(lit(0, 0), 1), (opp(on(0)), 1), last]), Err(22));
    assert_eq!(pairs(2, &[(opp(on(0)), 1), (lit(0, 1), 1), last]), Err(22));
    // The opposite of "2v − 2u at most −5" is "2u − 2v at most 4".
    assert_eq!(pairs(2, &[(on(5), 1), last]), Ok(()));
    assert_eq!(pairs(2, &[(opp(on(5)), 1), last]), Err(22));
    assert_eq!(pairs(2, &[(on(0), 1), last]), Err(22));
    // Repeated ones add up: 2·(2u − 2v at most 5) by 4, and by 2 and 2.
    let twice = [(opp(on(0)), 1), (opp(on(0)), 1), last];
    assert_eq!(pairs(4, &twice), Ok(()));
    assert_eq!(pairs(4, &[(opp(on(0)), 2), last]), Ok(()));
    assert_eq!(pairs(4, &[(opp(on(0)), 1), (on(5), 1), last]), Ok(()));
    assert_eq!(pairs(2, &twice), Err(22));
    // Constraints without terms move the bound alone.
    let less = |times| pairs(2, &[(opp(on(0)), 1), (opp(on(4)), times), last]);
    assert_eq!(less(1), Ok(()));
    assert_eq!(less(2), Err(22));
    assert_eq!(pairs(2, &[(opp(on(0)), 1), (on(3), 1), last]), Ok(()));
    assert_eq!(pairs(2, &[(opp(on(0)), 1), (on(4), 7), last]), Ok(()));
}

#[test]
fn the_last_constraint_among_the_others() {
    let (itself, last) = ((opp(on(1)), 3), (on(1), 0));
    assert_eq!(pairs(3, &[itself, last]), Ok(()));
    assert_eq!(pairs(2, &[itself, last]), Err(22));
    assert_eq!(pairs(3, &[(opp(on(1)), 1), itself, last]), Err(22));
    assert_eq!(pairs(5, &[(opp(on(0)), 1), itself, last]), Ok(()));
    // Both its signs: 3·(u − v) and back, and 2u − 2v.
    let back = (on(1), 3);
    assert_eq!(pairs(2, &[(opp(on(0)), 1), itself, back, last]), Err(22));
    assert_eq!(
        pairs(2, &[(opp(on(0)), 1), (opp(on(1)), 1), (on(1), 1), last]),
        Ok(())
    );
}

#[test]
fn a_cut_of_nothing() {
    for r in [1, 2, 65_535] {
        assert_eq!(pairs(r, &[(on(3), 0)]), Ok(()));
        assert_eq!(pairs(r, &[(on(4), 0)]), Err(22));
        assert_eq!(pairs(r, &[(on(1), 0)]), Err(22));
        assert_eq!(answer(&[(&[], 1)], Line::cut(r, &[(on(0), 0)])), Err(22));
        assert_eq!(pairs(r, &[(opp(on(3)), 0)]), Err(22));
        assert_eq!(pairs(r, &[]), Err(22));
    }
    assert_eq!(pairs(0, &[(on(3), 0)]), Err(22));
    assert_eq!(pairs(0, &[]), Err(22));
}

#[test]
fn multipliers() {
    let times = |m: u32, to: Terms| {
        let constraints = [(&[(1, 1), (2, -1)][..], 1), to];
        answer(&constraints, Line::cut(1, &[(opp(on(0)), m), (on(1), 0)]))
    };
    for m in [1, 2, 999_999, 1_000_000] {
        assert_eq!(times(m as u32, (&[(1, m), (2, -m)], m.into())), Ok(()));
        assert_eq!(times(m as u32 - 1, (&[(1, m), (2, -m)], m.into())), Err(22));
    }
    // Past the limits, though the sums are right.
    let m = 1_000_001;
    assert_eq!(times(m as u32, (&[(1, m), (2, -m)], m.into())), Err(22));
    assert_eq!(times(0, (&[], 0)), Err(22));
    assert_eq!(times(u32::MAX, (&[], 0)), Err(22));
    // One of two; those past the count are 16's.
    for wrong in [0, 1_000_001] {
        let others = [(opp(on(0)), 1), (opp(on(3)), wrong)];
        assert_eq!(pairs(2, &[others[0], others[1], (on(1), 0)]), Err(22));
        assert_eq!(pairs(2, &[others[1], others[0], (on(1), 0)]), Err(22));
    }
    for i in 2..12 {
        let mut line = right();
        line.multipliers[i] = 1;
        assert_eq!(answer(&PAIRS, line), Err(16));
        line = right();
        line.literals[i] = on(3);
        assert_eq!(answer(&PAIRS, line), Err(16));
    }
}

#[test]
fn refusal_16_comes_first() {
    // Not a cut in any way, with a literal that names no atom.
    for literal in [lit(1, 0), lit(0, 2), on(6), 65_535] {
        assert_eq!(pairs(0, &[(opp(on(0)), 0), (literal, 1)]), Err(16));
        assert_eq!(pairs(0, &[(literal, 0), (opp(on(1)), 1)]), Err(16));
        assert_eq!(pairs(2, &[(opp(on(0)), 1), (literal, 0)]), Err(16));
    }
    let twelve = [
        [(opp(on(3)), 1); 10].as_slice(),
        &[(opp(on(0)), 1), (on(1), 0)],
    ]
    .concat();
    assert_eq!(pairs(2, &twelve), Ok(()));
    assert_eq!(pairs(2, &[&twelve[..], &[(on(1), 0)]].concat()), Err(16));
}

#[test]
fn the_largest_sums_are_exact() {
    let eleven = |from, to| {
        let others = [(opp(on(0)), 1_000_000); 11];
        let weighted = [&others[..], &[(on(1), 0)]].concat();
        answer(&[from, to], Line::cut(65_535, &weighted))
    };
    // 11,000,000 times 5,950,578 is 65,535 times 998,800,000.
    let [from, to] = [5_950_578, 998_800_000].map(|c| [(1, c), (2, -c)]);
    for bound in [595_772_727_i64, -595_772_727] {
        let floor = (11_000_000 * bound).div_euclid(65_535);
        assert_eq!(eleven((&from, bound), (&to, floor)), Ok(()));
        assert_eq!(eleven((&from, bound), (&to, floor + 1)), Err(22));
        assert_eq!(eleven((&from, bound), (&to, floor - 1)), Err(22));
    }
    // No constraint can say these.
    let most = [(1, 1_000_000_000), (2, -1_000_000_000)];
    for bound in [100_000_000_000, -100_000_000_000] {
        assert_eq!(eleven((&most, 0), (&most, 0)), Err(22));
        assert_eq!(eleven((&most, bound), (&most, bound)), Err(22));
        assert_eq!(eleven((&[], bound), (&[], bound)), Err(22));
    }
}
