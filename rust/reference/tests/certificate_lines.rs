//! Refusals 16 to 21, their places and their limits; 22 is in `cut_lines.rs`,
//! and what 17 leaves to multiples is in `factor_lines.rs`.

mod common;

use common::{accepted, constant_certificate, refused, trial, two_bands, with_base_lines};
use reference::answer::Place;
use reference::build::{lit, on, opp};
use reference::build::{CertificateFile, Constraint, Line, NodeFile, Record, BOOL, INT};
use reference::certificate::Part::{Base, Step};

/// 0 bool input; 1, 2 int inputs u, v; 3 true, the property; 4 bool input.
fn node() -> NodeFile {
    let records = vec![
        Record::input(BOOL),
        Record::input(INT),
        Record::input(INT),
        Record::constant(BOOL, 1),
        Record::input(BOOL),
    ];
    NodeFile::new(records, 3)
}

/// Constraint 0 is u − v at most −1, 1 is v − u at most 0, 2 is u − v at most
/// 0, 3 is 0 at most −1, 4 is 0 at most 0, 5 is 2u − 2v at most −1.
fn constraints() -> Vec<Constraint> {
    vec![
        Constraint::new(&[(1, 0, 1), (2, 0, -1)], -1),
        Constraint::new(&[(1, 0, -1), (2, 0, 1)], 0),
        Constraint::new(&[(1, 0, 1), (2, 0, -1)], 0),
        Constraint::new(&[], -1),
        Constraint::new(&[], 0),
        Constraint::new(&[(1, 0, 2), (2, 0, -2)], -1),
    ]
}

fn certificate(depth: u8) -> CertificateFile {
    CertificateFile {
        constraints: constraints(),
        ..constant_certificate(3, depth)
    }
}

/// The number by which a line is refused at the end of the step, if it is.
#[track_caller]
fn step(line: Line) -> Result<(), u8> {
    trial(&node(), &certificate(2), Step, line)
}

/// The number by which a line is refused at the end of the base, if it is.
#[track_caller]
fn base(line: Line) -> Result<(), u8> {
    trial(&node(), &certificate(2), Base, line)
}

/// Lines that are right at the end of either part at depth 2, one a kind.
fn right_lines() -> Vec<Line> {
    vec![
        Line::equation(3, 1, 0, &[lit(3, 1)]),
        Line::arithmetic(&[(opp(on(0)), 1), (opp(on(1)), 1)]),
        Line::cut(2, &[(opp(on(5)), 1), (on(0), 0)]),
    ]
}

#[test]
fn right_lines_pass() {
    for line in right_lines() {
        assert_eq!(base(line), Ok(()));
        assert_eq!(step(line), Ok(()));
    }
    assert_eq!(base(Line::property(0, &[7, 135, 263])), Ok(()));
    assert_eq!(step(Line::property(0, &[6])), Ok(()));
    assert_eq!(step(Line::property(1, &[134])), Ok(()));
    assert_eq!(step(Line::property(2, &[263])), Ok(()));
}

#[test]
fn refusal_16_kind() {
    for line in right_lines() {
        for kind in [0, 6, 7, 255] {
            assert_eq!(base(Line { kind, ..line }), Err(16));
            assert_eq!(step(Line { kind, ..line }), Err(16));
        }
    }
    assert_eq!(step(Line::default()), Err(16));
}

#[test]
fn refusal_16_counts() {
    // Twelve literals in a join are as good as none: more may stand there.
    let many: Vec<u16> = vec![lit(0, 0); 13];
    let (node, certificate) = (node(), certificate(2));
    let first = u16::try_from(certificate.base.len()).unwrap();
    let joined = |literals: &[u16]| Line::join(first + 1, first, lit(3, 2), literals);
    for count in [0, 1, 11, 12] {
        let line = joined(&many[..count]);
        assert_eq!(trial(&node, &certificate, Step, line), Ok(()));
    }
    assert_eq!(trial(&node, &certificate, Step, joined(&many)), Err(16));
    for count in [13, 14, 128, 255] {
        let line = Line {
            count,
            ..joined(&many)
        };
        assert_eq!(trial(&node, &certificate, Step, line), Err(16));
        assert_eq!(trial(&node, &certificate, Base, line), Err(16));
    }
}

#[test]
fn refusal_16_unused_literals() {
    for line in right_lines() {
        for i in usize::from(line.count)..12 {
            let mut wrong = line;
            wrong.literals[i] = 1;
            assert_eq!(step(wrong), Err(16));
        }
    }
    // Literal 0 is a literal: a count one higher makes another clause of it.
    let line = right_lines()[0];
    assert_eq!(step(Line { count: 2, ..line }), Err(17));
    assert_eq!(step(Line { count: 0, ..line }), Err(16));
}

#[test]
fn refusal_16_unused_fields() {
    let property = Line::property(2, &[263]);
    assert_eq!(step(Line { p: 1, ..property }), Err(16));
    assert_eq!(step(Line { r: 1, ..property }), Err(16));
    assert_eq!(
        step(Line {
            p: 65_535,
            ..property
        }),
        Err(16)
    );
    let arithmetic = right_lines()[1];
    assert_eq!(step(Line { p: 1, ..arithmetic }), Err(16));
    assert_eq!(step(Line { q: 1, ..arithmetic }), Err(16));
    assert_eq!(
        step(Line {
            r: 256,
            ..arithmetic
        }),
        Err(16)
    );
    let cut = right_lines()[2];
    assert_eq!(step(Line { p: 1, ..cut }), Err(16));
    assert_eq!(step(Line { q: 256, ..cut }), Err(16));
}

#[test]
fn refusal_16_unused_multipliers() {
    let [equation, arithmetic, cut] = right_lines()[..] else {
        unreachable!()
    };
    let first = u16::try_from(certificate(2).base.len()).unwrap();
    let join = Line::join(first + 1, first, lit(3, 2), &[]);
    assert_eq!(step(join), Ok(()));
    let property = Line::property(2, &[263]);
    for line in [equation, property, join] {
        for i in 0..12 {
            let mut wrong = line;
            wrong.multipliers[i] = 1;
            assert_eq!(step(wrong), Err(16));
        }
    }
    for line in [arithmetic, cut] {
        for i in 2..12 {
            let mut wrong = line;
            wrong.multipliers[i] = 1;
            assert_eq!(step(wrong), Err(16));
        }
    }
}

#[test]
fn refusal_16_multipliers() {
    let sum = |multiplier| Line::arithmetic(&[(opp(on(0)), multiplier), (opp(on(1)), multiplier)]);
    for multiplier in [1, 2, 999_999, 1_000_000] {
        assert_eq!(step(sum(multiplier)), Ok(()));
        assert_eq!(base(sum(multiplier)), Ok(()));
    }
    for multiplier in [0, 1_000_001, u32::MAX] {
        assert_eq!(step(sum(multiplier)), Err(16));
        assert_eq!(base(sum(multiplier)), Err(16));
    }
    assert_eq!(
        step(Line::arithmetic(&[(opp(on(0)), 1), (opp(on(1)), 0)])),
        Err(16)
    );
}

#[test]
fn refusal_16_atoms() {
    let named = |literal: u16| {
        let (node, certificate) = (node(), certificate(2));
        let first = u16::try_from(certificate.base.len()).unwrap();
        let line = Line::join(first + 1, first, lit(3, 2), &[literal]);
        trial(&node, &certificate, Step, line)
    };
    for stream in [0, 3, 4] {
        for offset in [0, 1, 2] {
            assert_eq!(named(lit(stream, offset)), Ok(()));
            assert_eq!(named(opp(lit(stream, offset))), Ok(()));
        }
        // Offsets past k.
        for offset in [3, 4, 8] {
            assert_eq!(named(lit(stream, offset)), Err(16));
        }
    }
    // Int streams, streams past n, constraints past the last.
    for wrong in [
        lit(1, 0),
        lit(2, 2),
        lit(5, 0),
        lit(63, 1),
        on(6),
        on(255),
        65_535,
        65_534,
    ] {
        assert_eq!(named(wrong), Err(16));
        assert_eq!(named(opp(wrong)), Err(16));
    }
    for i in 0..6 {
        assert_eq!(named(on(i)), Ok(()));
        assert_eq!(named(opp(on(i))), Ok(()));
    }
}

#[test]
fn offset_k_and_k_plus_1_at_each_depth() {
    for depth in 1..=8 {
        // No constraints: offset 9 would be the atom of constraint 0.
        let certificate = constant_certificate(3, depth);
        let k = u16::from(depth);
        let first = u16::try_from(certificate.base.len()).unwrap();
        let line = |q| Line::join(first + 1, first, lit(3, k), &[lit(0, q)]);
        assert_eq!(trial(&node(), &certificate, Step, line(k)), Ok(()));
        assert_eq!(trial(&node(), &certificate, Step, line(k + 1)), Err(16));
        let equation = |q| Line::equation(3, q, 0, &[lit(3, q)]);
        let outside = Line::equation(3, k + 1, 0, &[lit(3, k)]);
        for part in [Base, Step] {
            for q in 0..=k {
                assert_eq!(trial(&node(), &certificate, part, equation(q)), Ok(()));
            }
            assert_eq!(trial(&node(), &certificate, part, equation(k + 1)), Err(16));
            assert_eq!(trial(&node(), &certificate, part, outside), Err(17));
        }
    }
}

/// Past depth 8 a stream's atom would be a constraint's, so that 16 does not
/// stand before 17 and 18.
#[test]
fn offset_9_is_past_k_though_its_literals_name_atoms() {
    let mut certificate = constant_certificate(3, 8);
    certificate.constraints = vec![Constraint::new(&[], 0); 4];
    assert_eq!(lit(3, 9), on(3));
    let equation = Line::equation(3, 9, 0, &[on(3)]);
    let fails: Vec<u16> = (0..=9).map(|q| opp(lit(3, q))).collect();
    for part in [Base, Step] {
        let answer = |line| trial(&node(), &certificate, part, line);
        assert_eq!(answer(equation), Err(17));
        assert_eq!(answer(Line::property(9, &[on(3)])), Err(18));
        assert_eq!(answer(Line::property(9, &[opp(on(3))])), Err(18));
        assert_eq!(answer(Line::property(0, &fails)), Err(18));
    }
}

/// 02: "the base covers instants 0 to k, its property line too".
#[test]
fn the_base_s_property_line_at_each_depth() {
    for depth in 1..=8 {
        let certificate = constant_certificate(3, depth);
        let k = u16::from(depth);
        let answer = |q, literals: &[u16]| {
            let line = Line::property(q, literals);
            trial(&node(), &certificate, Base, line)
        };
        let fails: Vec<u16> = (0..=k).map(|q| opp(lit(3, q))).collect();
        let (most, last) = (&fails[..depth.into()], opp(lit(3, k)));
        assert_eq!(answer(0, &fails), Ok(()));
        assert_eq!(answer(k, &fails), Err(18));
        assert_eq!(answer(k + 1, &fails), Err(18));
        // k literals, at either end; k + 2, the last one twice or past k.
        assert_eq!(answer(0, most), Err(18));
        assert_eq!(answer(0, &fails[1..]), Err(18));
        assert_eq!(answer(0, &[&fails[..], &[last]].concat()), Err(18));
        let past = opp(lit(3, k + 1));
        assert_eq!(answer(0, &[&fails[..], &[past]].concat()), Err(16));
        // k + 1 of them, but another stream's, or the opposite at the end.
        assert_eq!(answer(0, &[most, &[opp(lit(0, k))]].concat()), Err(18));
        assert_eq!(answer(0, &[most, &[lit(3, k)]].concat()), Err(18));
        let falling: Vec<u16> = fails.iter().rev().copied().collect();
        assert_eq!(answer(0, &falling), Err(18));
    }
}

#[test]
fn refusal_16_comes_before_the_kind_s_own() {
    // A wrong equation with a literal that names no atom.
    assert_eq!(step(Line::equation(9, 9, 9, &[lit(1, 0)])), Err(16));
    assert_eq!(step(Line::property(9, &[lit(1, 0)])), Err(16));
    assert_eq!(step(Line::join(999, 999, 0, &[lit(1, 0)])), Err(16));
    assert_eq!(step(Line::arithmetic(&[(lit(0, 0), 0)])), Err(16));
    assert_eq!(step(Line::cut(0, &[(lit(1, 0), 0)])), Err(16));
}

#[test]
fn refusal_17_no_such_clause() {
    let right = right_lines()[0];
    for line in [
        Line { p: 0, ..right },
        Line { p: 5, ..right },
        Line { p: 64, ..right },
        Line { p: 259, ..right },
        Line { p: 65_535, ..right },
        Line { q: 0, ..right },
        Line { q: 2, ..right },
        Line { q: 3, ..right },
        Line { q: 257, ..right },
        Line { q: 65_535, ..right },
        Line { r: 1, ..right },
        Line { r: 256, ..right },
        Line { r: 65_535, ..right },
        Line::equation(3, 1, 0, &[]),
        Line::equation(3, 1, 0, &[opp(lit(3, 1))]),
        Line::equation(3, 1, 0, &[lit(3, 1), lit(3, 1)]),
        Line::equation(0, 0, 0, &[lit(0, 0)]),
        Line::equation(1, 0, 0, &[on(0)]),
    ] {
        assert_eq!(step(line), Err(17));
        assert_eq!(base(line), Err(17));
    }
}

#[test]
fn refusal_18_property() {
    // Base, depth 2: exactly {!3 at 0, !3 at 1, !3 at 2}, q = 0.
    for literals in [
        &[7][..],
        &[263],
        &[7, 135],
        &[135, 263],
        &[263, 135, 7],
        &[7, 263, 135],
        &[135, 7, 263],
        &[6, 134, 262],
        &[6, 135, 263],
        &[7, 134, 263],
        &[7, 135, 262],
        &[7, 135, 135],
        &[7, 7, 135],
        &[7, 135, 263, 263],
        &[],
    ] {
        assert_eq!(base(Line::property(0, literals)), Err(18));
    }
    for q in [1, 2, 3, 256, 65_535] {
        assert_eq!(base(Line::property(q, &[7, 135, 263])), Err(18));
    }
    // Step, depth 2: {3 at 0}, {3 at 1}, {!3 at 2}.
    let cases: [(u16, &[u16]); 15] = [
        (0, &[7]),
        (1, &[135]),
        (2, &[262]),
        (0, &[134]),
        (1, &[6]),
        (2, &[7]),
        (2, &[7, 135]),
        (0, &[7, 135, 263]),
        (3, &[6]),
        (3, &[263]),
        (256, &[6]),
        (65_535, &[263]),
        (0, &[]),
        (2, &[263, 263]),
        (0, &[lit(0, 0)]),
    ];
    for (q, literals) in cases {
        assert_eq!(step(Line::property(q, literals)), Err(18));
    }
}

/// The two bands' certificate with one line replaced.
fn two_bands_with(number: usize, line: Line) -> (NodeFile, CertificateFile) {
    let (node, mut certificate) = two_bands();
    match number.checked_sub(certificate.base.len()) {
        Some(i) => certificate.step[i] = line,
        None => certificate.base[number] = line,
    }
    (node, certificate)
}

#[track_caller]
fn join_refused(number: usize, line: Line) {
    let (node, certificate) = two_bands_with(number, line);
    refused(&node, &certificate, 19, Place::Line(number));
}

#[test]
fn refusal_19_lines_not_lower_or_of_the_other_part() {
    let (_, certificate) = two_bands();
    let right = certificate.base[4];
    assert_eq!((right.p, right.q, right.r), (2, 3, lit(4, 0)));
    for (p, q) in [
        (4, 3),
        (2, 4),
        (2, 5),
        (23, 3),
        (2, 24),
        (35, 3),
        (65_535, 65_535),
    ] {
        join_refused(4, Line { p, q, ..right });
    }
    let right = certificate.step[2];
    assert_eq!((right.p, right.q, right.r), (24, 23, lit(5, 1)));
    for (p, q) in [
        (1, 23),
        (24, 0),
        (1, 0),
        (24, 22),
        (25, 23),
        (24, 26),
        (2, 23),
    ] {
        join_refused(25, Line { p, q, ..right });
    }
    // The base has lines with the very same literals.
    assert_eq!(certificate.base[12].clause(), certificate.step[1].clause());
    assert_eq!(certificate.base[11].clause(), certificate.step[0].clause());
    for (p, q) in [(12, 23), (24, 11), (12, 11)] {
        join_refused(25, Line { p, q, ..right });
    }
}

#[test]
fn refusal_19_literals() {
    let (_, certificate) = two_bands();
    // Line 4 joins {4, !5 at 1} and {!4, 0} to {!5 at 1, 0}.
    let right = certificate.base[4];
    let not_5 = opp(lit(5, 1));
    assert_eq!(right.clause(), [not_5, lit(0, 0)]);
    for r in [
        opp(lit(4, 0)),
        lit(0, 0),
        lit(4, 1),
        lit(1, 0),
        65_535,
        0x8000 + lit(4, 0),
    ] {
        join_refused(4, Line { r, ..right });
    }
    // The wrong way round for r = 4.
    join_refused(
        4,
        Line {
            p: 3,
            q: 2,
            ..right
        },
    );
    for literals in [
        &[][..],
        &[not_5],
        &[lit(0, 0)],
        &[opp(not_5), lit(0, 0)],
        &[not_5, lit(1, 0)],
        &[not_5, lit(4, 0)],
    ] {
        join_refused(4, Line::join(2, 3, lit(4, 0), literals));
    }
    // A line with itself.
    join_refused(4, Line { q: 2, ..right });
    join_refused(4, Line { p: 3, ..right });
}

#[test]
fn refusal_19_r_stands_in_p_and_its_opposite_in_q() {
    // All literals of both lines stand in the join, so nothing is struck;
    // yet r stands not in p, or its opposite not in q.
    let (node, certificate) = two_bands();
    let all = [
        lit(4, 0),
        opp(lit(4, 0)),
        lit(0, 0),
        lit(1, 0),
        opp(lit(1, 0)),
        opp(lit(5, 1)),
    ];
    let answer = |p, q, r| trial(&node, &certificate, Base, Line::join(p, q, r, &all));
    assert_eq!(answer(2, 3, lit(4, 0)), Ok(()));
    assert_eq!(answer(3, 2, opp(lit(4, 0))), Ok(()));
    // Neither stands.
    assert_eq!(answer(2, 3, lit(1, 0)), Err(19));
    assert_eq!(answer(2, 3, opp(lit(1, 0))), Err(19));
    // r stands in p, its opposite not in q.
    assert_eq!(answer(2, 2, lit(4, 0)), Err(19));
    assert_eq!(answer(3, 2, lit(0, 0)), Err(19));
    // The opposite stands in q, r not in p.
    assert_eq!(answer(3, 3, lit(4, 0)), Err(19));
    assert_eq!(answer(2, 3, opp(lit(0, 0))), Err(19));
    assert_eq!(answer(3, 3, opp(lit(0, 0))), Err(19));
}

#[test]
fn joins_may_hold_more_and_be_the_other_way_round() {
    let (node, certificate) = two_bands();
    let (only, not_5) = (lit(0, 0), opp(lit(5, 1)));
    let join = |literals: &[u16]| Line::join(2, 3, lit(4, 0), literals);
    let lines = [
        Line::join(3, 2, opp(lit(4, 0)), &[only, not_5]),
        join(&[not_5, only]),
        join(&[only, not_5]),
        join(&[lit(1, 0), only, opp(only), not_5]),
        join(&[only, only, not_5, lit(4, 0), opp(lit(4, 0))]),
    ];
    for line in lines {
        assert_eq!(trial(&node, &certificate, Base, line), Ok(()));
    }
}

#[test]
fn a_line_may_be_joined_with_itself() {
    let (node, certificate) = two_bands();
    let (one, not_5) = (lit(1, 0), opp(lit(5, 1)));
    let empty = Line::join(22, 22, one, &[one, opp(one)]);
    assert_eq!(trial(&node, &certificate, Base, empty), Err(19));
    // The join at 23 also has 1 and !1; with itself on 1 it keeps both.
    let both = [not_5, lit(0, 0), one, opp(one)];
    let longer = with_base_lines(&certificate, &[Line::join(2, 3, lit(4, 0), &both)]);
    accepted(&node, &longer);
    let itself = |literals: &[u16]| {
        let line = Line::join(23, 23, one, literals);
        trial(&node, &longer, Base, line)
    };
    assert_eq!(itself(&both), Ok(()));
    for fewer in [&both[..2], &both[..3], &[not_5, lit(0, 0), opp(one)]] {
        assert_eq!(itself(fewer), Err(19));
    }
}

#[test]
fn refusal_20_literals() {
    assert_eq!(step(Line::arithmetic(&[])), Err(20));
    assert_eq!(base(Line::arithmetic(&[])), Err(20));
    assert_eq!(step(Line::arithmetic(&[(lit(0, 0), 1)])), Err(20));
    let with_bool = [(opp(on(0)), 1), (opp(on(1)), 1), (lit(0, 0), 1)];
    assert_eq!(step(Line::arithmetic(&with_bool)), Err(20));
    assert_eq!(step(Line::arithmetic(&with_bool[..2])), Ok(()));
}

#[test]
fn refusal_20_sums() {
    let answer = |weighted: &[(u16, u32)]| step(Line::arithmetic(weighted));
    let (not_0, not_1, not_2) = (opp(on(0)), opp(on(1)), opp(on(2)));
    // Variables that do not cancel.
    assert_eq!(answer(&[(not_0, 1)]), Err(20));
    assert_eq!(answer(&[(not_0, 2), (not_1, 1)]), Err(20));
    assert_eq!(answer(&[(not_0, 1), (not_1, 2)]), Err(20));
    assert_eq!(answer(&[(not_0, 1), (not_2, 1)]), Err(20));
    // A bound of 0 is not enough.
    assert_eq!(answer(&[(not_1, 1), (not_2, 1)]), Err(20));
    // The opposite of "u − v at most 0" is "v − u at most −1", and so on.
    assert_eq!(answer(&[(on(2), 1), (not_2, 1)]), Ok(()));
    assert_eq!(answer(&[(on(1), 1), (on(2), 1)]), Ok(()));
    assert_eq!(answer(&[(on(0), 1), (not_0, 1)]), Ok(()));
    assert_eq!(answer(&[(on(0), 1), (on(1), 1)]), Ok(()));
    assert_eq!(answer(&[(on(0), 1), (on(2), 1)]), Err(20));
    // Repeated literals add up; a longer sum with other multiples.
    assert_eq!(answer(&[(not_0, 1), (not_0, 1), (not_1, 2)]), Ok(()));
    assert_eq!(answer(&[(opp(on(5)), 1), (not_1, 2)]), Ok(()));
    assert_eq!(answer(&[(opp(on(5)), 1), (not_1, 1)]), Err(20));
    assert_eq!(answer(&[(opp(on(5)), 500_000), (not_1, 1_000_000)]), Ok(()));
}

#[test]
fn refusal_20_constraints_without_terms() {
    let answer = |weighted: &[(u16, u32)]| step(Line::arithmetic(weighted));
    // "0 at most −1" fails by itself, so its negation is a line.
    assert_eq!(answer(&[(opp(on(3)), 1)]), Ok(()));
    assert_eq!(answer(&[(on(3), 1)]), Err(20));
    // "0 at most 0" holds: its opposite "0 at most −1" sums to −1.
    assert_eq!(answer(&[(on(4), 1)]), Ok(()));
    assert_eq!(answer(&[(opp(on(4)), 1)]), Err(20));
}

#[test]
fn the_largest_sums_are_exact() {
    let limit = 100_000_000_000;
    let most = 1_000_000_000;
    let mut certificate = certificate(2);
    certificate.constraints = vec![
        Constraint::new(&[(1, 2, most), (2, 2, -most)], limit),
        Constraint::new(&[(1, 2, -most), (2, 2, most)], -limit),
        Constraint::new(&[(1, 2, -most), (2, 2, most)], 1 - limit),
        Constraint::new(&[], -limit),
        Constraint::new(&[], limit),
    ];
    let answer =
        |weighted: &[(u16, u32)]| trial(&node(), &certificate, Step, Line::arithmetic(weighted));
    let million = 1_000_000;
    let six = |literal| vec![(literal, million); 6];
    let both = |x, y| [six(x), six(y)].concat();
    // −B + B is 0, once more with the −1 of a negation it is enough.
    assert_eq!(answer(&both(opp(on(0)), opp(on(1)))), Err(20));
    assert_eq!(answer(&both(on(0), on(1))), Ok(()));
    assert_eq!(answer(&both(on(0), opp(on(0)))), Ok(()));
    assert_eq!(answer(&both(opp(on(0)), opp(on(2)))), Err(20));
    assert_eq!(answer(&both(on(0), on(2))), Ok(()));
    // Twelve times a million times a coefficient of 10^9 do not wrap to 0.
    assert_eq!(answer(&both(opp(on(0)), opp(on(0)))), Err(20));
    assert_eq!(answer(&both(opp(on(3)), opp(on(3)))), Ok(()));
    assert_eq!(answer(&both(on(4), on(4))), Ok(()));
    assert_eq!(answer(&both(opp(on(4)), opp(on(4)))), Err(20));
    assert_eq!(answer(&both(on(3), on(3))), Err(20));
}

#[test]
fn refusal_21_parts() {
    let (node, certificate) = two_bands();
    let mut no_base = certificate.clone();
    no_base.base.clear();
    for line in no_base.step.iter_mut().filter(|line| line.kind == 3) {
        line.p -= 23;
        line.q -= 23;
    }
    refused(&node, &no_base, 21, Place::Base);
    let mut no_step = certificate.clone();
    no_step.step.clear();
    refused(&node, &no_step, 21, Place::Step);
    let mut neither = certificate.clone();
    neither.base.pop();
    neither.step.clear();
    refused(&node, &neither, 21, Place::Base);
    let mut unfinished = certificate.clone();
    unfinished.step.pop();
    refused(&node, &unfinished, 21, Place::Step);
    // 21 comes after all lines, of the step too.
    neither.step.push(Line::default());
    refused(&node, &neither, 16, Place::Line(22));
    no_step.base.pop();
    no_step.step.push(certificate.step[1]);
    refused(&node, &no_step, 21, Place::Base);
}

#[test]
fn the_empty_line_may_stand_anywhere() {
    let (node, mut certificate) = two_bands();
    certificate.step.push(certificate.step[0]);
    accepted(&node, &certificate);
    // A property line more after a base that is done.
    let more = with_base_lines(&certificate, &[certificate.base[0]]);
    accepted(&node, &more);
}
