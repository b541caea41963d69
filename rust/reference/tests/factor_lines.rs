//! Equation lines whose constraints are multiplied through: each factor up to
//! its limit, what is no multiple, and that other kinds compare as before.

mod common;

use common::{constant_certificate, refused, trial};
use reference::answer::Place;
use reference::build::{lit, on, opp};
use reference::build::{CertificateFile, Constraint, Line, NodeFile, Record, BOOL, INT};
use reference::certificate::Part::{Base, Step};

/// The offset of all lines: both parts give the same clauses there.
const Q: u8 = 1;
/// A constraint's limits.
const MAX_COEFFICIENT: i64 = 1_000_000_000;
const MAX_BOUND: i64 = 100_000_000_000;

/// 0 bool input; 1, 2 int inputs u, v; then one of each operator that gives
/// constraints, twice where u and u give none; 16 true, the property.
fn node() -> NodeFile {
    let records = vec![
        Record::input(BOOL),
        Record::input(INT),
        Record::input(INT),
        Record::constant(INT, 100),
        Record::multiple(3, 1),
        Record::sum(1, 1),
        Record::difference(1, 2),
        Record::at_most(1, 2),
        Record::equal(1, 2),
        Record::choice(INT, 0, 1, 2),
        Record::arrow_pre(INT, 1, 2),
        Record::at_most(1, 1),
        Record::equal(1, 1),
        Record::multiple(-1_000_000, 1),
        Record::lesser(1, 2),
        Record::greater(1, 2),
        Record::constant(BOOL, 1),
    ];
    NodeFile::new(records, 16)
}

fn certificate(constraints: &[Constraint]) -> CertificateFile {
    CertificateFile {
        constraints: constraints.to_vec(),
        ..constant_certificate(16, 2)
    }
}

/// The number by which a line over these constraints is refused at the end of
/// either part, if it is.
#[track_caller]
fn answer(constraints: &[Constraint], line: Line) -> Result<(), u8> {
    let (node, certificate) = (node(), certificate(constraints));
    let [base, step] = [Base, Step].map(|part| trial(&node, &certificate, part, line));
    assert_eq!(base, step);
    base
}

/// Coefficients of streams at offset [`Q`], with a bound.
fn sum(terms: &[(u16, i32)], bound: i64) -> Constraint {
    let terms: Vec<_> = terms.iter().map(|(s, c)| (*s, Q, *c)).collect();
    Constraint::new(&terms, bound)
}

/// Clause r of stream p: a bool literal, if it has one, and a constraint.
struct Clause {
    p: u16,
    r: u16,
    first: Option<u16>,
    defined: Constraint,
}

impl Clause {
    fn new(p: u16, r: u16, first: Option<u16>, defined: Constraint) -> Self {
        Clause {
            p,
            r,
            first,
            defined,
        }
    }

    /// The answer where this is written for the constraint.
    #[track_caller]
    fn with(&self, written: Constraint) -> Result<(), u8> {
        let literals: Vec<u16> = self.first.into_iter().chain([on(0)]).collect();
        let line = Line::equation(self.p, Q.into(), self.r, &literals);
        answer(&[written], line)
    }

    /// The largest factor that the limits of a constraint leave.
    fn largest(&self) -> i64 {
        let coefficients = self.defined.terms.iter().map(|term| term.coefficient);
        let most = coefficients
            .filter(|c| *c != 0)
            .map(|c| MAX_COEFFICIENT / i64::from(c).abs());
        let bound = Some(self.defined.bound.abs()).filter(|bound| *bound != 0);
        most.chain(bound.map(|bound| MAX_BOUND / bound))
            .min()
            .unwrap_or(1)
    }
}

/// {!7, u ≤ v}.
fn u_at_most_v() -> Clause {
    Clause::new(7, 0, Some(opp(lit(7, 1))), sum(&[(1, 1), (2, -1)], 0))
}

/// {7, v < u}.
fn v_below_u() -> Clause {
    Clause::new(7, 1, Some(lit(7, 1)), sum(&[(1, -1), (2, 1)], -1))
}

/// {100 at least 3}.
fn constant() -> Clause {
    Clause::new(3, 0, None, sum(&[(3, 1)], 100))
}

/// {4 ≤ 3u}.
fn multiple() -> Clause {
    Clause::new(4, 0, None, sum(&[(1, -3), (4, 1)], 0))
}

/// {11, 0 ≤ −1}: u is not below itself.
fn nothing() -> Clause {
    Clause::new(11, 1, Some(lit(11, 1)), sum(&[], -1))
}

/// One clause at least of each operator.
fn clauses() -> Vec<Clause> {
    let before = Constraint::new(&[(2, 0, -1), (10, Q, 1)], 0);
    let (b, not_b) = (Some(lit(0, 1)), Some(opp(lit(0, 1))));
    let not_8 = Some(opp(lit(8, 1)));
    vec![
        constant(),
        Clause::new(3, 1, None, sum(&[(3, -1)], -100)),
        multiple(),
        Clause::new(4, 1, None, sum(&[(1, 3), (4, -1)], 0)),
        Clause::new(13, 0, None, sum(&[(1, 1_000_000), (13, 1)], 0)),
        Clause::new(5, 0, None, sum(&[(1, -2), (5, 1)], 0)),
        Clause::new(6, 0, None, sum(&[(1, -1), (2, 1), (6, 1)], 0)),
        u_at_most_v(),
        v_below_u(),
        Clause::new(8, 1, not_8, sum(&[(1, -1), (2, 1)], 0)),
        Clause::new(9, 0, not_b, sum(&[(1, -1), (9, 1)], 0)),
        Clause::new(9, 3, b, sum(&[(2, 1), (9, -1)], 0)),
        Clause::new(10, 0, None, before),
        Clause::new(14, 0, None, sum(&[(1, -1), (14, 1)], 0)),
        Clause::new(15, 1, None, sum(&[(2, 1), (15, -1)], 0)),
        nothing(),
    ]
}

#[test]
fn every_factor_up_to_the_largest() {
    let mut met = 0;
    for clause in clauses() {
        let largest = clause.largest();
        for factor in [1, 2, 3, 7, 1_000, 65_536, 1_000_000, 1_000_000_000] {
            if factor <= largest {
                assert_eq!(clause.with(clause.defined.times(factor)), Ok(()));
                met += 1;
            }
        }
        assert_eq!(clause.with(clause.defined.times(largest)), Ok(()));
    }
    // Of 16 times 8 all but six are within the limits.
    assert_eq!(met, 122);
    assert_eq!(u_at_most_v().largest(), 1_000_000_000);
    assert_eq!(nothing().largest(), 100_000_000_000);
    // Both limits at once.
    assert_eq!(constant().largest(), 1_000_000_000);
    assert_eq!(constant().defined.times(1_000_000_000).bound, MAX_BOUND);
}

#[test]
fn past_the_limits_it_is_15() {
    for clause in clauses() {
        let past = clause.defined.times(clause.largest() + 1);
        refused(&node(), &certificate(&[past]), 15, Place::Constraint(0));
    }
}

#[test]
fn a_factor_is_at_least_1() {
    for clause in clauses() {
        for factor in [0, -1, -2, -1_000] {
            let written = match factor {
                0 => sum(&[], 0),
                _ => clause.defined.times(factor),
            };
            assert_eq!(clause.with(written), Err(17), "{factor}");
        }
    }
}

#[test]
fn the_bound_is_scaled_alike() {
    for clause in [constant(), v_below_u()] {
        let own = clause.defined.bound;
        for factor in [1, 2, 3, 1_000_000] {
            let right = clause.defined.times(factor);
            let with = |bound| clause.with(Constraint { bound, ..right });
            assert_eq!(with(right.bound), Ok(()));
            assert_eq!(with(right.bound + 1), Err(17));
            assert_eq!(with(right.bound - 1), Err(17));
            assert_eq!(with(-right.bound), Err(17));
            assert_eq!(with(0), Err(17));
            assert_eq!(with((factor + 1) * own), Err(17));
            // The bound alone, or all but the bound.
            assert_eq!(with(own), if factor == 1 { Ok(()) } else { Err(17) });
        }
    }
    // A bound of 0 stays 0, though 2u − 2v at most 1 says no more.
    let with = |bound| u_at_most_v().with(sum(&[(1, 2), (2, -2)], bound));
    assert_eq!(with(0), Ok(()));
    assert_eq!([1, -1, 2, -2].map(with), [Err(17); 4]);
}

#[test]
fn coefficients_are_scaled_alike() {
    let with = |u, s| multiple().with(sum(&[(1, u), (4, s)], 0));
    assert_eq!(
        [(-3, 1), (-6, 2), (-9, 3)].map(|(u, s)| with(u, s)),
        [Ok(()); 3]
    );
    // One that is not scaled, two factors, another sign, a fraction.
    for (u, s) in [(-3, 2), (-6, 1), (-6, 3), (-9, 2), (6, 2), (-6, -2)] {
        assert_eq!(with(u, s), Err(17), "{u} {s}");
    }
    for (u, s) in [
        (-4, 1),
        (-5, 1),
        (-4, 2),
        (-7, 2),
        (-1, 1),
        (-2, 1),
        (-1, 3),
    ] {
        assert_eq!(with(u, s), Err(17), "{u} {s}");
    }
    // Half of what is defined, of twice u.
    let twice = Clause::new(5, 0, None, sum(&[(1, -2), (5, 1)], 0));
    for (u, s, right) in [
        (-2, 1, true),
        (-4, 2, true),
        (-1, 1, false),
        (-3, 1, false),
        (-3, 2, false),
    ] {
        let said = twice.with(sum(&[(1, u), (5, s)], 0));
        assert_eq!(said, if right { Ok(()) } else { Err(17) });
    }
}

#[test]
fn products_do_not_wrap() {
    // 1,000,000 times 4,295 is 32,704 in 32 bits.
    let clause = Clause::new(13, 0, None, sum(&[(1, 1_000_000), (13, 1)], 0));
    assert_eq!(clause.with(sum(&[(1, 32_704), (13, 4_295)], 0)), Err(17));
    assert_eq!(clause.with(sum(&[(1, 429_000_000), (13, 429)], 0)), Ok(()));
    // 42,949,673 times 100 is 4 in 32 bits.
    assert_eq!(constant().with(sum(&[(3, 42_949_673)], 4)), Err(17));
    assert_eq!(
        constant().with(sum(&[(3, 42_949_673)], 4_294_967_300)),
        Ok(())
    );
}

#[test]
fn variables_are_the_same() {
    let clause = Clause::new(6, 0, None, sum(&[(1, -1), (2, 1), (6, 1)], 0));
    for factor in [1, 2, 1_000] {
        let with = |terms: &[(u16, i32)]| clause.with(sum(terms, 0).times(factor));
        assert_eq!(with(&[(1, -1), (2, 1), (6, 1)]), Ok(()));
        // One missing, be it first, middle or last; one more; another.
        for terms in [
            &[(2, 1), (6, 1)][..],
            &[(1, -1), (6, 1)],
            &[(1, -1), (2, 1)],
            &[(6, 1)],
            &[],
            &[(1, -1), (2, 1), (3, 1), (6, 1)],
            &[(1, -1), (2, 1), (6, 1), (9, 1)],
            &[(1, -1), (2, 1), (9, 1)],
            &[(1, -1), (3, 1), (6, 1)],
            &[(2, -1), (3, 1), (6, 1)],
        ] {
            assert_eq!(with(terms), Err(17), "{terms:?}");
        }
    }
    // The same stream at another offset.
    let mut moved = clause.defined.times(2);
    moved.terms[2].offset = 2;
    assert_eq!(clause.with(moved), Err(17));
}

#[test]
fn a_defined_constraint_without_terms() {
    // "0 at most −1" is any "0 at most −f", "0 at most 0" itself alone.
    let bounds = [-1, -2, -3, -1_000_000_000, -MAX_BOUND];
    let zero = Clause::new(11, 0, Some(opp(lit(11, 1))), sum(&[], 0));
    assert_eq!(zero.with(sum(&[], 0)), Ok(()));
    assert_eq!(nothing().with(sum(&[], 0)), Err(17));
    for bound in bounds {
        assert_eq!(nothing().with(sum(&[], bound)), Ok(()));
        assert_eq!(nothing().with(sum(&[], -bound)), Err(17));
        assert_eq!(nothing().with(sum(&[(1, 1)], bound)), Err(17));
        assert_eq!(zero.with(sum(&[], bound)), Err(17));
        assert_eq!(zero.with(sum(&[], -bound)), Err(17));
    }
    assert_eq!(zero.with(sum(&[(1, 1)], 0)), Err(17));
    // Nor is one with terms matched by one without.
    assert_eq!(v_below_u().with(sum(&[], -1)), Err(17));
    assert_eq!(u_at_most_v().with(sum(&[], 0)), Err(17));
}

#[test]
fn two_constraints_of_a_clause_have_a_factor_each() {
    // 8: {s, u < v, v < u}; 12, of u and u: {s, 0 < 0, 0 < 0}.
    let line = |p, c, d| Line::equation(p, Q.into(), 2, &[lit(p, 1), c, d]);
    let (less, more) = (sum(&[(1, 1), (2, -1)], -1), sum(&[(1, -1), (2, 1)], -1));
    let never = sum(&[], -1);
    for (f, g) in [
        (1, 1),
        (1, 2),
        (2, 1),
        (3, 2),
        (1_000_000, 7),
        (1, 1_000_000_000),
    ] {
        let written = [less.times(f), more.times(g), never.times(f), never.times(g)];
        let [less, more, never, nor] = [0, 1, 2, 3].map(on);
        assert_eq!(answer(&written, line(8, less, more)), Ok(()));
        assert_eq!(answer(&written, line(8, more, less)), Err(17));
        assert_eq!(answer(&written, line(8, less, less)), Err(17));
        assert_eq!(answer(&written, line(12, never, nor)), Ok(()));
        assert_eq!(answer(&written, line(12, never, never)), Ok(()));
    }
    // Two in one constraint are one too many.
    let mixed = sum(&[(1, 2), (2, -3)], -2);
    let written = [mixed, more];
    assert_eq!(answer(&written, line(8, on(0), on(1))), Err(17));
}

#[test]
fn so_have_those_of_the_lesser_and_the_greater() {
    // 14: {u ≤ s, v ≤ s}; 15: {s ≤ u, s ≤ v}.
    for (p, sign) in [(14, 1), (15, -1)] {
        let [u, v] = [1, 2].map(|operand| sum(&[(operand, sign), (p, -sign)], 0));
        let line = |c, d| Line::equation(p, Q.into(), 2, &[c, d]);
        for (f, g) in [(1, 1), (1, 2), (3, 2), (1_000_000_000, 7)] {
            let written = [u.times(f), v.times(g)];
            assert_eq!(answer(&written, line(on(0), on(1))), Ok(()));
            assert_eq!(answer(&written, line(on(1), on(0))), Err(17));
            assert_eq!(answer(&written, line(on(0), on(0))), Err(17));
        }
        let mixed = sum(&[(1, 2 * sign), (p, -3 * sign)], 0);
        assert_eq!(answer(&[mixed, v], line(on(0), on(1))), Err(17));
    }
}

#[test]
fn it_stands_unnegated_in_its_place() {
    let written = [u_at_most_v().defined.times(2)];
    let with = |literals: &[u16]| answer(&written, Line::equation(7, 1, 0, literals));
    let not_7 = opp(lit(7, 1));
    assert_eq!(with(&[not_7, on(0)]), Ok(()));
    assert_eq!(with(&[not_7, opp(on(0))]), Err(17));
    assert_eq!(with(&[on(0), not_7]), Err(17));
    assert_eq!(with(&[not_7, on(0), on(0)]), Err(17));
    assert_eq!(with(&[lit(7, 1), on(0)]), Err(17));
    assert_eq!(with(&[not_7, not_7]), Err(17));
    assert_eq!(with(&[on(0)]), Err(17));
    // Another clause, stream or offset gives another constraint.
    let moved = |p, q, r| answer(&written, Line::equation(p, q, r, &[not_7, on(0)]));
    assert_eq!(
        [moved(7, 1, 1), moved(8, 1, 0), moved(7, 0, 0)],
        [Err(17); 3]
    );
}

/// Constraint 0 is u − v at most 0, 1 is 2u − 2v at most 0, 2 is 2v − 2u at
/// most −1, 3 is 2u − 2v at most 1, 4 is v − u at most −1.
fn doubled() -> [Constraint; 5] {
    [
        sum(&[(1, 1), (2, -1)], 0),
        sum(&[(1, 2), (2, -2)], 0),
        sum(&[(1, -2), (2, 2)], -1),
        sum(&[(1, 2), (2, -2)], 1),
        sum(&[(1, -1), (2, 1)], -1),
    ]
}

#[test]
fn joins_compare_literals_by_number() {
    // {!7, 0}, {!7, 1} and {!0, 0} are lines; a join takes 0 and 1 for two.
    let (node, mut certificate) = (node(), certificate(&doubled()));
    let first = certificate.base.len() + certificate.step.len();
    let [single, double, same] = [first, first + 1, first + 2].map(|i| i as u16);
    let not_7 = opp(lit(7, 1));
    certificate.step.extend([
        Line::equation(7, 1, 0, &[not_7, on(0)]),
        Line::equation(7, 1, 0, &[not_7, on(1)]),
        Line::arithmetic(&[(opp(on(0)), 1), (on(0), 1)]),
    ]);
    let join = |p, r, literals: &[u16]| {
        let line = Line::join(p, same, r, literals);
        trial(&node, &certificate, Step, line)
    };
    assert_eq!(join(single, on(0), &[not_7, on(0)]), Ok(()));
    assert_eq!(join(single, on(0), &[not_7, on(1)]), Err(19));
    assert_eq!(join(single, on(1), &[not_7, on(0)]), Err(19));
    assert_eq!(join(double, on(0), &[not_7, on(0)]), Err(19));
    assert_eq!(join(double, on(1), &[not_7, on(0)]), Err(19));
    assert_eq!(join(double, on(0), &[not_7, on(0), on(1)]), Err(19));
}

#[test]
fn arithmetic_takes_a_constraint_as_it_is_written() {
    let sums = |weighted: &[(u16, u32)]| answer(&doubled(), Line::arithmetic(weighted));
    let not = |i| opp(on(i));
    // 2·(u − v) cancels with 2 of v − u, not with 1.
    assert_eq!(sums(&[(not(1), 1), (not(4), 2)]), Ok(()));
    assert_eq!(sums(&[(not(1), 1), (not(4), 1)]), Err(20));
    assert_eq!(sums(&[(not(1), 1), (on(0), 2)]), Ok(()));
    assert_eq!(sums(&[(not(1), 1), (on(0), 1)]), Err(20));
    // Its negation is 2v − 2u at most −1, and not −2.
    assert_eq!(sums(&[(on(1), 1), (not(3), 1)]), Err(20));
    assert_eq!(sums(&[(on(1), 1), (not(0), 2)]), Ok(()));
    assert_eq!(sums(&[(not(1), 1), (not(2), 1)]), Ok(()));
}

#[test]
fn cuts_take_a_constraint_as_it_is_written() {
    let cut = |r, from, to| {
        let line = Line::cut(r, &[(opp(on(from)), 1), (on(to), 0)]);
        answer(&doubled(), line)
    };
    // 2u − 2v at most 1 divided by 2 is u − v at most 0.
    assert_eq!(cut(2, 3, 0), Ok(()));
    assert_eq!(cut(2, 3, 1), Err(22));
    assert_eq!(cut(1, 3, 0), Err(22));
    assert_eq!(cut(1, 3, 1), Err(22));
    assert_eq!(cut(2, 1, 0), Ok(()));
    assert_eq!(cut(1, 1, 1), Ok(()));
    assert_eq!(cut(1, 1, 0), Err(22));
    assert_eq!(cut(1, 0, 1), Err(22));
}
