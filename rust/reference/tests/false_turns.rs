//! 01's four false turns, and those that 02's lines invite, each in a
//! certificate for a property that fails, and the wrong checkers that 01
//! tells to try. Those of 02's step window are in `step_window.rs`.

mod common;
#[path = "common/examples.rs"]
mod examples;

use common::{accepted, property_values, refused, trial, two_bands, with_base_lines};
use reference::answer::Place::{self, Line as AtLine};
use reference::build::proof::Proof;
use reference::build::{
    lit, on, opp, CertificateFile, Constraint, Line, NodeFile, Record, BOOL, INT,
};
use reference::build::{multiples, search};
use reference::certificate::Part::{Base, Step};
use reference::session::{begin, instant, Record as Session};
use std::ops::RangeInclusive;

/// "treating step offset 0 as instant 0": 2 is true -> false, 3 is true ->
/// pre 2 and the property, which fails at instant 2.
#[test]
fn step_offset_0_is_not_instant_0() {
    for arrow in [Record::arrow, Record::arrow_pre] {
        let records = vec![
            Record::constant(BOOL, 1),
            Record::constant(BOOL, 0),
            arrow(BOOL, 0, 1),
            Record::arrow_pre(BOOL, 0, 2),
        ];
        let node = NodeFile::new(records, 3);
        assert_eq!(property_values(&node, 3), [1, 1, 0]);
        let mut base = Proof::new(0);
        let fails = base.fails(3, 0..=1);
        let starts = base.equation(3, 0, 1, &[lit(3, 0), opp(lit(0, 0))]);
        let truth = base.equation(0, 0, 0, &[lit(0, 0)]);
        let joined = base.join(starts, fails, lit(3, 0));
        let fails = base.join(truth, joined, lit(0, 0));
        at_instant_1(&mut base, fails);
        let mut step = Proof::new(base.lines.len());
        let fails = step.fails(3, 1..=1);
        at_instant_1(&mut step, fails);
        let certificate = CertificateFile {
            depth: 1,
            base: base.lines,
            step: step.lines,
            ..CertificateFile::default()
        };
        // The same line is right in the base.
        assert_eq!(certificate.base[6], certificate.step[2]);
        refused(&node, &certificate, 17, AtLine(13));
    }
}

/// That 3 holds at offset 1 if offset 0 is instant 0, where 2 is true.
fn at_instant_1(proof: &mut Proof, fails: u16) {
    let before = proof.equation(3, 1, 1, &[lit(3, 1), opp(lit(2, 0))]);
    let starts = proof.equation(2, 0, 1, &[lit(2, 0), opp(lit(0, 0))]);
    let truth = proof.equation(0, 0, 0, &[lit(0, 0)]);
    let joined = proof.join(before, fails, lit(3, 1));
    let joined = proof.join(starts, joined, lit(2, 0));
    proof.join(truth, joined, lit(0, 0));
}

/// "dropping the −1 from a negated constraint": the negation of u ≤ v is
/// v − u at most −1, in the clauses of 9 and 10 and in the sums of kind 4.
#[test]
fn a_negated_constraint_keeps_its_minus_1() {
    let node = NodeFile::new(
        vec![
            Record::input(INT),
            Record::input(INT),
            Record::at_most(0, 1),
            Record::equal(0, 1),
            Record::constant(BOOL, 1),
        ],
        4,
    );
    let mut certificate = common::constant_certificate(4, 1);
    certificate.constraints = vec![
        Constraint::new(&[(0, 0, 1), (1, 0, -1)], 0),
        Constraint::new(&[(0, 0, -1), (1, 0, 1)], 0),
        Constraint::new(&[(0, 0, 1), (1, 0, -1)], -1),
        Constraint::new(&[(0, 0, -1), (1, 0, 1)], -1),
    ];
    let [u_v, v_u, u_below_v, v_below_u] = [0, 1, 2, 3].map(on);
    let answer = |line| [Base, Step].map(|part| trial(&node, &certificate, part, line));
    let at_most = |literal| Line::equation(2, 0, 1, &[lit(2, 0), literal]);
    assert_eq!(answer(at_most(v_u)), [Err(17); 2]);
    assert_eq!(answer(at_most(v_below_u)), [Ok(()); 2]);
    let equal = |x, y| Line::equation(3, 0, 2, &[lit(3, 0), x, y]);
    assert_eq!(answer(equal(u_v, v_u)), [Err(17); 2]);
    assert_eq!(answer(equal(u_below_v, v_u)), [Err(17); 2]);
    assert_eq!(answer(equal(u_v, v_below_u)), [Err(17); 2]);
    assert_eq!(answer(equal(u_below_v, v_below_u)), [Ok(()); 2]);
    // {u ≤ v, !(u ≤ v)} and {u ≤ v, v ≤ u} need the −1; without a negated
    // constraint there is none to help.
    let sum = |x, y| Line::arithmetic(&[(x, 1), (y, 1)]);
    assert_eq!(answer(sum(u_v, opp(u_v))), [Ok(()); 2]);
    assert_eq!(answer(sum(u_v, v_u)), [Ok(()); 2]);
    assert_eq!(answer(sum(opp(u_v), opp(v_u))), [Err(20); 2]);
    // {u < v, v < u} does not hold of every u and v.
    assert_eq!(answer(sum(u_below_v, v_below_u)), [Err(20); 2]);
}

/// "a join that strikes both signs from both clauses": 0 is an input and the
/// property, 1 is not 0; {0, !0} and {!0} would join to { }.
#[test]
fn a_join_strikes_one_sign_from_each_clause() {
    let node = NodeFile::new(vec![Record::input(BOOL), Record::not(0)], 0);
    let part = |first: usize, offsets: RangeInclusive<u16>, both_struck: bool| {
        let mut proof = Proof::new(first);
        let mut left = proof.fails(0, offsets.clone());
        for q in offsets {
            let either = proof.equation(1, q, 0, &[lit(1, q), lit(0, q)]);
            let neither = proof.equation(1, q, 1, &[opp(lit(1, q)), opp(lit(0, q))]);
            let both = proof.join(either, neither, lit(1, q));
            assert_eq!(proof.clause(both), [lit(0, q), opp(lit(0, q))]);
            let mut literals = proof.clause(left).to_vec();
            literals.retain(|literal| !both_struck || *literal != opp(lit(0, q)));
            left = proof.push(Line::join(both, left, lit(0, q), &literals));
        }
        proof.lines
    };
    let mut certificate = CertificateFile {
        depth: 1,
        base: part(0, 0..=1, true),
        step: part(9, 1..=1, true),
        ..CertificateFile::default()
    };
    assert_eq!(certificate.base[8].count, 0);
    assert_eq!(certificate.step[4].count, 0);
    refused(&node, &certificate, 19, AtLine(4));
    certificate.base = part(0, 0..=1, false);
    refused(&node, &certificate, 19, AtLine(13));
    certificate.step = part(9, 1..=1, false);
    refused(&node, &certificate, 21, Place::Base);
    // Nor does it strike the opposite from p, or r from q.
    let both = [lit(0, 0), opp(lit(0, 0))];
    let with_itself = |literals: &[u16]| Line::join(3, 3, lit(0, 0), literals);
    let longer = |literals: &[u16]| with_base_lines(&certificate, &[with_itself(literals)]);
    refused(&node, &longer(&both), 21, Place::Base);
    for literals in [&[][..], &both[..1], &both[1..]] {
        refused(&node, &longer(literals), 19, AtLine(9));
    }
}

/// "a step line citing a base line": 2 is false -> pre true, 3 is false -> pre
/// 2 and the property is not 3, which fails at instant 2; the base's {!2 at 0}
/// is not the step's.
#[test]
fn a_step_line_may_not_cite_a_base_line() {
    let records = vec![
        Record::constant(BOOL, 0),
        Record::constant(BOOL, 1),
        Record::arrow_pre(BOOL, 0, 1),
        Record::arrow_pre(BOOL, 0, 2),
        Record::not(3),
    ];
    let node = NodeFile::new(records, 4);
    assert_eq!(property_values(&node, 3), [1, 1, 0]);
    let mut base = Proof::new(0);
    let fails = base.fails(4, 0..=1);
    let or_3 = base.equation(4, 0, 0, &[lit(4, 0), lit(3, 0)]);
    let is_3 = base.join(or_3, fails, lit(4, 0));
    let starts = base.equation(3, 0, 0, &[opp(lit(3, 0)), lit(0, 0)]);
    let falsity = base.equation(0, 0, 0, &[opp(lit(0, 0))]);
    let not_3 = base.join(starts, falsity, lit(0, 0));
    let fails = base.join(is_3, not_3, lit(3, 0));
    // What the step lacks: 2 is false at its offset 0.
    let starts = base.equation(2, 0, 0, &[opp(lit(2, 0)), lit(0, 0)]);
    let not_2 = base.join(starts, falsity, lit(0, 0));
    assert_eq!(base.clause(not_2), [opp(lit(2, 0))]);
    let is_2 = was_2(&mut base, fails);
    base.join(is_2, not_2, lit(2, 0));
    let mut step = Proof::new(base.lines.len());
    let fails = step.fails(4, 1..=1);
    let is_2 = was_2(&mut step, fails);
    step.push(Line::join(is_2, not_2, lit(2, 0), &[]));
    let mut certificate = CertificateFile {
        depth: 1,
        base: base.lines,
        step: step.lines,
        ..CertificateFile::default()
    };
    refused(&node, &certificate, 19, AtLine(19));
    certificate.step[5] = Line::join(not_2, is_2, opp(lit(2, 0)), &[]);
    refused(&node, &certificate, 19, AtLine(19));
    certificate.step.pop();
    refused(&node, &certificate, 21, Place::Step);
    assert_eq!(search::certificate(&node.bytes(), 1), None);
}

/// The line that 2 holds at offset 0, from one that the property, not 3, fails
/// at offset 1.
fn was_2(proof: &mut Proof, fails: u16) -> u16 {
    let or_3 = proof.equation(4, 1, 0, &[lit(4, 1), lit(3, 1)]);
    let is_3 = proof.join(or_3, fails, lit(4, 1));
    let before = proof.equation(3, 1, 0, &[opp(lit(3, 1)), lit(2, 0)]);
    proof.join(is_3, before, lit(3, 1))
}

/// Twice 3 is 6, so no cut of 2·u at most 6 and minus 2·u at most −6 may say
/// less than u at most 3 and minus u at most −3.
#[test]
fn a_cut_is_not_rounded_past_the_floor() {
    let node = multiples::node(2, 6);
    let mut session = Session::new();
    begin(&mut session, &node.bytes()).unwrap();
    let mut values = [0; 5];
    instant(&mut session, &[3], &mut values).unwrap();
    assert_eq!(values, [3, 6, 6, 1, 0]);
    for (bounds, number, line) in [([2, -3], 22, 3), ([3, -4], 22, 4), ([3, -3], 20, 5)] {
        let certificate = multiples::certificate(2, 6, 1, bounds);
        refused(&node, &certificate, number, AtLine(line));
    }
}

/// The bounds are the floor's, not those of other ways to round: 7 and −7
/// by 2 are 3 and −4.
#[test]
fn a_cut_is_rounded_toward_minus_infinity() {
    let node = multiples::node(2, 7);
    let (toward_zero, up, down) = ([3, -3], [4, -3], [3, -4]);
    for (bounds, line) in [(toward_zero, 4), (up, 3)] {
        let certificate = multiples::certificate(2, 7, 1, bounds);
        refused(&node, &certificate, 22, AtLine(line));
    }
    accepted(&node, &multiples::certificate(2, 7, 1, down));
}

/// A certificate that 0, which is k, is at most 1, which is k − 1. It is right
/// but for the line that "0 at most k" is `forged`, `times` of which clash
/// with `others` of the two other constraints.
fn at_most_one_less(forged: Constraint, times: u32, others: u32, k: i64) -> CertificateFile {
    let part = |first: usize, offsets: RangeInclusive<u16>| {
        let mut proof = Proof::new(first);
        let mut left = proof.fails(2, offsets.clone());
        for q in offsets {
            let [most, least, below] = [0, 1, 2].map(|i| on(3 * q + i));
            let either = proof.equation(2, q, 1, &[lit(2, q), below]);
            let is_below = proof.join(either, left, lit(2, q));
            let is_most = proof.equation(0, q, 0, &[most]);
            let is_least = proof.equation(1, q, 1, &[least]);
            let weighted = [(most, times), (least, others), (below, others)];
            left = proof.arithmetic(&weighted.map(|(literal, m)| (opp(literal), m)));
            for (unit, literal) in [(is_below, below), (is_most, most), (is_least, least)] {
                left = proof.join(unit, left, literal);
            }
        }
        proof.lines
    };
    let base = part(0, 0..=1);
    let step = part(base.len(), 1..=1);
    let constraints = [0, 1].map(|q| {
        let mut forged = forged;
        forged.terms[0].offset = q;
        let least = Constraint::new(&[(1, q, -1)], 1 - k);
        let below = Constraint::new(&[(0, q, -1), (1, q, 1)], -1);
        [forged, least, below]
    });
    CertificateFile {
        depth: 1,
        constraints: constraints.concat(),
        base,
        step,
        ..CertificateFile::default()
    }
}

/// A bound that is not multiplied with its coefficients, or they not with it,
/// says more than the equation does.
#[test]
fn a_factor_is_of_bound_and_coefficients_alike() {
    let node = |k| {
        let constants = [k, k - 1].map(|k| Record::constant(INT, k));
        let records = [&constants[..], &[Record::at_most(0, 1)]].concat();
        NodeFile::new(records, 2)
    };
    let most = |coefficient, bound| Constraint::new(&[(0, 0, coefficient)], bound);
    assert_eq!(property_values(&node(5), 1), [0]);
    assert_eq!(property_values(&node(-5), 1), [0]);
    let bound_left = at_most_one_less(most(2, 5), 1, 2, 5);
    refused(&node(5), &bound_left, 17, AtLine(3));
    let coefficient_left = at_most_one_less(most(1, -10), 1, 1, -5);
    refused(&node(-5), &coefficient_left, 17, AtLine(3));
    // What the equation says, multiplied or not, does not clash.
    for (times, factor) in [(2, 1), (1, 2)] {
        let right = at_most_one_less(most(1, 5).times(factor), times, 2, 5);
        refused(&node(5), &right, 20, AtLine(5));
    }
}

/// A base that is right does not carry a step that is not, nor the other way
/// round.
#[test]
fn both_parts_are_checked() {
    let (node, certificate) = two_bands();
    for number in 0..35 {
        let mut wrong = certificate.clone();
        let line = match number {
            0..23 => &mut wrong.base[number],
            _ => &mut wrong.step[number - 23],
        };
        line.literals[0] ^= 1;
        let expected = match (line.kind, line.count) {
            (_, 0) => 16,
            (1, _) => 17,
            (2, _) => 18,
            _ => 19,
        };
        refused(&node, &wrong, expected, AtLine(number));
    }
}

/// Every line matters: without its last join no part is done.
#[test]
fn line_counts_are_the_trailer_s() {
    for (node, certificate) in examples::certified() {
        accepted(&node, &certificate);
        let mut short = certificate.clone();
        short.step.pop();
        refused(&node, &short, 21, Place::Step);
    }
}
