//! The right cuts that are generated are of every sort.

use differential::cases;
use differential::cuts;
use differential::random::Random;
use reference::build::{CertificateFile, Constraint, Line};
use std::collections::BTreeMap;

/// How often each sort of cut has to be met.
const LEAST: u64 = 200;

/// The sorts of cuts, each with whether this one is of it.
fn sorts(constraints: &[Constraint], cut: &Line) -> Vec<(&'static str, bool)> {
    let (last, others) = cut.clause().split_last().expect("a literal");
    let weighted: Vec<_> = others.iter().copied().zip(cut.multipliers).collect();
    let sum = cuts::sum(constraints, &weighted).expect("on constraints");
    let (r, negative) = (i128::from(cut.r), sum.bound < 0);
    let exact = sum.bound % r == 0;
    let repeats = |(i, literal): (usize, &u16)| others[..i].contains(literal);
    let terms = sum.used().count();
    vec![
        ("r is 1", r == 1),
        ("small r", (2..=10).contains(&r)),
        ("large r", r > 1_000),
        ("r is 65,535", r == 65_535),
        (
            "a multiplier at its limit",
            cut.multipliers.contains(&1_000_000),
        ),
        ("negative, rounded", negative && !exact),
        ("negative, exact", negative && exact),
        ("positive, rounded", sum.bound > 0 && !exact),
        ("positive, exact", sum.bound > 0 && exact),
        ("terms, rounded", terms > 0 && !exact),
        ("terms, rounded, large r", terms > 0 && !exact && r > 1_000),
        ("one term", terms == 1),
        ("many terms", terms > 3),
        ("a negated other", others.iter().any(|l| l & 1 == 1)),
        ("an unnegated other", others.iter().any(|l| l & 1 == 0)),
        ("a literal twice", others.iter().enumerate().any(repeats)),
        ("the last among the others", others.contains(last)),
        ("its negation among them", others.contains(&(last ^ 1))),
        ("alone", others.is_empty()),
        ("eleven others", others.len() == 11),
    ]
}

/// The cuts of a certificate.
fn cuts_of(certificate: &CertificateFile) -> impl Iterator<Item = &Line> {
    let lines = certificate.base.iter().chain(&certificate.step);
    lines.filter(|line| line.kind == 5)
}

#[test]
fn every_sort_of_cut() {
    let mut met: BTreeMap<&str, u64> = BTreeMap::new();
    for case in 0..4_000 {
        let mut random = Random::of_case(10, case);
        let Some((_, certificate)) = cases::among_cuts(&mut random, None) else {
            continue;
        };
        for cut in cuts_of(&certificate) {
            for (sort, is) in sorts(&certificate.constraints, cut) {
                *met.entry(sort).or_default() += u64::from(is);
            }
        }
    }
    println!("{met:?}");
    assert!(met.values().all(|count| *count >= LEAST), "{met:?}");
}
