//! The right equation lines with multiplied constraints that are generated
//! are of every sort.

use differential::cases;
use differential::factors::{factor_of, multiplied};
use differential::random::Random;
use reference::build::{CertificateFile, Constraint, Line, NodeFile};
use std::collections::BTreeMap;

/// How often each sort of line has to be met.
const LEAST: u64 = 100;

/// The operators whose clauses have constraints.
const OPERATORS: [u8; 11] = [1, 6, 7, 8, 9, 10, 11, 12, 13, 14, 15];

/// The sorts of multiplied constraints, each with whether this one is of it.
fn sorts(written: &Constraint) -> Vec<(&'static str, bool)> {
    let factor = factor_of(written);
    let largest = written.terms.iter().map(|t| t.coefficient.abs()).max();
    let bound = written.bound;
    vec![
        ("factor 2", factor == 2),
        ("factor 3 to 10", (3..=10).contains(&factor)),
        ("factor 65,535", factor == 65_535),
        ("factor 1,000,000", factor == 1_000_000),
        ("factor over 1,000,000", factor > 1_000_000),
        ("factor 1,000,000,000", factor == 1_000_000_000),
        ("factor 100,000,000,000", factor == 100_000_000_000),
        ("a coefficient at its limit", largest == Some(1_000_000_000)),
        ("no terms", written.count == 0),
        ("one term", written.count == 1),
        ("two terms", written.count == 2),
        ("three terms", written.count == 3),
        ("negative bound", bound < 0 && written.count > 0),
        ("positive bound", bound > 0),
        ("a bound at its limit", bound.abs() == 100_000_000_000),
        ("a bound past 32 bits", bound.abs() > i64::from(i32::MAX)),
    ]
}

/// Whether a line of this kind has one of these constraints.
fn is_used(certificate: &CertificateFile, kind: u8, written: &[Constraint]) -> bool {
    let lines = certificate.base.iter().chain(&certificate.step);
    let literals = lines
        .filter(|line| line.kind == kind)
        .flat_map(|line| line.clause().iter().chain((kind == 3).then_some(&line.r)));
    let mut on = literals.filter_map(|l| usize::from(l / 2).checked_sub(576));
    on.any(|i| written.contains(&certificate.constraints[i]))
}

/// Whether a clause has two constraints with different factors.
fn has_two_factors(multiples: &[(bool, Line, Constraint)]) -> bool {
    multiples.windows(2).any(|pair| {
        let [(_, first, a), (_, second, b)] = [pair[0], pair[1]];
        first == second && factor_of(&a) != factor_of(&b)
    })
}

#[test]
fn every_sort_of_multiple() {
    let mut met: BTreeMap<String, u64> = BTreeMap::new();
    let mut count = |sort: String, is: bool| *met.entry(sort).or_default() += u64::from(is);
    for case in 0..24_000 {
        let mut random = Random::of_case(12, case);
        let Some((node, certificate)) = cases::among_factors(&mut random, None) else {
            continue;
        };
        let NodeFile { records, .. } = &node;
        let file = certificate.bytes();
        let multiples: Vec<_> = multiplied(&file).collect();
        for (step, line, written) in &multiples {
            let own = records[usize::from(line.p)].operator;
            for operator in OPERATORS {
                let name = format!("operator {operator}, step {step}");
                count(name, own == operator);
            }
            for (sort, is) in sorts(written) {
                count(sort.to_string(), is);
            }
        }
        let written: Vec<Constraint> = multiples.iter().map(|(_, _, c)| *c).collect();
        for kind in 3..=5 {
            count(
                format!("in kind {kind}"),
                is_used(&certificate, kind, &written),
            );
        }
        count(
            "two factors in a clause".to_string(),
            has_two_factors(&multiples),
        );
    }
    println!("{met:?}");
    assert!(met.values().all(|count| *count >= LEAST), "{met:?}");
    assert_eq!(met.len(), 2 * OPERATORS.len() + 16 + 4);
}
