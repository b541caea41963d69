//! Accepted certificates: depths 1 to 8, every operator, bool and int.

mod common;
#[path = "common/examples.rs"]
mod examples;

use common::{accepted, refused_bytes, two_bands};
use examples::{
    brought_inside, certified, counter, first_only, five_then_nothing, int_ring, late_five,
    late_five_certificate, never, nothing_doubled, one_more, one_more_certificate, ring,
    ten_at_most, ten_is_the_lesser, twins,
};
use reference::answer::Place;
use reference::build::search::certificate;
use reference::build::{orders, CertificateFile, NodeFile, Record};
use reference::certificate::check;

/// The certificate found for the node.
#[track_caller]
fn found(node: &NodeFile, depth: u8) -> CertificateFile {
    certificate(&node.bytes(), depth).expect("a certificate")
}

#[test]
fn written_by_hand() {
    let (node, certificate) = two_bands();
    accepted(&node, &certificate);
    accepted(&one_more(), &one_more_certificate());
    let verdict = check(&one_more().bytes(), &one_more_certificate().bytes()).unwrap();
    assert_eq!(verdict.to_string(), "accepted depth 1 base 17 step 9");
    let verdict = check(&late_five().bytes(), &late_five_certificate().bytes()).unwrap();
    assert_eq!(verdict.to_string(), "accepted depth 1 base 23 step 13");
}

#[test]
fn every_example() {
    for (node, certificate) in certified() {
        accepted(&node, &certificate);
    }
}

/// 02: "Version 1 files are now refused with 12."
#[test]
fn none_of_them_is_of_version_1() {
    for (node, certificate) in certified() {
        assert_eq!(certificate.bytes_of_version(2), certificate.bytes());
        let old = certificate.bytes_of_version(1);
        refused_bytes(&node.bytes(), &old, 12, Place::File);
    }
}

#[test]
fn operator_8_and_10() {
    for depth in [1, 2, 8] {
        accepted(&nothing_doubled(), &found(&nothing_doubled(), depth));
    }
}

#[test]
fn operator_11() {
    for depth in [1, 2] {
        accepted(&ten_at_most(), &found(&ten_at_most(), depth));
    }
}

#[test]
fn operator_12() {
    for depth in [1, 2, 8] {
        accepted(&first_only(), &found(&first_only(), depth));
        accepted(&five_then_nothing(), &found(&five_then_nothing(), depth));
        accepted(&late_five(), &found(&late_five(), depth));
    }
}

#[test]
fn operator_13() {
    for depth in [1, 2] {
        accepted(&counter(), &found(&counter(), depth));
        accepted(&twins(), &found(&twins(), depth));
    }
}

#[test]
fn operators_14_and_15() {
    for depth in [1, 2] {
        accepted(&brought_inside(), &found(&brought_inside(), depth));
        accepted(&ten_is_the_lesser(), &found(&ten_is_the_lesser(), depth));
    }
    // Each for the other: then the property is false on some input.
    for (at, record) in [(3, Record::lesser(0, 1)), (4, Record::greater(3, 2))] {
        let mut other = brought_inside();
        other.records[at] = record;
        assert_eq!(certificate(&other.bytes(), 1), None);
        let certificate = found(&brought_inside(), 1);
        assert!(check(&other.bytes(), &certificate.bytes()).is_err());
    }
}

/// Kind 5, with small and large r, and bounds of either sign.
#[test]
fn no_multiple() {
    let ends = [1, -1, 7, -7, 999_999_999, -999_999_999];
    for k in ends {
        for depth in 1..=8 {
            let (node, certificate) = never(2, k, depth);
            accepted(&node, &certificate);
        }
        for m in [4, 255, 256, 65_534, 65_535] {
            let (node, certificate) = never(m, k, 1);
            accepted(&node, &certificate);
        }
    }
}

/// Whether a certificate stays right when its constraints are multiplied
/// through: a sum of negated literals is.
fn may_be_multiplied(certificate: &CertificateFile) -> bool {
    let mut lines = certificate.base.iter().chain(&certificate.step);
    lines.all(|line| match line.kind {
        4 => line.clause().iter().all(|literal| literal & 1 == 1),
        kind => kind != 5,
    })
}

#[test]
fn constraints_multiplied_through() {
    let mut pairs = certified();
    pairs.retain(|(_, certificate)| {
        !certificate.constraints.is_empty() && may_be_multiplied(certificate)
    });
    assert!(pairs.len() > 10, "{}", pairs.len());
    for (node, certificate) in pairs {
        for factor in [2, 3, 1_000_000] {
            accepted(&node, &certificate.clone().times(factor));
        }
    }
    let largest = one_more_certificate().times(1_000_000_000);
    accepted(&one_more(), &largest);
}

#[test]
fn either_order() {
    for factors in [[1, 1], [2, 3], [1, 1_000_000], [1_000_000_000; 2]] {
        accepted(&orders::node(), &orders::certificate(factors));
    }
}

/// Three constraints, each by a factor of its own, add up by multipliers that
/// make up for it.
#[test]
fn a_factor_for_each_constraint() {
    for (factors, multipliers) in [
        ([2, 3, 6], [3, 2, 1]),
        ([1, 1_000_000, 1], [1_000_000, 1, 1_000_000]),
        ([7, 1, 1], [1, 7, 7]),
    ] {
        let mut certificate = one_more_certificate();
        let numbered = certificate
            .constraints
            .iter_mut()
            .zip(factors.iter().cycle());
        numbered.for_each(|(constraint, factor)| *constraint = constraint.times(*factor));
        for line in certificate.base.iter_mut().chain(&mut certificate.step) {
            if line.kind == 4 {
                line.multipliers[..3].copy_from_slice(&multipliers);
            }
        }
        accepted(&one_more(), &certificate);
    }
}

#[test]
fn rings_need_their_depth() {
    for depth in 1..=8 {
        let size = u16::from(depth);
        accepted(&ring(size), &found(&ring(size), depth));
        accepted(&int_ring(size), &found(&int_ring(size), depth));
        if depth > 1 {
            assert_eq!(certificate(&ring(size).bytes(), depth - 1), None);
        }
    }
}

#[test]
fn every_kind_stands_in_both_parts() {
    let (_, certificate) = never(2, 7, 1);
    for kind in 1..=5 {
        assert!(certificate.base.iter().any(|line| line.kind == kind));
        assert!(certificate.step.iter().any(|line| line.kind == kind));
    }
}

#[test]
fn a_certificate_is_for_its_node() {
    // The same certificate for a node one constant away.
    let certificate = found(&ten_at_most(), 1);
    let mut other = ten_at_most();
    other.records[2].k = 10;
    assert!(check(&other.bytes(), &certificate.bytes()).is_err());
    let mut weaker = ten_at_most();
    weaker.records[3].k = 11;
    assert!(check(&weaker.bytes(), &certificate.bytes()).is_err());
    accepted(&weaker, &found(&weaker, 1));
    let verdict = check(&weaker.bytes(), &found(&ten_at_most(), 1).bytes());
    assert!(verdict.is_err());
}
