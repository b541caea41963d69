//! What several tests share: assertions and small nodes.

#![allow(dead_code)]

use reference::answer::{Accepted, Place, Refusal};
use reference::build::proof::{two_bands_certificate, two_bands_node, Proof};
use reference::build::{lit, CertificateFile, Line, NodeFile, Record, BOOL, INT};
use reference::certificate::Part;
use reference::session::{begin, instant, Record as Session};
use reference::{certificate, node};
use std::ops::RangeInclusive;

/// The node file is refused with this number and place, and has no note.
#[track_caller]
pub fn node_refused(file: &[u8], number: u8, place: Place) {
    assert_eq!(node::read(file).err(), Some(Refusal { number, place }));
    assert!(node::note(file).is_empty());
}

/// The node file passes 1 to 8 and 23.
#[track_caller]
pub fn node_accepted(file: &[u8]) {
    assert_eq!(node::read(file).err(), None);
}

/// The two files are refused with this number and place.
#[track_caller]
pub fn refused(node: &NodeFile, certificate: &CertificateFile, number: u8, place: Place) {
    refused_bytes(&node.bytes(), &certificate.bytes(), number, place);
}

/// The two files are refused with this number and place.
#[track_caller]
pub fn refused_bytes(node: &[u8], certificate: &[u8], number: u8, place: Place) {
    let verdict = certificate::check(node, certificate);
    assert_eq!(verdict, Err(Refusal { number, place }));
}

/// The two files are accepted, with the certificate's own depth and counts.
#[track_caller]
pub fn accepted(node: &NodeFile, certificate: &CertificateFile) {
    let expected = Accepted {
        depth: certificate.depth,
        base: u16::try_from(certificate.base.len()).unwrap(),
        step: u16::try_from(certificate.step.len()).unwrap(),
    };
    let verdict = certificate::check(&node.bytes(), &certificate.bytes());
    assert_eq!(verdict, Ok(expected));
}

/// 01's two bands and their certificate, as 02 has it redone.
pub fn two_bands() -> (NodeFile, CertificateFile) {
    (two_bands_node(), two_bands_certificate())
}

/// The property's values on a node without inputs.
pub fn property_values(node: &NodeFile, instants: usize) -> Vec<i64> {
    let mut session = Session::new();
    begin(&mut session, &node.bytes()).unwrap();
    let mut values = vec![0; node.records.len()];
    let mut run = || {
        instant(&mut session, &[], &mut values).unwrap();
        values[usize::from(node.property)]
    };
    (0..instants).map(|_| run()).collect()
}

/// The file with the bytes from `at` on replaced.
pub fn patched(file: &[u8], at: usize, bytes: &[u8]) -> Vec<u8> {
    let mut file = file.to_vec();
    file[at..at + bytes.len()].copy_from_slice(bytes);
    file
}

/// The file with the bytes from `back` before its end replaced.
pub fn patched_back(file: &[u8], back: usize, bytes: &[u8]) -> Vec<u8> {
    patched(file, file.len() - back, bytes)
}

/// The file behind a note that brings it to `length` bytes.
pub fn lengthened(file: &[u8], length: usize) -> Vec<u8> {
    let mut long = vec![0xA5; length - file.len()];
    long.extend(file);
    long
}

/// 0 int input u; 1 int input v; 2 u at most v; 3 true, the property.
pub fn comparing_node() -> NodeFile {
    let records = vec![
        Record::input(INT),
        Record::input(INT),
        Record::at_most(0, 1),
        Record::constant(BOOL, 1),
    ];
    NodeFile::new(records, 3)
}

/// Lines that refute, at these offsets, a stream that is constantly true.
fn constant_part(property: u16, first: usize, offsets: RangeInclusive<u16>) -> Vec<Line> {
    let mut proof = Proof::new(first);
    let mut left = proof.fails(property, offsets.clone());
    for q in offsets {
        let holds = proof.equation(property, q, 0, &[lit(property, q)]);
        left = proof.join(holds, left, lit(property, q));
    }
    proof.lines
}

/// A certificate for a node whose property is operator 1, true.
pub fn constant_certificate(property: u16, depth: u8) -> CertificateFile {
    let k = u16::from(depth);
    let base = constant_part(property, 0, 0..=k);
    let step = constant_part(property, base.len(), k..=k);
    CertificateFile {
        depth,
        base,
        step,
        ..CertificateFile::default()
    }
}

/// The certificate with more lines at the end of its base; the step's joins
/// still name the lines they named.
pub fn with_base_lines(certificate: &CertificateFile, lines: &[Line]) -> CertificateFile {
    let mut certificate = certificate.clone();
    certificate.base.extend(lines);
    let moved = u16::try_from(lines.len()).unwrap();
    for line in certificate.step.iter_mut().filter(|line| line.kind == 3) {
        line.p += moved;
        line.q += moved;
    }
    certificate
}

/// The number by which a line added to an accepted certificate is refused,
/// if it is; the place must then be that very line.
#[track_caller]
pub fn trial(
    node: &NodeFile,
    certificate: &CertificateFile,
    part: Part,
    line: Line,
) -> Result<(), u8> {
    let mut longer = certificate.clone();
    let number = match part {
        Part::Base => {
            longer = with_base_lines(certificate, &[line]);
            certificate.base.len()
        }
        Part::Step => {
            longer.step.push(line);
            certificate.base.len() + certificate.step.len()
        }
    };
    match certificate::check(&node.bytes(), &longer.bytes()) {
        Ok(_) => Ok(()),
        Err(refusal) => {
            assert_eq!(refusal.place, Place::Line(number), "{refusal}");
            Err(refusal.number)
        }
    }
}
