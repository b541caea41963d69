//! Refusals 11 to 15, their places and their limits; the note.

mod common;

use common::{
    accepted, comparing_node, constant_certificate, lengthened, patched_back, refused,
    refused_bytes, two_bands,
};
use reference::answer::Place;
use reference::answer::Place::File;
use reference::build::proof::two_bands_part;
use reference::build::{CertificateFile, Constraint, NodeFile, Record, Term, BOOL, INT};
use reference::certificate;

/// 01's example with its trailer damaged: `back` bytes before the end.
#[track_caller]
fn trailer_refused(back: usize, bytes: &[u8], number: u8) {
    let (node, certificate) = two_bands();
    let file = patched_back(&certificate.bytes(), back, bytes);
    refused_bytes(&node.bytes(), &file, number, File);
}

#[test]
fn the_worked_example_is_accepted() {
    let (node, certificate) = two_bands();
    assert_eq!(certificate.base.len(), 23);
    assert_eq!(certificate.step.len(), 12);
    accepted(&node, &certificate);
    let verdict = certificate::check(&node.bytes(), &certificate.bytes()).unwrap();
    assert_eq!(verdict.to_string(), "accepted depth 1 base 23 step 12");
}

#[test]
fn the_node_file_is_refused_first() {
    let (node, _) = two_bands();
    refused_bytes(&[], &[], 1, File);
    refused_bytes(&node.bytes()[1..], &[], 4, File);
    let mut typed = node;
    typed.records[5].type_byte = INT;
    refused_bytes(&typed.bytes(), &[], 7, Place::Record(5));
}

#[test]
fn refusal_11_length() {
    let (node, certificate) = two_bands();
    let (node, file) = (node.bytes(), certificate.bytes());
    refused_bytes(&node, &[], 11, File);
    refused_bytes(&node, &file[file.len() - 15..], 11, File);
    refused_bytes(&node, &lengthened(&file, 65_536), 11, File);
    refused_bytes(&node, &vec![0; 200_000], 11, File);
    assert!(certificate::check(&node, &lengthened(&file, 65_535)).is_ok());
    refused_bytes(&node, &file[file.len() - 16..], 14, File);
    refused_bytes(&node, &[0; 16], 12, File);
}

#[test]
fn refusal_12_fixed_bytes() {
    for (back, byte) in [(16, 0x4C), (15, 0x4B), (6, 1), (5, 1)] {
        trailer_refused(back, &[byte], 12);
    }
    for version in [0, 1, 3, 255] {
        trailer_refused(14, &[version], 12);
        // 12 comes before 13 and 14.
        trailer_refused(14, &[version, 9, 0, 0, 0, 0, 0, 0, 0, 0, 0, 0, 0, 0], 12);
    }
}

/// 02: "Certificate version becomes 2"; of another there is no note.
#[test]
fn refusal_12_every_version_but_2() {
    let (node, mut certificate) = two_bands();
    certificate.note = b"proved".to_vec();
    accepted(&node, &certificate);
    assert_eq!(certificate::note(&certificate.bytes()), b"proved");
    for version in (0..=255).filter(|version| *version != 2) {
        let file = certificate.bytes_of_version(version);
        refused_bytes(&node.bytes(), &file, 12, File);
        assert_eq!(certificate::note(&file), b"");
    }
}

/// The certificate that version 1 had for the two bands, whose base covers
/// offset 0 alone: under its own version byte or the new one.
#[test]
fn the_certificate_of_version_1() {
    let (node, _) = two_bands();
    let old = CertificateFile {
        depth: 1,
        base: two_bands_part(0, 0..=0),
        step: two_bands_part(12, 1..=1),
        ..CertificateFile::default()
    };
    assert_eq!([old.base.len(), old.step.len()], [12, 12]);
    refused_bytes(&node.bytes(), &old.bytes_of_version(1), 12, File);
    refused(&node, &old, 18, Place::Line(0));
}

#[test]
fn refusal_13_depth_and_constraint_count() {
    for depth in [0, 9, 10, 255] {
        trailer_refused(13, &[depth], 13);
    }
    for count in [257u16, 258, 0xFFFF] {
        trailer_refused(12, &count.to_le_bytes(), 13);
    }
    // Up to 256 it is the distance that is wrong.
    for count in [1u16, 255, 256] {
        trailer_refused(12, &count.to_le_bytes(), 14);
    }
    // 13 comes before 14.
    trailer_refused(13, &[9, 0, 0, 0, 0, 0, 0, 0, 0, 0, 0, 0, 0], 13);
}

#[test]
fn depths_1_to_8_are_accepted() {
    for depth in 1..=8 {
        accepted(&comparing_node(), &constant_certificate(3, depth));
    }
    let mut shallow = constant_certificate(3, 1);
    shallow.depth = 0;
    refused(&comparing_node(), &shallow, 13, File);
    let mut deep = constant_certificate(3, 8);
    deep.depth = 9;
    refused(&comparing_node(), &deep, 13, File);
}

#[test]
fn constraint_counts_0_256_and_257() {
    let mut certificate = constant_certificate(3, 1);
    for count in [0, 1, 256] {
        certificate.constraints = vec![Constraint::new(&[], 0); count];
        accepted(&comparing_node(), &certificate);
    }
    certificate.constraints = vec![Constraint::new(&[], 0); 257];
    refused(&comparing_node(), &certificate, 13, File);
}

#[test]
fn refusal_14_distance() {
    for distance in [
        0u32,
        16,
        2815,
        2817,
        16 + 80 * 34,
        16 + 80 * 36,
        0x0001_0B00,
        u32::MAX,
    ] {
        trailer_refused(4, &distance.to_le_bytes(), 14);
    }
    let (node, certificate) = two_bands();
    let (node, file) = (node.bytes(), certificate.bytes());
    assert_eq!(file.len(), 2816);
    refused_bytes(&node, &file[1..], 14, File);
    refused_bytes(&node, &file[80..], 14, File);
    // Counts that reach over the file's start, the distance right for them.
    let counts = [0, 0, 255, 255, 255, 255, 0, 0];
    let many = patched_back(&file, 12, &counts);
    let distance = 16 + 80 * 2 * 65_535u32;
    refused_bytes(
        &node,
        &patched_back(&many, 4, &distance.to_le_bytes()),
        14,
        File,
    );
    // A base line more and a step line fewer is no matter of the distance.
    let moved = patched_back(&file, 10, &[24, 0, 11, 0]);
    refused_bytes(&node, &moved, 18, Place::Line(23));
}

#[test]
fn no_lines_at_all() {
    let (node, _) = two_bands();
    let empty = CertificateFile {
        depth: 1,
        ..CertificateFile::default()
    };
    assert_eq!(empty.bytes().len(), 16);
    refused(&node, &empty, 21, Place::Base);
}

#[test]
fn the_longest_certificate() {
    let (node, mut certificate) = two_bands();
    let more = certificate.step[0];
    certificate.step.resize(818 - 23, more);
    let length = 16 + 80 * 818;
    assert_eq!(certificate.bytes().len(), length);
    accepted(&node, &certificate);
    certificate.note = vec![1; 65_535 - length];
    accepted(&node, &certificate);
    certificate.note.push(1);
    refused(&node, &certificate, 11, File);
}

#[test]
fn the_note_is_the_certificate_s_alone() {
    let (node, mut certificate) = two_bands();
    certificate.note = b"proved".to_vec();
    let file = certificate.bytes();
    accepted(&node, &certificate);
    assert_eq!(certificate::note(&file), b"proved");
    assert_eq!(certificate::note(&file).as_ptr(), file.as_ptr());
    // Refused lines or constraints leave the note, a refused file does not.
    certificate.base.clear();
    assert_eq!(certificate::note(&certificate.bytes()), b"proved");
    certificate
        .constraints
        .push(Constraint::new(&[(0, 0, 1)], 0));
    refused(&node, &certificate, 15, Place::Constraint(0));
    assert_eq!(certificate::note(&certificate.bytes()), b"proved");
    for (back, byte) in [(16, 0), (14, 1), (13, 0), (4, 1)] {
        assert!(certificate::note(&patched_back(&file, back, &[byte])).is_empty());
    }
    assert!(certificate::note(&file[file.len() - 15..]).is_empty());
    assert!(certificate::note(&two_bands().1.bytes()).is_empty());
}

/// Int inputs 0 to 7, bool input 8, int input 9, property 10.
fn wide_node() -> NodeFile {
    let mut records = vec![Record::input(INT); 8];
    records.push(Record::input(BOOL));
    records.push(Record::input(INT));
    records.push(Record::constant(BOOL, 1));
    NodeFile::new(records, 10)
}

/// The number by which a constraint is refused, at depth 2, if it is.
fn constraint_answer(constraint: Constraint) -> Option<u8> {
    let mut certificate = constant_certificate(10, 2);
    certificate.constraints = vec![Constraint::new(&[(0, 0, 1)], 0), constraint];
    match certificate::check(&wide_node().bytes(), &certificate.bytes()) {
        Ok(_) => None,
        Err(refusal) => {
            assert_eq!(refusal.place, Place::Constraint(1));
            Some(refusal.number)
        }
    }
}

#[track_caller]
fn constraint_refused(constraint: Constraint) {
    assert_eq!(constraint_answer(constraint), Some(15));
}

#[track_caller]
fn constraint_accepted(constraint: Constraint) {
    assert_eq!(constraint_answer(constraint), None);
}

#[test]
fn refusal_15_bounds() {
    let limit = 100_000_000_000;
    for bound in [limit, -limit, 0, 1, -1] {
        constraint_accepted(Constraint::new(&[], bound));
        constraint_accepted(Constraint::new(&[(9, 2, 1)], bound));
    }
    for bound in [limit + 1, -limit - 1, i64::MAX, i64::MIN] {
        constraint_refused(Constraint::new(&[], bound));
        constraint_refused(Constraint::new(&[(9, 2, 1)], bound));
    }
}

#[test]
fn refusal_15_coefficients() {
    for coefficient in [1_000_000_000, -1_000_000_000, 1, -1] {
        constraint_accepted(Constraint::new(&[(1, 0, coefficient)], 0));
    }
    for coefficient in [0, 1_000_000_001, -1_000_000_001, i32::MAX, i32::MIN] {
        constraint_refused(Constraint::new(&[(1, 0, coefficient)], 0));
        constraint_refused(Constraint::new(&[(1, 0, 1), (2, 0, coefficient)], 0));
    }
}

#[test]
fn refusal_15_term_counts() {
    let terms: Vec<(u16, u8, i32)> = (0..8).map(|stream| (stream, 1, 1)).collect();
    for count in 0..=8 {
        constraint_accepted(Constraint::new(&terms[..count], 0));
    }
    let full = Constraint::new(&terms, 0);
    for count in [9, 10, 128, 255] {
        constraint_refused(Constraint { count, ..full });
    }
    // A term that the count does not use, and one it uses but is not there.
    constraint_refused(Constraint { count: 7, ..full });
    constraint_refused(Constraint { count: 0, ..full });
    let three = Constraint::new(&terms[..3], 0);
    constraint_refused(Constraint { count: 4, ..three });
}

#[test]
fn refusal_15_streams_and_offsets() {
    for stream in [8, 10, 11, 63, 64, 256, 265, 65_535] {
        constraint_refused(Constraint::new(&[(stream, 0, 1)], 0));
    }
    for offset in [0, 1, 2] {
        constraint_accepted(Constraint::new(&[(9, offset, 1)], 0));
    }
    for offset in [3, 4, 255] {
        constraint_refused(Constraint::new(&[(9, offset, 1)], 0));
    }
}

#[test]
fn refusal_15_order() {
    constraint_accepted(Constraint::new(
        &[(0, 0, 1), (1, 0, 1), (0, 1, 1), (9, 2, 1)],
        0,
    ));
    constraint_accepted(Constraint::new(&[(9, 0, 1), (0, 1, 1)], 0));
    constraint_refused(Constraint::new(&[(1, 0, 1), (0, 0, 1)], 0));
    constraint_refused(Constraint::new(&[(1, 0, 1), (1, 0, 1)], 0));
    constraint_refused(Constraint::new(&[(0, 1, 1), (1, 0, 1)], 0));
    constraint_refused(Constraint::new(&[(0, 0, 1), (2, 2, 1), (2, 1, 1)], 0));
}

#[test]
fn refusal_15_zero_bytes() {
    let good = Constraint::new(&[(0, 0, 1), (1, 0, 1)], 5);
    constraint_accepted(good);
    for i in 0..7 {
        let mut wrong = good;
        wrong.zeros[i] = 1;
        constraint_refused(wrong);
    }
    for i in 0..8 {
        let mut wrong = good;
        wrong.terms[i].zero = 1;
        constraint_refused(wrong);
    }
    for i in 2..8 {
        for term in [Term::new(1, 0, 0), Term::new(0, 1, 0), Term::new(0, 0, 1)] {
            let mut wrong = good;
            wrong.terms[i] = term;
            constraint_refused(wrong);
        }
    }
}

#[test]
fn refusal_15_names_the_lowest_constraint_and_comes_before_16() {
    let mut certificate = constant_certificate(10, 2);
    certificate.constraints = vec![Constraint::new(&[], 0); 6];
    certificate.constraints[4].bound = i64::MAX;
    certificate.constraints[3].count = 1;
    certificate.base[0].kind = 0;
    refused(&wide_node(), &certificate, 15, Place::Constraint(3));
    certificate.constraints[3].count = 0;
    refused(&wide_node(), &certificate, 15, Place::Constraint(4));
    certificate.constraints[4].bound = 0;
    refused(&wide_node(), &certificate, 16, Place::Line(0));
}
