//! 01's "Two bands, one dish": the pair of `examples/two-bands`, its notes and
//! what refuses it.

mod common;

use common::{two_bands, with_note};
use conuhawe::{certificate_note, check, node_note, read, Accepted, Node, Place, Refusal};

const ACCEPTED: Accepted = Accepted {
    depth: 1,
    base: 23,
    step: 12,
};

fn refused<T>(number: usize, place: Place) -> Result<T, Refusal> {
    Err(Refusal { number, place })
}

#[test]
fn the_pair_is_accepted() {
    let (node, certificate) = two_bands();
    let expected = Node {
        streams: 6,
        property: 5,
    };
    assert_eq!(read(&node), Ok(expected));
    assert_eq!(check(&node, &certificate), Ok(ACCEPTED));
    assert_eq!(ACCEPTED.to_string(), "accepted depth 1 base 23 step 12");
}

#[test]
fn empty_files_are_refused_by_their_length() {
    let (node, certificate) = two_bands();
    assert_eq!(read(&[]), refused(1, Place::File));
    assert_eq!(check(&[], &certificate), refused(1, Place::File));
    assert_eq!(check(&node, &[]), refused(11, Place::File));
}

#[test]
fn a_refusal_names_the_record() {
    let (mut node, certificate) = two_bands();
    node[16 * 3] = 16;
    let expected = Refusal {
        number: 5,
        place: Place::Record(3),
    };
    assert_eq!(read(&node), Err(expected));
    assert_eq!(check(&node, &certificate), Err(expected));
    assert_eq!(expected.to_string(), "refused 5 record 3");
}

#[test]
fn a_refusal_names_the_line() {
    let (node, mut certificate) = two_bands();
    // Line 2 joins lines 0 and 1; now it joins line 0 with itself.
    certificate[80 * 2 + 4] = 0;
    assert_eq!(check(&node, &certificate), refused(19, Place::Line(2)));
    // Line 0, the property's, has no constraint to be a cut.
    certificate[0] = 5;
    assert_eq!(check(&node, &certificate), refused(22, Place::Line(0)));
}

#[test]
fn a_refusal_names_the_part() {
    let (node, certificate) = two_bands();
    // The lines that close a part: the last of each.
    for (line, place) in [(22, Place::Base), (34, Place::Step)] {
        let mut certificate = certificate.clone();
        // It is no longer empty: a join may have more literals.
        certificate[80 * line + 1] = 1;
        certificate[80 * line + 8] = 10;
        assert_eq!(check(&node, &certificate), refused(21, place));
    }
}

#[test]
fn the_base_covers_offset_1() {
    let (node, mut certificate) = two_bands();
    // Line 0 is {!5@0, !5@1}; version 1 had {!5@0}.
    assert_eq!(certificate[..12], [2, 2, 0, 0, 0, 0, 0, 0, 11, 0, 139, 0]);
    certificate[1] = 1;
    certificate[10] = 0;
    assert_eq!(check(&node, &certificate), refused(18, Place::Line(0)));
}

#[test]
fn another_version_is_refused_and_has_no_note() {
    let (node, certificate) = two_bands();
    let mut certificate = with_note(b"by induction", &certificate);
    let version = certificate.len() - 14;
    for byte in 0..=255 {
        certificate[version] = byte;
        let (answer, note) = match byte {
            2 => (Ok(ACCEPTED), &b"by induction"[..]),
            _ => (refused(12, Place::File), &b""[..]),
        };
        assert_eq!(check(&node, &certificate), answer, "version {byte}");
        assert_eq!(certificate_note(&certificate), note, "version {byte}");
    }
}

#[test]
fn notes_are_the_leading_parts() {
    let (node, certificate) = two_bands();
    assert_eq!(node_note(&node), b"");
    assert_eq!(certificate_note(&certificate), b"");

    let node = with_note(b"two bands", &node);
    let certificate = with_note(b"by induction", &certificate);
    assert_eq!(node_note(&node), b"two bands");
    assert_eq!(certificate_note(&certificate), b"by induction");
    assert_eq!(check(&node, &certificate), Ok(ACCEPTED));
}

#[test]
fn a_refused_file_has_no_note() {
    let (node, certificate) = two_bands();
    let mut node = with_note(b"two bands", &node);
    let mut certificate = with_note(b"by induction", &certificate);
    *node.last_mut().unwrap() = 1;
    certificate.pop();
    assert_eq!(node_note(&node), b"");
    assert_eq!(certificate_note(&certificate), b"");
}
