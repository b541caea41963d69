//! The listings: their exact text, and that damage doesn't stop them.

mod common;
#[path = "common/folders.rs"]
mod folders;

use common::{lengthened, patched, patched_back, two_bands};
use folders::{all, named};
use reference::build::random::{damage, Random};
use reference::build::{lit, on, opp, CertificateFile, Constraint, Line, NodeFile, Record};
use reference::build::{BOOL, INT};
use reference::list::{fields, files};
use std::fs;
use std::path::Path;
use std::process::{Command, Output};

/// The listing of the two bands.
const TWO_BANDS: &str = "\
node: 112 bytes, note 0, version 1, streams 6, property 5, distance 112
stream 0 bool = input
stream 1 bool = input
stream 2 bool = not 0
stream 3 bool = 1 and 2
stream 4 bool = 0 and 3
stream 5 bool = not 4 (property)
certificate: 2816 bytes, note 0, version 2, depth 1, constraints 0, base lines 23, step lines 12, distance 2816
line 0 base: property at 0 gives {!5@0, !5@1}
line 1 base: clause 0 of stream 5 at 0 gives {5@0, 4@0}
line 2 base: join of 1 and 0 on 5@0 gives {4@0, !5@1}
line 3 base: clause 0 of stream 4 at 0 gives {!4@0, 0@0}
line 4 base: join of 2 and 3 on 4@0 gives {!5@1, 0@0}
line 5 base: clause 1 of stream 4 at 0 gives {!4@0, 3@0}
line 6 base: join of 2 and 5 on 4@0 gives {!5@1, 3@0}
line 7 base: clause 1 of stream 3 at 0 gives {!3@0, 2@0}
line 8 base: join of 6 and 7 on 3@0 gives {!5@1, 2@0}
line 9 base: clause 1 of stream 2 at 0 gives {!2@0, !0@0}
line 10 base: join of 8 and 9 on 2@0 gives {!5@1, !0@0}
line 11 base: join of 4 and 10 on 0@0 gives {!5@1}
line 12 base: clause 0 of stream 5 at 1 gives {5@1, 4@1}
line 13 base: join of 12 and 11 on 5@1 gives {4@1}
line 14 base: clause 0 of stream 4 at 1 gives {!4@1, 0@1}
line 15 base: join of 13 and 14 on 4@1 gives {0@1}
line 16 base: clause 1 of stream 4 at 1 gives {!4@1, 3@1}
line 17 base: join of 13 and 16 on 4@1 gives {3@1}
line 18 base: clause 1 of stream 3 at 1 gives {!3@1, 2@1}
line 19 base: join of 17 and 18 on 3@1 gives {2@1}
line 20 base: clause 1 of stream 2 at 1 gives {!2@1, !0@1}
line 21 base: join of 19 and 20 on 2@1 gives {!0@1}
line 22 base: join of 15 and 21 on 0@1 gives { }
line 23 step: property at 1 gives {!5@1}
line 24 step: clause 0 of stream 5 at 1 gives {5@1, 4@1}
line 25 step: join of 24 and 23 on 5@1 gives {4@1}
line 26 step: clause 0 of stream 4 at 1 gives {!4@1, 0@1}
line 27 step: join of 25 and 26 on 4@1 gives {0@1}
line 28 step: clause 1 of stream 4 at 1 gives {!4@1, 3@1}
line 29 step: join of 25 and 28 on 4@1 gives {3@1}
line 30 step: clause 1 of stream 3 at 1 gives {!3@1, 2@1}
line 31 step: join of 29 and 30 on 3@1 gives {2@1}
line 32 step: clause 1 of stream 2 at 1 gives {!2@1, !0@1}
line 33 step: join of 31 and 32 on 2@1 gives {!0@1}
line 34 step: join of 27 and 33 on 0@1 gives { }
accepted depth 1 base 23 step 12
";

/// What the program does with these arguments.
fn program(paths: &[&Path]) -> Output {
    let mut program = Command::new(env!("CARGO_BIN_EXE_reference-list"));
    program.args(paths).output().unwrap()
}

#[test]
fn two_bands_as_a_whole() {
    let (node, certificate) = two_bands();
    let written = [
        ("two-bands.node", node.bytes()),
        ("two-bands.cert", certificate.bytes()),
    ];
    let listing = files(&written[0].1, Some(&written[1].1));
    assert_eq!(listing.join("\n") + "\n", TWO_BANDS);
    let paths = written.map(|(name, bytes)| {
        let path = Path::new(env!("CARGO_TARGET_TMPDIR")).join(name);
        fs::write(&path, bytes).unwrap();
        path
    });
    let output = program(&[&paths[0], &paths[1]]);
    assert!(output.status.success());
    assert_eq!(String::from_utf8(output.stdout).unwrap(), TWO_BANDS);
}

/// A file of another version is listed as it stands.
#[test]
fn every_version_is_listed() {
    let (node, certificate) = two_bands();
    for version in [0, 1, 3, 255] {
        let listing = files(&node.bytes(), Some(&certificate.bytes_of_version(version)));
        let (verdict, listing) = listing.split_last().unwrap();
        assert_eq!(verdict, "refused 12 file");
        let said = format!("note 0, version {version}, depth 1");
        assert!(listing[7].contains(&said), "{}", listing[7]);
        assert!(TWO_BANDS.lines().skip(8).take(35).eq(&listing[8..]));
    }
}

#[test]
fn a_node_alone() {
    let folder = named("two-bands");
    let listing = files(&folder.node, None);
    let (verdict, node) = listing.split_last().unwrap();
    assert!(TWO_BANDS.lines().take(7).eq(node));
    assert_eq!(verdict, "accepted streams 6 property 5 inputs 2 note 0");
    let output = program(&[&folder.path.join("node.bin")]);
    assert_eq!(output.stdout, (listing.join("\n") + "\n").as_bytes());
}

#[test]
fn a_loop_is_listed_as_it_stands() {
    let records = vec![Record::not(1), Record::and(2, 0), Record::input(BOOL)];
    let listing = files(&NodeFile::new(records, 0).bytes(), None);
    let lines = [
        "stream 0 bool = not 1 (property)",
        "stream 1 bool = 2 and 0",
        "stream 2 bool = input",
        "refused 23 record 0",
    ];
    assert_eq!(listing[1..], lines);
}

#[test]
fn a_wrong_use_is_told() {
    let folder = named("two-bands").path;
    let usage = "reference-list: usage: reference-list node.bin [cert.bin]\n";
    for paths in [&[][..], &[folder.as_path(); 3]] {
        let output = program(paths);
        assert!(!output.status.success() && output.stdout.is_empty());
        assert_eq!(String::from_utf8(output.stderr).unwrap(), usage);
    }
    let output = program(&[&folder.join("node.bin"), &folder.join("none.bin")]);
    assert!(!output.status.success() && output.stdout.is_empty());
    let told = String::from_utf8(output.stderr).unwrap();
    assert!(told.starts_with("reference-list: ") && told.contains("none.bin: "));
}

#[test]
fn every_example_ends_in_its_verdict() {
    for folder in all() {
        let listing = files(&folder.node, Some(&folder.certificate));
        assert_eq!(listing.last().unwrap(), folder.verdict.trim_end());
    }
}

/// The listing of one record, of a node with one stream.
fn listed_record(record: Record) -> String {
    files(&NodeFile::new(vec![record], 1).bytes(), None)[1].clone()
}

#[test]
fn every_operator() {
    let rows = [
        (Record::input(INT), "int = input"),
        (Record::constant(BOOL, 1), "bool = constant 1"),
        (Record::constant(INT, -7), "int = constant -7"),
        (Record::not(4), "bool = not 4"),
        (Record::and(4, 5), "bool = 4 and 5"),
        (Record::or(4, 5), "bool = 4 or 5"),
        (Record::same(4, 5), "bool = 4 same as 5"),
        (Record::sum(4, 5), "int = 4 + 5"),
        (Record::difference(4, 5), "int = 4 - 5"),
        (Record::multiple(-3, 5), "int = constant -3 * 5"),
        (Record::at_most(4, 5), "bool = 4 at most 5"),
        (Record::equal(4, 5), "bool = 4 equal to 5"),
        (Record::choice(INT, 6, 4, 5), "int = if 6 then 4 else 5"),
        (Record::arrow(BOOL, 4, 5), "bool = 4 -> 5"),
        (Record::arrow_pre(BOOL, 4, 5), "bool = 4 -> pre 5"),
        (Record::lesser(4, 5), "int = lesser of 4 and 5"),
        (Record::greater(4, 5), "int = greater of 4 and 5"),
    ];
    for (record, text) in rows {
        assert_eq!(listed_record(record), format!("stream 0 {text}"));
    }
}

#[test]
fn wrong_records() {
    let wrong = Record {
        operator: 16,
        a: 1,
        b: 2,
        c: 3,
        k: 4,
        ..Record::default()
    };
    assert_eq!(
        listed_record(wrong),
        "stream 0 bool = operator 16 of 1, 2, 3, constant 4"
    );
    let typed = Record {
        type_byte: 2,
        ..Record::not(65535)
    };
    assert_eq!(listed_record(typed), "stream 0 type 2 = not 65535");
    let remark = "stream 0 bool = not 1 [a field that should be 0 is not]";
    assert_eq!(
        listed_record(Record {
            b: 1,
            ..Record::not(1)
        }),
        remark
    );
    assert_eq!(
        listed_record(Record {
            zeros: [0, 0, 0, 1],
            ..Record::not(1)
        }),
        remark
    );
}

/// The listing of the first block of a certificate with this constraint or
/// this line.
fn listed_block(constraint: Option<Constraint>, line: Option<Line>) -> String {
    let certificate = CertificateFile {
        depth: 1,
        constraints: Vec::from_iter(constraint),
        step: Vec::from_iter(line),
        ..CertificateFile::default()
    };
    files(&[], Some(&certificate.bytes()))[2].clone()
}

#[test]
fn constraints() {
    let rows = [
        (
            Constraint::new(&[(4, 1, 1), (5, 0, -1)], -1),
            "1*s4@1 - 1*s5@0 <= -1",
        ),
        (
            Constraint::new(&[(4, 1, -2), (5, 0, 20)], 7),
            "-2*s4@1 + 20*s5@0 <= 7",
        ),
        (
            Constraint::new(&[(1, 2, 3), (4, 5, i32::MIN)], i64::MIN),
            "3*s1@2 - 2147483648*s4@5 <= -9223372036854775808",
        ),
        (Constraint::new(&[], 0), "0 <= 0"),
        (
            Constraint {
                count: 1,
                ..Constraint::default()
            },
            "0*s0@0 <= 0",
        ),
        (
            Constraint {
                count: 0,
                ..Constraint::new(&[(1, 0, 1)], 2)
            },
            "0 <= 2 [a field that should be 0 is not]",
        ),
        (
            Constraint {
                zeros: [0, 0, 0, 0, 0, 0, 1],
                ..Constraint::default()
            },
            "0 <= 0 [a field that should be 0 is not]",
        ),
    ];
    for (constraint, text) in rows {
        assert_eq!(listed_block(Some(constraint), None), format!("c0: {text}"));
    }
    let nine = Constraint {
        count: 9,
        ..Constraint::new(&[(0, 0, 1); 8], 0)
    };
    assert!(listed_block(Some(nine), None).ends_with(" + 1*s0@0 <= 0 [term count 9]"));
}

#[test]
fn lines() {
    let clause = [lit(5, 1), opp(lit(4, 0)), on(3), opp(on(0))];
    let rows = [
        (
            Line::equation(5, 1, 2, &clause),
            "clause 2 of stream 5 at 1 gives {5@1, !4@0, c3, !c0}",
        ),
        (Line::property(1, &[]), "property at 1 gives { }"),
        (
            Line::join(3, 4, opp(on(9)), &clause[..1]),
            "join of 3 and 4 on !c9 gives {5@1}",
        ),
        (
            Line::arithmetic(&[(on(1), 20), (opp(on(2)), 1)]),
            "arithmetic times 20, 1 gives {c1, !c2}",
        ),
        (
            Line {
                kind: 7,
                p: 1,
                q: 2,
                r: 3,
                ..Line::default()
            },
            "kind 7 with 1, 2, 3 gives { }",
        ),
        (
            Line {
                p: 1,
                ..Line::property(1, &[])
            },
            "property at 1 gives { } [a field that should be 0 is not]",
        ),
        (
            Line {
                multipliers: [1; 12],
                ..Line::join(0, 1, 2, &[])
            },
            "join of 0 and 1 on 1@0 gives { } [a field that should be 0 is not]",
        ),
        (
            Line {
                count: 1,
                ..Line::property(0, &[0, 2])
            },
            "property at 0 gives {0@0} [a field that should be 0 is not]",
        ),
    ];
    for (line, text) in rows {
        assert_eq!(
            listed_block(None, Some(line)),
            format!("line 0 step: {text}")
        );
    }
    let many = Line {
        count: 13,
        ..Line::property(0, &[65535; 12])
    };
    assert!(listed_block(None, Some(many)).ends_with(", !c32191} [literal count 13]"));
}

#[test]
fn cuts() {
    let cut = Line::cut(2, &[(opp(on(1)), 20), (on(0), 3), (on(2), 0)]);
    assert_eq!(
        listed_block(None, Some(cut)),
        "line 0 step: cut by 2 times 20, 3, 0 gives {!c1, c0, c2}"
    );
    let wrong = Line {
        q: 1,
        ..Line::cut(65_535, &[(on(2), 0)])
    };
    assert_eq!(
        listed_block(None, Some(wrong)),
        "line 0 step: cut by 65535 times 0 gives {c2} [a field that should be 0 is not]"
    );
}

#[test]
fn notes_and_trailers() {
    let (node, certificate) = two_bands();
    let (node, certificate) = (
        lengthened(&node.bytes(), 115),
        lengthened(&certificate.bytes(), 2880),
    );
    let listing = files(&node, Some(&certificate));
    assert_eq!(
        listing[0],
        "node: 115 bytes, note 3, version 1, streams 6, property 5, distance 112"
    );
    assert!(listing[7].starts_with("certificate: 2880 bytes, note 64, version 2, depth 1, "));
    assert_eq!(listing.last().unwrap(), "accepted depth 1 base 23 step 12");
    let listing = files(
        &patched_back(&node, 1, &[1]),
        Some(&patched_back(&certificate, 5, &[1])),
    );
    assert!(listing[0].ends_with("distance 112 [a field that should be 0 is not]"));
    assert!(listing[7].ends_with("distance 2816 [a field that should be 0 is not]"));
    assert_eq!(listing[1], "stream 0 bool = input");
    assert_eq!(listing.last().unwrap(), "refused 2 file");
}

#[test]
fn what_is_left_of_a_file() {
    let (node, certificate) = two_bands();
    let (node, certificate) = (node.bytes(), certificate.bytes());
    let no_trailer = ["node: 111 bytes, no trailer", "refused 1 file"];
    assert_eq!(files(&node[..111], None), [no_trailer[0], "refused 2 file"]);
    assert_eq!(
        files(&[], Some(&[])),
        [
            "node: 0 bytes, no trailer",
            "certificate: 0 bytes, no trailer",
            no_trailer[1]
        ]
    );
    let listing = files(&node[70..], None);
    let left = [
        "node: 42 bytes, note 0, version 1, streams 6, property 5, distance 112",
        "missing: the first 5 of 6 blocks, but for 10 bytes",
        "stream 5 bool = not 4 (property)",
        "refused 4 file",
    ];
    assert_eq!(listing, left);
    let listing = files(&node, Some(&certificate[33 * 80 + 1..]));
    assert!(listing[7].starts_with("certificate: 175 bytes, note 0, "));
    assert_eq!(
        listing[8],
        "missing: the first 34 of 35 blocks, but for 79 bytes"
    );
    assert_eq!(
        listing[9],
        "line 34 step: join of 27 and 33 on 0@1 gives { }"
    );
    assert_eq!(listing[10], "refused 14 file");
    let typed = patched(&node, 3 * 16 + 1, &[1]);
    let listing = files(&typed, Some(&certificate));
    assert_eq!(listing[4], "stream 3 int = 1 and 2");
    assert_eq!(listing.last().unwrap(), "refused 7 record 3");
}

/// Lists the two files, which must not panic; the verdict stands last.
fn survives(node: &[u8], certificate: &[u8]) {
    let listing = files(node, Some(certificate));
    let verdict = listing.last().unwrap();
    assert!(verdict.starts_with("accepted depth ") || verdict.starts_with("refused "));
    assert!(files(node, None).len() >= 2);
}

#[test]
fn every_truncation_is_listed() {
    for folder in all() {
        let (node, certificate) = (&folder.node, &folder.certificate);
        for i in 0..node.len() {
            survives(&node[i..], certificate);
            survives(&node[..i], certificate);
        }
        for i in 0..certificate.len() {
            survives(node, &certificate[i..]);
            survives(node, &certificate[..i]);
        }
    }
}

#[test]
fn random_bytes_are_listed() {
    let mut random = Random::new(21);
    for i in 0..4_000 {
        let length = random.below(700);
        let mut bytes: Vec<u8> = (0..length).map(|_| random.byte()).collect();
        survives(&bytes, &bytes);
        // Every other one with the trailers' first bytes.
        let front = length.saturating_sub(16);
        let first = [[0x4C, 0x4E], [0x4B, 0x43]][i % 2];
        for (slot, byte) in bytes[front..].iter_mut().zip(first) {
            *slot = byte;
        }
        survives(&bytes, &bytes);
    }
}

#[test]
fn damaged_examples_are_listed() {
    let mut random = Random::new(22);
    for folder in all() {
        for _ in 0..400 {
            let (mut node, mut certificate) = (folder.node.clone(), folder.certificate.clone());
            damage(&mut random, &mut node);
            damage(&mut random, &mut certificate);
            survives(&node, &folder.certificate);
            survives(&folder.node, &certificate);
        }
    }
}

#[test]
fn fields_hold_every_bit() {
    let mut random = Random::new(23);
    for _ in 0..1_000 {
        let block: [u8; 80] = std::array::from_fn(|_| random.byte());
        assert_eq!(fields::constraint(&block).bytes(), block);
        assert_eq!(fields::line(&block).bytes(), block);
        let record = block.first_chunk().unwrap();
        assert_eq!(fields::record(record).bytes(), record);
    }
}
