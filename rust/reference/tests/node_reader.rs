//! Refusals 1 to 8, their places and their limits; 23 is in `any_order.rs`.

mod common;

use common::{lengthened, node_accepted, node_refused, patched, patched_back};
use reference::answer::Place::{File, Record as At};
use reference::build::proof::two_bands_node;
use reference::build::{NodeFile, Record, BOOL, INT};
use reference::node::{self, Equation, Type};

/// Bool inputs and nothing else.
fn inputs(count: usize) -> NodeFile {
    NodeFile::new(vec![Record::input(BOOL); count], 0)
}

/// One record of each kind an operand may need, then `record`.
fn with(record: Record) -> Vec<u8> {
    let records = vec![
        Record::input(BOOL),
        Record::input(INT),
        Record::input(BOOL),
        Record::input(INT),
        record,
    ];
    NodeFile::new(records, 0).bytes()
}

const BOOLS: (u16, u16) = (0, 2);
const INTS: (u16, u16) = (1, 3);

#[test]
fn two_bands_are_read() {
    let file = two_bands_node().bytes();
    let node = node::read(&file).unwrap();
    assert_eq!(node.count(), 6);
    assert_eq!(node.property(), 5);
    assert_eq!(node.inputs(), [0, 1]);
    assert_eq!(node.types(), [Type::Bool; 6]);
    assert_eq!(
        node.equations(),
        [
            Equation::Input,
            Equation::Input,
            Equation::Not { a: 0 },
            Equation::And { a: 1, b: 2 },
            Equation::And { a: 0, b: 3 },
            Equation::Not { a: 4 },
        ]
    );
    assert_eq!(node.body(), file);
    assert!(node.note().is_empty());
}

#[test]
fn every_operator_is_decoded() {
    let (a, b) = BOOLS;
    let (x, y) = INTS;
    let cases = [
        (Record::input(INT), Equation::Input),
        (Record::constant(INT, -7), Equation::Constant { k: -7 }),
        (Record::not(b), Equation::Not { a: 2 }),
        (Record::and(a, b), Equation::And { a: 0, b: 2 }),
        (Record::or(b, a), Equation::Or { a: 2, b: 0 }),
        (Record::same(a, b), Equation::Same { a: 0, b: 2 }),
        (Record::sum(x, y), Equation::Sum { a: 1, b: 3 }),
        (
            Record::difference(y, x),
            Equation::Difference { a: 3, b: 1 },
        ),
        (Record::multiple(5, y), Equation::Multiple { k: 5, a: 3 }),
        (Record::at_most(x, y), Equation::AtMost { a: 1, b: 3 }),
        (Record::equal(y, x), Equation::Equal { a: 3, b: 1 }),
        (
            Record::choice(INT, b, x, y),
            Equation::Choice { a: 1, b: 3, c: 2 },
        ),
        (
            Record::choice(BOOL, a, b, a),
            Equation::Choice { a: 2, b: 0, c: 0 },
        ),
        (Record::arrow(BOOL, a, b), Equation::Arrow { a: 0, b: 2 }),
        (Record::arrow(INT, y, x), Equation::Arrow { a: 3, b: 1 }),
        (
            Record::arrow_pre(INT, x, 4),
            Equation::ArrowPre { a: 1, b: 4 },
        ),
        (
            Record::arrow_pre(BOOL, a, 4),
            Equation::ArrowPre { a: 0, b: 4 },
        ),
        (Record::lesser(x, y), Equation::Lesser { a: 1, b: 3 }),
        (Record::greater(y, x), Equation::Greater { a: 3, b: 1 }),
    ];
    for (record, equation) in cases {
        let file = with(record);
        assert_eq!(node::read(&file).unwrap().equations()[4], equation);
    }
}

#[test]
fn the_note_is_the_front_of_the_file() {
    let mut file = two_bands_node();
    file.note = b"two bands, one dish".to_vec();
    let bytes = file.bytes();
    assert_eq!(node::note(&bytes), b"two bands, one dish");
    assert_eq!(node::note(&bytes).as_ptr(), bytes.as_ptr());
    assert_eq!(node::read(&bytes).unwrap().body(), two_bands_node().bytes());
    node_refused(&patched_back(&bytes, 1, &[1]), 2, File);
}

#[test]
fn refusal_1_length() {
    let file = inputs(1).bytes();
    node_refused(&[], 1, File);
    node_refused(&file[file.len() - 15..], 1, File);
    node_refused(&lengthened(&file, 65_536), 1, File);
    node_refused(&vec![0; 100_000], 1, File);
    node_accepted(&lengthened(&file, 65_535));
    // Sixteen bytes are long enough to be refused for something else.
    node_refused(&file[file.len() - 16..], 4, File);
    node_refused(&[0; 16], 2, File);
}

#[test]
fn refusal_2_fixed_bytes() {
    let file = two_bands_node().bytes();
    for (back, byte) in [(16, 0x4D), (15, 0x4C), (14, 2), (14, 0), (13, 1)] {
        node_refused(&patched_back(&file, back, &[byte]), 2, File);
    }
    for back in 1..=4 {
        node_refused(&patched_back(&file, back, &[1]), 2, File);
    }
    // 2 comes before 3 and 4.
    let many = patched_back(&file, 12, &[0; 12]);
    node_refused(&patched_back(&many, 16, &[0]), 2, File);
}

#[test]
fn refusal_3_counts() {
    node_accepted(&inputs(1).bytes());
    node_accepted(&inputs(64).bytes());
    node_refused(&inputs(0).bytes(), 3, File);
    node_refused(&inputs(65).bytes(), 3, File);
    let file = two_bands_node().bytes();
    node_refused(&patched_back(&file, 10, &6u16.to_le_bytes()), 3, File);
    node_refused(&patched_back(&file, 10, &0xFFFFu16.to_le_bytes()), 3, File);
    node_refused(&patched_back(&file, 12, &0x0106u16.to_le_bytes()), 3, File);
    // 3 comes before 4.
    node_refused(
        &patched_back(&file, 12, &[65, 0, 0, 0, 0, 0, 0, 0]),
        3,
        File,
    );
}

#[test]
fn refusal_4_distance() {
    let file = two_bands_node().bytes();
    for distance in [0u32, 16, 111, 113, 0x0001_0070, u32::MAX] {
        node_refused(&patched_back(&file, 8, &distance.to_le_bytes()), 4, File);
    }
    // The right distance, but past the start.
    node_refused(&file[1..], 4, File);
    node_refused(&file[16..], 4, File);
    // Fewer records than the distance reaches back over.
    node_refused(&patched_back(&file, 12, &5u16.to_le_bytes()), 3, File);
    let fewer = patched_back(&file, 12, &[5, 0, 4, 0]);
    node_refused(&fewer, 4, File);
}

#[test]
fn refusal_5_operator_and_type_byte() {
    let record = Record::input(BOOL);
    for operator in [16, 17, 128, 255] {
        node_refused(&with(Record { operator, ..record }), 5, At(4));
    }
    // 02: "5 now says over 15". Of 14 and 15 it is 7 that speaks here.
    for operator in [14, 15] {
        node_refused(&with(Record { operator, ..record }), 7, At(4));
    }
    for type_byte in [2, 3, 255] {
        node_refused(
            &with(Record {
                type_byte,
                ..record
            }),
            5,
            At(4),
        );
        node_refused(
            &with(Record {
                type_byte,
                ..Record::not(0)
            }),
            5,
            At(4),
        );
    }
}

#[test]
fn refusal_5_constants() {
    for k in [0, 1] {
        node_accepted(&with(Record::constant(BOOL, k)));
    }
    for k in [-1, 2, 1_000_000_000, i32::MIN] {
        node_refused(&with(Record::constant(BOOL, k)), 5, At(4));
    }
    for k in [1_000_000_000, -1_000_000_000, 0] {
        node_accepted(&with(Record::constant(INT, k)));
        node_accepted(&with(Record::multiple(k, 1)));
    }
    for k in [1_000_000_001, -1_000_000_001, i32::MIN, i32::MAX] {
        node_refused(&with(Record::constant(INT, k)), 5, At(4));
        node_refused(&with(Record::multiple(k, 1)), 5, At(4));
    }
    // Operator 8 has the wide rule whatever its type byte: then 7 speaks.
    let bool_multiple = |k| {
        with(Record {
            type_byte: BOOL,
            ..Record::multiple(k, 1)
        })
    };
    node_refused(&bool_multiple(1_000_000_000), 7, At(4));
    node_refused(&bool_multiple(1_000_000_001), 5, At(4));
}

/// One right record for each operator, with the operands it does not use.
fn one_of_each() -> Vec<(Record, &'static str)> {
    vec![
        (Record::input(BOOL), "abck"),
        (Record::constant(INT, 9), "abc"),
        (Record::not(0), "bck"),
        (Record::and(0, 2), "ck"),
        (Record::or(0, 2), "ck"),
        (Record::same(0, 2), "ck"),
        (Record::sum(1, 3), "ck"),
        (Record::difference(1, 3), "ck"),
        (Record::multiple(9, 1), "bc"),
        (Record::at_most(1, 3), "ck"),
        (Record::equal(1, 3), "ck"),
        (Record::choice(INT, 2, 1, 3), "k"),
        (Record::arrow(INT, 1, 3), "ck"),
        (Record::arrow_pre(INT, 1, 3), "ck"),
        (Record::lesser(1, 3), "ck"),
        (Record::greater(1, 3), "ck"),
    ]
}

#[test]
fn refusal_5_unused_fields() {
    for (record, unused) in one_of_each() {
        node_accepted(&with(record));
        for field in unused.chars() {
            let mut wrong = record;
            match field {
                'a' => wrong.a = 1,
                'b' => wrong.b = 1,
                'c' => wrong.c = 2,
                _ => wrong.k = 1,
            }
            node_refused(&with(wrong), 5, At(4));
        }
        for i in 0..4 {
            let mut wrong = record;
            wrong.zeros[i] = 1;
            node_refused(&with(wrong), 5, At(4));
        }
    }
}

#[test]
fn refusal_5_names_the_lowest_record_before_6() {
    let file = two_bands_node().bytes();
    let low = patched(&file, 16, &[16]);
    node_refused(&patched(&low, 4 * 16, &[16]), 5, At(1));
    // Record 2 is against 6, record 5 against 5: 5 is taken over all first.
    let six = patched(&file, 2 * 16 + 2, &[6]);
    node_refused(&six, 6, At(2));
    node_refused(&patched(&six, 5 * 16 + 1, &[2]), 5, At(5));
}

#[test]
fn refusal_6_operands_below_n() {
    for record in [
        Record::not(5),
        Record::not(65_535),
        Record::not(260),
        Record::and(0, 5),
        Record::or(5, 0),
        Record::same(0, 5),
        Record::sum(1, 5),
        Record::difference(5, 1),
        Record::multiple(1, 5),
        Record::at_most(1, 5),
        Record::equal(5, 1),
        Record::choice(INT, 5, 1, 3),
        Record::choice(INT, 0, 5, 3),
        Record::choice(INT, 0, 1, 5),
        Record::arrow(INT, 5, 1),
        Record::arrow(INT, 1, 5),
        Record::arrow_pre(INT, 5, 1),
        Record::arrow_pre(INT, 1, 5),
        Record::arrow_pre(INT, 1, 65_535),
        Record::lesser(5, 1),
        Record::lesser(1, 5),
        Record::greater(5, 1),
        Record::greater(1, 5),
    ] {
        node_refused(&with(record), 6, At(4));
    }
    // The lowest record, though the higher has an operand that is further off.
    let two = vec![Record::not(2), Record::not(65_535)];
    node_refused(&NodeFile::new(two, 0).bytes(), 6, At(0));
}

#[test]
fn refusal_6_comes_before_7() {
    let records = vec![Record::input(INT), Record::not(0), Record::not(3)];
    let mut file = NodeFile::new(records, 1);
    node_refused(&file.bytes(), 6, At(2));
    file.records[2] = Record::not(1);
    node_refused(&file.bytes(), 7, At(1));
}

#[test]
fn refusal_7_types() {
    for (record, _) in one_of_each() {
        let other = 1 - record.type_byte;
        let wrong = Record {
            type_byte: other,
            ..record
        };
        match record.operator {
            0 => node_accepted(&with(wrong)),
            1 => node_refused(&with(wrong), 5, At(4)),
            _ => node_refused(&with(wrong), 7, At(4)),
        }
    }
    for record in [
        Record::not(1),
        Record::and(0, 1),
        Record::and(1, 0),
        Record::or(1, 0),
        Record::same(0, 3),
        Record::sum(0, 1),
        Record::difference(1, 0),
        Record::multiple(2, 0),
        Record::at_most(0, 1),
        Record::at_most(1, 0),
        Record::equal(0, 2),
        Record::choice(INT, 1, 1, 3),
        Record::choice(INT, 0, 0, 3),
        Record::choice(INT, 0, 1, 2),
        Record::choice(BOOL, 0, 2, 3),
        Record::arrow(BOOL, 0, 1),
        Record::arrow(BOOL, 1, 0),
        Record::arrow(INT, 1, 0),
        Record::arrow_pre(INT, 1, 0),
        Record::arrow_pre(BOOL, 1, 0),
        Record::arrow_pre(BOOL, 0, 1),
        Record::lesser(0, 1),
        Record::lesser(1, 0),
        Record::greater(0, 1),
        Record::greater(1, 0),
        Record::greater(0, 2),
    ] {
        node_refused(&with(record), 7, At(4));
    }
}

#[test]
fn refusal_8_property() {
    let mut file = NodeFile::new(vec![Record::input(BOOL), Record::input(INT)], 1);
    node_refused(&file.bytes(), 8, At(1));
    file.property = 0;
    node_accepted(&file.bytes());
    let sum = NodeFile::new(vec![Record::input(INT), Record::sum(0, 0)], 0);
    node_refused(&sum.bytes(), 8, At(0));
    let pre = vec![
        Record::constant(INT, 4),
        Record::arrow_pre(INT, 0, 1),
        Record::input(BOOL),
    ];
    node_refused(&NodeFile::new(pre.clone(), 1).bytes(), 8, At(1));
    // 7 comes first.
    let mut typed = NodeFile::new(pre, 1);
    typed.records.push(Record::not(1));
    node_refused(&typed.bytes(), 7, At(3));
}
