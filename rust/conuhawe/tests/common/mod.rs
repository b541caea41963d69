//! The files that the tests start from, and where a session's bytes stand.

#![allow(dead_code)]

use std::fs;
use std::path::Path;

/// Where the values of the last committed instant begin among a session's
/// bytes, after the length.
pub const LAST: usize = 8;
/// Where those of the held trial begin.
pub const TRIAL: usize = LAST + 8 * 64;
/// Where the node file begins.
pub const FILE: usize = TRIAL + 8 * 64;
/// Where it is said whether an instant was committed, by any byte but 0.
pub const STARTED: usize = FILE + 1040;
/// Where it is said whether a trial is held, by any byte but 0.
pub const HELD: usize = STARTED + 1;
/// Where the bytes begin that are not read.
pub const SPARE: usize = HELD + 1;

fn example(folder: &str, name: &str) -> Vec<u8> {
    let examples = Path::new(env!("CARGO_MANIFEST_DIR")).join("../../examples");
    fs::read(examples.join(folder).join(name)).expect("the example stands in the repository")
}

/// The node file and the certificate of the two bands.
pub fn two_bands() -> (Vec<u8>, Vec<u8>) {
    let [node, certificate] = ["node.bin", "cert.bin"].map(|name| example("two-bands", name));
    (node, certificate)
}

/// The node file and the table of ranges of the flight list.
pub fn flight_list() -> (Vec<u8>, Vec<i64>) {
    let [node, table] = ["node.bin", "table.bin"].map(|name| example("flight-list", name));
    let (numbers, rest) = table.as_chunks();
    assert_eq!(rest, [], "a table has numbers of 64 bits");
    (
        node,
        numbers.iter().copied().map(i64::from_le_bytes).collect(),
    )
}

/// A file with a note before it.
pub fn with_note(note: &[u8], file: &[u8]) -> Vec<u8> {
    [note, file].concat()
}
