//! The stored turns of `crates/check_turns`: the reference says of each turn
//! what the proved program prints.

use reference::certificate::turns::{turn, turns_begin, Progress, Turned};
use std::fs;
use std::path::{Path, PathBuf};

/// How many lines the program prints.
const LINES: usize = 3_081;

/// Where the program's files stand.
fn top() -> PathBuf {
    Path::new(env!("CARGO_MANIFEST_DIR")).join("../../crates/check_turns")
}

/// The bytes of a file; of one that is missing there are none.
fn read(name: &str) -> Vec<u8> {
    fs::read(top().join("data").join(name)).unwrap_or_default()
}

/// The numbers of a turns file: 64 bits each, a cut-off one ignored.
fn numbers(bytes: &[u8]) -> impl Iterator<Item = usize> + '_ {
    let numbers = bytes.as_chunks().0.iter().copied();
    numbers.map(|bytes| usize::try_from(u64::from_le_bytes(bytes)).unwrap())
}

/// The lines on one turns file: the record of the first turn, then the quotas,
/// one a turn, each of which takes the record that the turn before gave.
fn run([node, certificate, turns]: [&str; 3], said: &mut Vec<String>) {
    let (node, certificate, bytes) = (read(node), read(certificate), read(turns));
    let mut numbers = numbers(&bytes);
    let first = numbers.next().map(|line| Progress { line });
    let mut progress = first.unwrap_or(turns_begin());
    said.push(format!("{turns}: from line {}", progress.line));
    for quota in numbers {
        let Turned {
            answer,
            progress: next,
            checked,
        } = turn(&node, &certificate, progress, quota);
        let line = next.line;
        said.push(format!(
            "quota {quota}: checked {checked} to line {line}: {answer}"
        ));
        progress = next;
    }
}

#[test]
fn all_stored_turns_are_as_written() {
    let names = fs::read_to_string(top().join("args")).unwrap();
    let names: Vec<&str> = names.lines().collect();
    let (threes, rest) = names.as_chunks::<3>();
    assert!(rest.is_empty(), "{rest:?}");
    let mut said = Vec::new();
    for three in threes {
        run(*three, &mut said);
    }
    let written = fs::read_to_string(top().join("stdout")).unwrap();
    let written: Vec<&str> = written.lines().collect();
    for (said, written) in said.iter().zip(&written) {
        assert_eq!(said, written);
    }
    assert_eq!((said.len(), written.len()), (LINES, LINES));
}
