//! The stored look-ups of `crates/look_ups`: the reference says to each question
//! what the proved program prints. Before that, what its files are.

use reference::build::proof::two_bands_node;
use reference::build::{NodeFile, Record, BOOL, INT};
use reference::look_up::look_up;
use std::fs;
use std::path::{Path, PathBuf};

/// Of a longer file no more bytes are read.
const MOST_BYTES: usize = 65_536;
/// Of a longer history no more inputs are taken.
const MOST_INPUTS: usize = 2_048;

/// The bytes of a file; of one that cannot be opened there are none.
fn read(folder: &Path, name: &str) -> Vec<u8> {
    let mut bytes = fs::read(folder.join("data").join(name)).unwrap_or_default();
    bytes.truncate(MOST_BYTES);
    bytes
}

/// The inputs of a history file: 64 bits each, a cut-off one ignored.
fn inputs(bytes: &[u8]) -> Vec<i64> {
    let numbers = bytes.as_chunks().0.iter().copied();
    let inputs = numbers.map(i64::from_le_bytes);
    inputs.take(MOST_INPUTS).collect()
}

/// The numbers of a questions file: 64 bits each, a cut-off one ignored.
fn numbers(bytes: &[u8]) -> Vec<usize> {
    let numbers = bytes.as_chunks().0.iter().copied();
    let unsigned = numbers.map(u64::from_le_bytes);
    unsigned.map(|n| usize::try_from(n).unwrap()).collect()
}

/// The lines on one questions file: the count of instants, then pairs of a
/// stream and an instant, a last number without its pair ignored.
fn run(folder: &Path, [node, history, questions]: [&str; 3]) -> Vec<String> {
    let node = read(folder, node);
    let inputs = inputs(&read(folder, history));
    let numbers = numbers(&read(folder, questions));
    let (instants, pairs) = match &numbers[..] {
        [] => (0, &[][..]),
        [instants, pairs @ ..] => (*instants, pairs),
    };
    let count = inputs.len();
    let mut said = vec![format!("{questions}: instants {instants} inputs {count}")];
    for [stream, instant] in pairs.as_chunks().0 {
        let answer = look_up(&node, instants, &inputs, *stream, *instant);
        let answer = answer.map_or_else(|r| r.to_string(), |value| format!("value {value}"));
        said.push(format!("stream {stream} instant {instant}: {answer}"));
    }
    said
}

/// Where the program's files stand.
fn top() -> PathBuf {
    Path::new(env!("CARGO_MANIFEST_DIR")).join("../../crates/look_ups")
}

/// A file of names or lines that has to be there.
fn text(name: &str) -> String {
    let path = top().join(name);
    let is_missing = |error| panic!("the stored look-ups are not there: {path:?}: {error}");
    fs::read_to_string(&path).unwrap_or_else(is_missing)
}

#[test]
fn all_stored_look_ups_are_as_written() {
    let names = text("args");
    let names: Vec<&str> = names.lines().collect();
    let (threes, rest) = names.as_chunks::<3>();
    assert!(rest.is_empty(), "{rest:?}");
    let said: Vec<String> = threes
        .iter()
        .flat_map(|three| run(&top(), *three))
        .collect();
    let written = text("stdout");
    let written: Vec<&str> = written.lines().collect();
    for (said, written) in said.iter().zip(&written) {
        assert_eq!(said, written);
    }
    assert_eq!(said.len(), written.len());
    for answer in [
        "value ",
        "refused 31 ",
        "refused 33 ",
        "refused 34 ",
        "refused 65 ",
    ] {
        let is_met = |line: &String| line.contains(&format!(": {answer}"));
        assert!(said.iter().any(is_met), "no line says {answer}");
    }
}

/// An empty folder of this name, with these files as its data.
fn folder(name: &str, files: &[(&str, Vec<u8>)]) -> PathBuf {
    let folder = PathBuf::from(env!("CARGO_TARGET_TMPDIR")).join(name);
    let _ = fs::remove_dir_all(&folder);
    fs::create_dir_all(folder.join("data")).unwrap();
    for (file, bytes) in files {
        fs::write(folder.join("data").join(file), bytes).unwrap();
    }
    folder
}

/// The numbers as a history file has them.
fn signed(numbers: &[i64]) -> Vec<u8> {
    numbers.iter().flat_map(|n| n.to_le_bytes()).collect()
}

/// The numbers as a questions file has them.
fn unsigned(numbers: &[u64]) -> Vec<u8> {
    numbers.iter().flat_map(|n| n.to_le_bytes()).collect()
}

/// Two bands over two instants: both ask for the dish, then the second alone.
#[test]
fn a_file_of_questions() {
    let pairs = [[1, 0], [3, 0], [5, 0], [0, 1], [3, 1], [6, 1], [5, 2]];
    let largest = [u64::MAX, 1 << 63];
    let questions = [&[2], pairs.as_flattened(), &largest].concat();
    let folder = folder(
        "questions",
        &[
            ("node", two_bands_node().bytes()),
            ("history", signed(&[1, 1, 0, 1])),
            ("asked", unsigned(&questions)),
        ],
    );
    let expected = [
        "asked: instants 2 inputs 4",
        "stream 1 instant 0: value 1",
        "stream 3 instant 0: value 0",
        "stream 5 instant 0: value 1",
        "stream 0 instant 1: value 0",
        "stream 3 instant 1: value 1",
        "stream 6 instant 1: refused 65 file",
        "stream 5 instant 2: refused 65 file",
        "stream 18446744073709551615 instant 9223372036854775808: refused 65 file",
    ];
    assert_eq!(run(&folder, ["node", "history", "asked"]), expected);
}

/// 0 an int input; 1 is 0 + 0; 2 a bool input, the property.
fn doubling() -> Vec<u8> {
    let records = vec![Record::input(INT), Record::sum(0, 0), Record::input(BOOL)];
    NodeFile::new(records, 2).bytes()
}

#[test]
fn values_and_refusals_are_printed() {
    let least = i64::MIN;
    let folder = folder(
        "printed",
        &[
            ("node", doubling()),
            ("right", signed(&[-3, 1, least, 0])),
            ("odd", signed(&[-3, 1, least, 2])),
            ("asked", unsigned(&[2, 1, 0, 0, 1, 1, 1])),
            ("more", unsigned(&[3, 1, 0])),
        ],
    );
    let expected = [
        "asked: instants 2 inputs 4",
        "stream 1 instant 0: value -6",
        "stream 0 instant 1: value -9223372036854775808",
        "stream 1 instant 1: refused 34 record 1",
    ];
    assert_eq!(run(&folder, ["node", "right", "asked"]), expected);
    let odd = "stream 1 instant 0: refused 33 record 2";
    assert_eq!(run(&folder, ["node", "odd", "asked"])[1], odd);
    let length = [
        "more: instants 3 inputs 4",
        "stream 1 instant 0: refused 31 file",
    ];
    assert_eq!(run(&folder, ["node", "right", "more"]), length);
    let none = "stream 1 instant 0: refused 1 file";
    assert_eq!(run(&folder, ["none", "right", "asked"])[1], none);
}

/// What is left of a cut-off number, and a number without its pair, count for
/// nothing.
#[test]
fn cut_off_files() {
    let mut history = signed(&[-3, 1, 4]);
    history.truncate(23);
    let mut asked = unsigned(&[1, 1, 0, 2, 0]);
    let whole = asked.clone();
    asked.truncate(39);
    let folder = folder(
        "cut-off",
        &[
            ("node", doubling()),
            ("history", history),
            ("none", vec![]),
            ("seven", vec![1; 7]),
            ("count", unsigned(&[1])),
            ("half", unsigned(&[1, 1])),
            ("asked", asked),
            ("whole", whole),
        ],
    );
    let lines = |questions| run(&folder, ["node", "history", questions]);
    let first = "stream 1 instant 0: value -6";
    assert_eq!(lines("none"), ["none: instants 0 inputs 2"]);
    assert_eq!(lines("seven"), ["seven: instants 0 inputs 2"]);
    assert_eq!(lines("missing"), ["missing: instants 0 inputs 2"]);
    assert_eq!(lines("count"), ["count: instants 1 inputs 2"]);
    assert_eq!(lines("half"), ["half: instants 1 inputs 2"]);
    assert_eq!(lines("asked"), ["asked: instants 1 inputs 2", first]);
    assert_eq!(lines("whole")[1..], [first, "stream 2 instant 0: value 1"]);
    let empty = run(&folder, ["node", "none", "asked"]);
    assert_eq!(empty[0], "asked: instants 1 inputs 0");
    assert_eq!(empty, run(&folder, ["node", "missing", "asked"]));
}

/// 2,048 inputs and 65,536 bytes count, and no more.
#[test]
fn long_files() {
    let one = NodeFile::new(vec![Record::input(BOOL)], 0);
    let noted = |length: usize| {
        let mut bytes = vec![0; length - 32];
        bytes.extend(one.bytes());
        bytes
    };
    let mut odd = vec![1; 2_049];
    odd[2_048] = 2;
    let folder = folder(
        "long",
        &[
            ("node", noted(65_535)),
            ("too-long", noted(65_536)),
            ("last", noted(70_000)),
            ("inputs", signed(&odd)),
            ("many", signed(&[1; 9_000])),
            ("right", unsigned(&[2_048, 0, 0])),
            ("one-more", unsigned(&[2_049, 0, 0])),
            ("asked", unsigned(&[0; 9_000])),
        ],
    );
    let said = |node, history, questions| run(&folder, [node, history, questions]);
    let out = [
        "right: instants 2048 inputs 2048",
        "stream 0 instant 0: refused 65 file",
    ];
    assert_eq!(said("node", "inputs", "right"), out);
    assert_eq!(said("node", "many", "right"), out);
    let length = "stream 0 instant 0: refused 31 file";
    assert_eq!(said("node", "inputs", "one-more")[1], length);
    let refused = "stream 0 instant 0: refused 1 file";
    assert_eq!(said("too-long", "inputs", "right")[1], refused);
    assert_eq!(said("last", "inputs", "right")[1], refused);
    // The count, 4,095 pairs, and a number without its pair.
    assert_eq!(said("node", "inputs", "asked").len(), 1 + 4_095);
}
