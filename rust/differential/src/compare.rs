//! The comparison: verdict, place, note lengths, turns, values, session record
//! and slices, byte for byte. A difference panics with the seed and the bytes.

use crate::checker::{record_bytes, Checker, History, Place, Record, Refusal, Shape, Verdict};
use crate::checker::{Progress, Stage, Turned};
use std::fmt::{Debug, Write};

/// Where a case comes from: a run's seed and the case's number draw it again.
#[derive(Clone, Copy, Debug)]
pub struct Origin {
    /// The run's seed.
    pub seed: u64,
    /// The case.
    pub case: u64,
}

/// What a checker says of two files.
#[derive(Debug, PartialEq, Eq)]
struct Said {
    verdict: Verdict,
    shape: Result<Shape, Refusal>,
    node_note: usize,
    certificate_note: usize,
}

impl Said {
    fn by(checker: &dyn Checker, node: &[u8], certificate: &[u8]) -> Self {
        Said {
            verdict: checker.check(node, certificate),
            shape: checker.read(node),
            node_note: checker.node_note(node),
            certificate_note: checker.certificate_note(certificate),
        }
    }

    /// A checker agrees with itself: 1 to 8 and 23 are the reader's, 11 to 22
    /// are not, and a refused file has no note.
    fn is_coherent(&self) -> bool {
        match (self.shape, self.verdict) {
            (Err(refusal), verdict) => {
                let own = matches!(refusal.number, 1..=8 | 23);
                own && verdict == Err(refusal) && self.node_note == 0
            }
            (Ok(_), Err(refusal)) => {
                let unread = (11..=14).contains(&refusal.number);
                (11..=22).contains(&refusal.number) && !(unread && self.certificate_note > 0)
            }
            (Ok(_), Ok(_)) => true,
        }
    }
}

/// Compares all on a pair and gives the first one's verdict.
pub fn pair(checkers: &[&dyn Checker], origin: Origin, node: &[u8], certificate: &[u8]) -> Verdict {
    let bytes = [("node", node), ("certificate", certificate)];
    let said = |checker: &dyn Checker| Said::by(checker, node, certificate);
    agreed(checkers, origin, &bytes, said, Said::is_coherent).verdict
}

/// What the first says, which is coherent and what every other says.
fn agreed<S: PartialEq + Debug>(
    checkers: &[&dyn Checker],
    origin: Origin,
    bytes: &[(&str, &[u8])],
    said: impl Fn(&dyn Checker) -> S,
    is_coherent: impl Fn(&S) -> bool,
) -> S {
    let first = said(checkers[0]);
    if !is_coherent(&first) {
        let incoherent = &"incoherent";
        differ(origin, checkers[0], &first, checkers[0], incoherent, bytes);
    }
    for other in &checkers[1..] {
        let theirs = said(*other);
        if theirs != first {
            differ(origin, checkers[0], &first, *other, &theirs, bytes);
        }
    }
    first
}

/// Whether a turn is one on this record and quota: the number checked is the
/// distance moved, and a refused one is where it was.
fn is_turn(given: Progress, quota: usize, turned: Turned) -> bool {
    let Turned {
        answer,
        progress,
        checked,
    } = turned;
    let moved = progress.line.checked_sub(given.line) == Some(checked);
    moved
        && match answer {
            Stage::Accepted(_) => checked <= quota,
            Stage::Unfinished => checked == quota,
            Stage::Refused(_) => checked == 0,
        }
}

/// Compares all on a turn and gives what the first gives.
pub fn turn(
    checkers: &[&dyn Checker],
    origin: Origin,
    (node, certificate): (&[u8], &[u8]),
    progress: Progress,
    quota: usize,
) -> Turned {
    let turn = |checker: &dyn Checker| checker.turn(node, certificate, progress, quota);
    let given = [progress.line, quota].map(usize::to_le_bytes).concat();
    let bytes = [
        ("node", node),
        ("certificate", certificate),
        ("line and quota", &given[..]),
    ];
    agreed(checkers, origin, &bytes, turn, |turned| {
        is_turn(progress, quota, *turned)
    })
}

/// Whether the node's own refusal, if there is one, is the answer, and else a
/// refusal is one of these.
fn is_own<A: PartialEq>(
    own: Option<Refusal>,
    answer: &Result<A, Refusal>,
    are_others: impl Fn(Refusal) -> bool,
) -> bool {
    match (own, answer) {
        (Some(own), answer) => answer.as_ref().err() == Some(&own),
        (None, Err(refusal)) => are_others(*refusal),
        (None, Ok(_)) => true,
    }
}

/// Compares all on a table of ranges and gives the first one's answer. The
/// node's own refusals come first.
pub fn ranges(
    checkers: &[&dyn Checker],
    origin: Origin,
    node: &[u8],
    table: &[i64],
) -> Result<(), Refusal> {
    let given = number_bytes(table);
    let bytes = [("node", node), ("table", &given[..])];
    let said = |checker: &dyn Checker| (checker.read(node).err(), checker.ranges(node, table));
    let of_table = |refusal: Refusal| matches!(refusal.number, 71 | 72);
    agreed(checkers, origin, &bytes, said, |(own, answer)| {
        is_own(*own, answer, of_table)
    })
    .1
}

/// Compares all on a look-up and gives the first one's answer. The node's own
/// refusals come first, and 34 is the wanted stream's.
pub fn look_up(
    checkers: &[&dyn Checker],
    origin: Origin,
    history: History,
    (stream, instant): (usize, usize),
) -> Result<i64, Refusal> {
    let History { node, instants, .. } = history;
    let inputs = number_bytes(history.inputs);
    let wanted = [instants, stream, instant].map(usize::to_le_bytes).concat();
    let bytes = [
        ("node", node),
        ("inputs", &inputs[..]),
        ("instants, stream and instant", &wanted[..]),
    ];
    let said = |checker: &dyn Checker| {
        let own = checker.read(node).err();
        (own, checker.look_up(history, stream, instant))
    };
    let of_history = |refusal: Refusal| match refusal.place {
        Place::File => matches!(refusal.number, 31 | 65),
        Place::Record(at) => refusal.number == 33 || (refusal.number, at) == (34, stream),
        _ => false,
    };
    agreed(checkers, origin, &bytes, said, |(own, answer)| {
        is_own(*own, answer, of_history)
    })
    .1
}

/// Numbers as a file has them.
fn number_bytes(numbers: &[i64]) -> Vec<u8> {
    let bytes = numbers.iter().flat_map(|number| number.to_le_bytes());
    bytes.collect()
}

/// What a session's call leaves: answer, record and slice.
#[derive(PartialEq, Eq)]
struct Left {
    answer: Result<(), Refusal>,
    record: Record,
    values: Vec<i64>,
}

impl Debug for Left {
    fn fmt(&self, f: &mut std::fmt::Formatter<'_>) -> std::fmt::Result {
        let record = hex(&record_bytes(&self.record));
        write!(
            f,
            "{:?}\n  values {:?}\n  record {record}",
            self.answer, self.values
        )
    }
}

/// Compares all on a session's call. The record and the slice are left as the
/// first leaves them. A refusal leaves both as they were.
fn call(
    checkers: &[&dyn Checker],
    origin: Origin,
    (record, values): (&mut Record, &mut [i64]),
    bytes: &[(&str, &[u8])],
    run: impl Fn(&dyn Checker, &mut Record, &mut [i64]) -> Result<(), Refusal>,
) -> Result<(), Refusal> {
    let left = |checker: &dyn Checker| {
        let (mut record, mut values) = (record.clone(), values.to_vec());
        let answer = run(checker, &mut record, &mut values);
        Left {
            answer,
            record,
            values,
        }
    };
    let first = left(checkers[0]);
    let kept = first.record == *record && first.values == *values;
    if first.answer.is_err() && !kept {
        differ(
            origin,
            checkers[0],
            &first,
            checkers[0],
            &"a refusal that writes",
            bytes,
        );
    }
    for other in &checkers[1..] {
        let theirs = left(*other);
        if theirs != first {
            differ(origin, checkers[0], &first, *other, &theirs, bytes);
        }
    }
    *record = first.record;
    values.copy_from_slice(&first.values);
    first.answer
}

/// Compares all on a beginning.
pub fn begin(
    checkers: &[&dyn Checker],
    origin: Origin,
    record: &mut Record,
    node: &[u8],
) -> Result<(), Refusal> {
    let before = record_bytes(record);
    let bytes = [("node", node), ("record", &before[..])];
    call(
        checkers,
        origin,
        (record, &mut []),
        &bytes,
        |checker, record, _| checker.begin(record, node),
    )
}

/// Compares all on a call that takes inputs and fills a slice.
fn filling(
    checkers: &[&dyn Checker],
    origin: Origin,
    record: (&str, &mut Record),
    (inputs, values): (&[i64], &mut [i64]),
    run: impl Fn(&dyn Checker, &mut Record, &mut [i64]) -> Result<(), Refusal>,
) -> Result<(), Refusal> {
    let (name, record) = record;
    let before = record_bytes(record);
    let given = number_bytes(inputs);
    let bytes = [(name, &before[..]), ("inputs", &given[..])];
    call(checkers, origin, (record, values), &bytes, run)
}

/// Compares all on an instant's call.
pub fn instant(
    checkers: &[&dyn Checker],
    origin: Origin,
    record: &mut Record,
    inputs: &[i64],
    values: &mut [i64],
) -> Result<(), Refusal> {
    filling(
        checkers,
        origin,
        ("record before an instant", record),
        (inputs, values),
        |checker, record, values| checker.instant(record, inputs, values),
    )
}

/// Compares all on a trial.
pub fn trial(
    checkers: &[&dyn Checker],
    origin: Origin,
    record: &mut Record,
    inputs: &[i64],
    values: &mut [i64],
) -> Result<(), Refusal> {
    filling(
        checkers,
        origin,
        ("record before a trial", record),
        (inputs, values),
        |checker, record, values| checker.trial(record, inputs, values),
    )
}

/// Compares all on a commit.
pub fn commit(
    checkers: &[&dyn Checker],
    origin: Origin,
    record: &mut Record,
) -> Result<(), Refusal> {
    let before = record_bytes(record);
    let bytes = [("record before a commit", &before[..])];
    call(
        checkers,
        origin,
        (record, &mut []),
        &bytes,
        |checker, record, _| checker.commit(record),
    )
}

/// Says how two differ, and on what.
fn differ(
    origin: Origin,
    first: &dyn Checker,
    ours: &dyn Debug,
    second: &dyn Checker,
    theirs: &dyn Debug,
    bytes: &[(&str, &[u8])],
) -> ! {
    let mut message = format!("seed {} case {}\n", origin.seed, origin.case);
    let _ = writeln!(message, "{}: {ours:?}", first.name());
    let _ = writeln!(message, "{}: {theirs:?}", second.name());
    for (name, bytes) in bytes {
        let _ = writeln!(message, "{name} ({} bytes): {}", bytes.len(), hex(bytes));
    }
    panic!("{message}")
}

/// The bytes in hexadecimal.
pub fn hex(bytes: &[u8]) -> String {
    bytes.iter().map(|byte| format!("{byte:02x}")).collect()
}
