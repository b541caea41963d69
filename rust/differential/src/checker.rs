//! What an implementation is compared by.

pub use reference::answer::{Accepted, Place, Refusal, Verdict};
pub use reference::certificate::turns::{Answer as Stage, Progress, Turned};
pub use reference::session::Record;

/// What the reader says of an accepted node file.
#[derive(Clone, Copy, Debug, PartialEq, Eq)]
pub struct Shape {
    /// The number of streams.
    pub streams: usize,
    /// The property stream.
    pub property: usize,
}

/// A history of a node file: a count of instants, and all their inputs in turn.
#[derive(Clone, Copy, Debug)]
pub struct History<'a> {
    /// The node file.
    pub node: &'a [u8],
    /// How many instants there are.
    pub instants: usize,
    /// Their inputs.
    pub inputs: &'a [i64],
}

/// An implementation of 01 and 02: reader, session, look-ups, checker and the
/// check of ranges.
///
/// The session record is lent as 1,040 bytes of node file, a length, whether
/// an instant was committed, 64 last values, whether a trial is held, and its 64
/// values; see [`record_bytes`].
pub trait Checker {
    /// Its name, for messages.
    fn name(&self) -> String;

    /// The verdict on a node file and a certificate file.
    fn check(&self, node: &[u8], certificate: &[u8]) -> Verdict;

    /// A begun progress record.
    fn turns_begin(&self) -> Progress;

    /// A turn of some lines on a node file and a certificate file.
    fn turn(&self, node: &[u8], certificate: &[u8], progress: Progress, quota: usize) -> Turned;

    /// The verdict on a node file.
    fn read(&self, node: &[u8]) -> Result<Shape, Refusal>;

    /// The value of a stream at an instant of a history.
    fn look_up(&self, history: History, stream: usize, instant: usize) -> Result<i64, Refusal>;

    /// The answer on a node file and a table of ranges.
    fn ranges(&self, node: &[u8], table: &[i64]) -> Result<(), Refusal>;

    /// The length of a node file's note.
    fn node_note(&self, node: &[u8]) -> usize;

    /// The length of a certificate file's note.
    fn certificate_note(&self, certificate: &[u8]) -> usize;

    /// A beginning on a node file.
    fn begin(&self, record: &mut Record, node: &[u8]) -> Result<(), Refusal>;

    /// An instant's call.
    fn instant(
        &self,
        record: &mut Record,
        inputs: &[i64],
        values: &mut [i64],
    ) -> Result<(), Refusal>;

    /// A trial.
    fn trial(&self, record: &mut Record, inputs: &[i64], values: &mut [i64])
        -> Result<(), Refusal>;

    /// A commit.
    fn commit(&self, record: &mut Record) -> Result<(), Refusal>;
}

/// The record as 1040 + 8 + 1 + 512 + 1 + 512 bytes: file, length, answered,
/// last, held, trial.
pub fn record_bytes(record: &Record) -> Vec<u8> {
    let mut bytes = record.bytes.to_vec();
    bytes.extend((record.length as u64).to_le_bytes());
    bytes.push(u8::from(record.answered));
    bytes.extend(record.last.iter().flat_map(|value| value.to_le_bytes()));
    bytes.push(u8::from(record.held));
    bytes.extend(record.trial.iter().flat_map(|value| value.to_le_bytes()));
    bytes
}
