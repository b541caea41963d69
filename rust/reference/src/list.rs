//! Listings of node and certificate files, for people to read.
//!
//! A listing says what stands in the bytes, right or wrong and as far as they
//! reach. Its last line is the verdict, which alone says what is right.
//! Places are counted back from the trailer: of a file that has lost it, no
//! more than the length can be told.

mod certificate;
pub mod fields;
mod node;

use crate::{certificate::check, node::read};
use fields::Blocks;

/// The remark on what 01 wants to be zero.
const NOT_ZERO: &str = "a field that should be 0 is not";

/// The lines of a listing: the node file, the certificate file if there is
/// one, and the verdict on what there is.
pub fn files(node_file: &[u8], certificate_file: Option<&[u8]>) -> Vec<String> {
    let mut lines = file::<node::Fields, 16>(node_file);
    match certificate_file {
        Some(certificate_file) => {
            lines.extend(file::<certificate::Fields, 80>(certificate_file));
            lines.push(verdict(node_file, certificate_file));
        }
        None => lines.push(node_verdict(node_file)),
    }
    lines
}

/// A trailer's fields, right or wrong, and what they make of the blocks of N
/// bytes in front of it.
trait Trailer<const N: usize>: Sized {
    /// Which file it ends.
    const FILE: &'static str;

    /// The fields; nothing if the trailer doesn't begin as it should.
    fn decode(bytes: &[u8; 16]) -> Option<Self>;

    /// The fields' values.
    fn text(&self) -> String;

    /// How many blocks are counted.
    fn total(&self) -> usize;

    /// Block `i` of those counted.
    fn block(&self, i: usize, block: &[u8; N]) -> String;
}

/// The lines on one file: its trailer, and the blocks that are there.
fn file<T: Trailer<N>, const N: usize>(file: &[u8]) -> Vec<String> {
    let head = format!("{}: {} bytes", T::FILE, file.len());
    let parts = file.split_last_chunk();
    let Some((front, trailer)) = parts.and_then(|(front, end)| Some((front, T::decode(end)?)))
    else {
        return vec![format!("{head}, no trailer")];
    };
    let blocks = Blocks::last(front, trailer.total());
    let mut lines = vec![format!(
        "{head}, note {}, {}",
        blocks.note(),
        trailer.text()
    )];
    lines.extend(blocks.lack());
    let numbered = (blocks.missing..).zip(blocks.there);
    lines.extend(numbered.map(|(i, block)| trailer.block(i, block)));
    lines
}

/// The checker's verdict, as its program prints it.
fn verdict(node_file: &[u8], certificate_file: &[u8]) -> String {
    match check(node_file, certificate_file) {
        Ok(accepted) => accepted.to_string(),
        Err(refusal) => refusal.to_string(),
    }
}

/// The reader's verdict, where there is no certificate to check.
fn node_verdict(file: &[u8]) -> String {
    match read(file) {
        Ok(node) => format!(
            "accepted streams {} property {} inputs {} note {}",
            node.count(),
            node.property(),
            node.inputs().len(),
            node.note().len(),
        ),
        Err(refusal) => refusal.to_string(),
    }
}

/// The remarks that apply, each in brackets after a blank.
fn remarks<const N: usize>(remarks: [(bool, &str); N]) -> String {
    let apply = remarks.iter().filter(|(applies, _)| *applies);
    apply.map(|(_, remark)| format!(" [{remark}]")).collect()
}
