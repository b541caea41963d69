//! The calls on files.
//!
//! Each `unsafe` block lends a slice as its pointer and its length: the
//! pointer is not null, and the call reads that many elements and keeps none.

use crate::sys;
use crate::{Accepted, Node, Refusal};

/// Checks a node file.
///
/// Records may stand in any order. The worked-out order has each time the
/// lowest record whose operands needed now are all placed; all operands are
/// needed now, except b of operator 13. 23 names the lowest record never
/// placed.
///
/// # Errors
///
/// The first of rules 1 to 8 and 23 that is broken; 23 comes after 6.
pub fn read(node: &[u8]) -> Result<Node, Refusal> {
    // SAFETY: as above.
    unsafe { sys::conuhawe_read(node.as_ptr(), node.len()) }.node()
}

/// Checks a certificate, of version 2, for a node file. Where it is accepted,
/// the node's property holds at every instant, whatever the inputs.
///
/// Of depth k, the base covers instants 0 to k, and the step any k + 1 instants
/// in a row after the first.
///
/// # Errors
///
/// The first rule that is broken: of 1 to 8 and 23 for the node, then of 11 to
/// 22. A certificate of another version, 1 too, is refused with 12.
pub fn check(node: &[u8], certificate: &[u8]) -> Result<Accepted, Refusal> {
    // SAFETY: as above.
    unsafe {
        sys::conuhawe_check(
            node.as_ptr(),
            node.len(),
            certificate.as_ptr(),
            certificate.len(),
        )
    }
    .certificate()
}

/// Checks a table of ranges for a node file: two numbers a stream, the least
/// and the greatest of stream 0, then of stream 1, and on; both 0 for a bool.
///
/// Where it is accepted, the node is listed. In a [`Session`](crate::Session)
/// on it whose int inputs, those of the committed instants and the call's own,
/// have all been inside their ranges, no instant and no trial is refused with
/// 34 and the value of each int stream is in its range. Inputs of a trial that
/// is not committed do not count.
///
/// # Errors
///
/// The first rule that is broken: of 1 to 8 and 23 for the node, then 71 and
/// 72. 71 is a table of another length, with a bool's ends not 0, or with an
/// int's reversed or outside ±4,000,000,000. 72 names the lowest record, of an
/// int stream that is no input, whose operator's results, each operand by
/// itself anywhere in its range, do not lie inside its range.
pub fn ranges(node: &[u8], table: &[i64]) -> Result<(), Refusal> {
    // SAFETY: as above.
    unsafe { sys::conuhawe_ranges(node.as_ptr(), node.len(), table.as_ptr(), table.len()) }.done()
}

/// The note of a node file: the bytes before its first record. Empty where
/// one of rules 1 to 8 and 23 refuses the file.
pub fn node_note(node: &[u8]) -> &[u8] {
    // SAFETY: as above.
    let length = unsafe { sys::conuhawe_node_note(node.as_ptr(), node.len()) };
    &node[..length]
}

/// The note of a certificate: the bytes before its constraints and lines.
/// Empty where rules 11 to 14 refuse the file, so for every version but 2.
pub fn certificate_note(certificate: &[u8]) -> &[u8] {
    // SAFETY: as above.
    let length = unsafe { sys::conuhawe_certificate_note(certificate.as_ptr(), certificate.len()) };
    &certificate[..length]
}
