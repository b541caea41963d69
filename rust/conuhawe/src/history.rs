//! Histories: instants and their inputs, asked about without a session.

use crate::{sys, Refusal};

/// A history of a node: a count of instants, and all their inputs in turn. With
/// m inputs in the node, instant j has numbers m·j to m·j + m − 1, in record
/// order as [`Session::instant`](crate::Session::instant) takes them.
///
/// Nothing is checked before something is asked of it.
///
/// ```
/// use conuhawe::{History, Place, Refusal};
///
/// # fn main() -> Result<(), Box<dyn std::error::Error>> {
/// // Two bands ask for minutes of a pass; stream 5 is what is left of 90.
/// let node = std::fs::read("../../examples/on-duty/node.bin")?;
/// let history = History {
///     node: &node,
///     instants: 2,
///     inputs: &[50, 30, 20, 5],
/// };
/// assert_eq!(history.look_up(5, 0), Ok(10));
/// assert_eq!(history.look_up(5, 1), Ok(5));
/// let (number, place) = (65, Place::File);
/// assert_eq!(history.look_up(5, 2), Err(Refusal { number, place }));
/// # Ok(())
/// # }
/// ```
#[derive(Clone, Copy, Debug, PartialEq, Eq, Hash)]
pub struct History<'a> {
    /// The node file.
    pub node: &'a [u8],
    /// How many instants there are.
    pub instants: usize,
    /// The inputs of all instants in turn.
    pub inputs: &'a [i64],
}

impl History<'_> {
    /// The value of a stream at an instant, both counted from 0: what the node's
    /// equations give over unbounded whole numbers.
    ///
    /// The equations are followed down from there. From each stream visited, at
    /// its instant, operator 11 visits c and the branch taken, operator 12 a at
    /// instant 0 and b later, operator 13 a at instant 0 and later b one instant
    /// before, and every other operator all its operands. Each stream at each
    /// instant is worked out at most once.
    ///
    /// Where a [`Session`](crate::Session) on the same inputs answers all
    /// instants up to this one, this is the value that it shows. Where it says
    /// 34 at one of them there may be a value here still: where nothing that is
    /// visited is outside.
    ///
    /// # Errors
    ///
    /// The first of these that is broken: 1 to 8 and 23, as of
    /// [`read`](crate::read); 31, the count of inputs is not that of the instants
    /// times m; 33, a bool input, of any instant, is not 0 or 1, at the lowest
    /// record of the earliest such instant; 65, there are over 16 instants, or no
    /// such stream or instant; 34, a value visited is outside −2^63 to 2^63 − 1,
    /// and the record is that of the wanted stream, whichever one it was.
    pub fn look_up(&self, stream: usize, instant: usize) -> Result<i64, Refusal> {
        let History {
            node,
            instants,
            inputs,
        } = self;
        // SAFETY: each slice is lent as its pointer, which is not null, and its
        // length; the call reads that many elements and keeps none.
        let looked_up = unsafe {
            sys::conuhawe_look_up(
                node.as_ptr(),
                node.len(),
                *instants,
                inputs.as_ptr(),
                inputs.len(),
                stream,
                instant,
            )
        };
        looked_up.answer.done().map(|()| looked_up.value)
    }
}
