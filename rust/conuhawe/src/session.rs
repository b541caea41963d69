//! Sessions: a node run instant by instant, each at once or tried before.

use crate::sys::{self, Record};
use crate::{Node, Refusal};
use std::fmt;
use std::mem::{size_of, transmute};

/// A session: a node, the values of its last committed instant, and those of
/// a trial while one is held.
///
/// An instant is committed by [`commit`](Session::commit), with the inputs of
/// the trial that was held, or by [`instant`](Session::instant), with its own.
/// The values along the committed instants are those of the node's equations on
/// the committed inputs, and a trial's are those on the committed inputs and
/// its own. Where a certificate for the node is accepted, by
/// [`check`](crate::check) or by [`Turns`](crate::Turns), the property's value
/// is 1 in all of them.
#[derive(Clone)]
pub struct Session {
    record: Record,
}

impl Session {
    /// How many bytes a session has.
    pub const SIZE: usize = size_of::<Record>();

    /// A session on a node file, before instant 0.
    ///
    /// # Errors
    ///
    /// As of [`read`](crate::read).
    pub fn begin(node: &[u8]) -> Result<Session, Refusal> {
        let mut session = Session::from_bytes([0; Session::SIZE]);
        session.begin_again(node)?;
        Ok(session)
    }

    /// Sets the session to a node file, before instant 0, with no trial held.
    ///
    /// # Errors
    ///
    /// As of [`read`](crate::read); the session is left as it was, a held trial
    /// too.
    pub fn begin_again(&mut self, node: &[u8]) -> Result<Node, Refusal> {
        // SAFETY: the record is lent for the call alone, and the slice, whose
        // pointer is not null, is read and not kept.
        unsafe { sys::conuhawe_begin(&mut self.record, node.as_ptr(), node.len()) }.node()
    }

    /// Runs the next instant: takes a number for each input, in record order
    /// (0 or 1 for a bool), and fills `values` with the value of each stream.
    /// It is a [`trial`](Session::trial) and its [`commit`](Session::commit): a
    /// trial that was held is dropped.
    ///
    /// # Errors
    ///
    /// The first of 30 to 34 that is broken; the session, a held trial too, and
    /// `values` are left as they were. 34 names the first stream in the
    /// worked-out order of [`read`](crate::read).
    pub fn instant(&mut self, inputs: &[i64], values: &mut [i64]) -> Result<(), Refusal> {
        // SAFETY: as above, for two slices; the borrows say that nothing
        // written overlaps anything else.
        unsafe {
            sys::conuhawe_instant(
                &mut self.record,
                inputs.as_ptr(),
                inputs.len(),
                values.as_mut_ptr(),
                values.len(),
            )
        }
        .done()
    }

    /// Shows the next instant without advancing: takes and fills what
    /// [`instant`](Session::instant) does, and the session keeps the values as
    /// its held trial, in place of an earlier one.
    ///
    /// # Errors
    ///
    /// As of [`instant`](Session::instant); an earlier trial is kept.
    pub fn trial(&mut self, inputs: &[i64], values: &mut [i64]) -> Result<(), Refusal> {
        // SAFETY: as above.
        unsafe {
            sys::conuhawe_trial(
                &mut self.record,
                inputs.as_ptr(),
                inputs.len(),
                values.as_mut_ptr(),
                values.len(),
            )
        }
        .done()
    }

    /// Advances to the held trial; then none is held.
    ///
    /// # Errors
    ///
    /// 30, or else 35 where no trial is held; the session is left as it was.
    pub fn commit(&mut self) -> Result<(), Refusal> {
        // SAFETY: the record is lent for the call alone.
        unsafe { sys::conuhawe_commit(&mut self.record) }.done()
    }

    /// Whether an instant was committed.
    pub fn started(&self) -> bool {
        self.record.started != 0
    }

    /// Whether a trial is held.
    pub fn holds_trial(&self) -> bool {
        self.record.held != 0
    }

    /// The session of any bytes, as [`to_bytes`](Session::to_bytes) gives
    /// them. One that holds no node answers every call but a beginning with
    /// refusal 30.
    pub fn from_bytes(bytes: [u8; Session::SIZE]) -> Session {
        // SAFETY: a record has no padding and any bytes make one; the sizes
        // are the same.
        let record = unsafe { transmute::<[u8; Session::SIZE], Record>(bytes) };
        Session { record }
    }

    /// The session's bytes, to be kept and read again on the same kind of
    /// machine. Those that were kept before there were trials, 1,568 of them,
    /// make no session any more.
    pub fn to_bytes(&self) -> [u8; Session::SIZE] {
        // SAFETY: a record has no padding; the sizes are the same.
        unsafe { transmute::<Record, [u8; Session::SIZE]>(self.record) }
    }
}

impl PartialEq for Session {
    fn eq(&self, other: &Session) -> bool {
        self.to_bytes() == other.to_bytes()
    }
}

impl Eq for Session {}

impl fmt::Debug for Session {
    fn fmt(&self, f: &mut fmt::Formatter<'_>) -> fmt::Result {
        f.debug_struct("Session")
            .field("length", &self.record.length)
            .field("started", &self.record.started)
            .field("held", &self.record.held)
            .finish_non_exhaustive()
    }
}
