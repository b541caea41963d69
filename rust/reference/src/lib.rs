//! An independent implementation of "Induction certificates for Lustre
//! booking nodes", called 01 in these comments, and of the requests that
//! change it, called 02: the node reader, the session, the certificate
//! checker, the check of ranges and the look-up of one value, over whole files
//! and with no shared code.
//!
//! Every call is total: whatever the bytes, it answers or refuses, and it
//! neither panics nor overflows.

#![forbid(unsafe_code)]
#![warn(missing_docs)]

pub mod answer;
pub mod build;
pub mod certificate;
pub mod history;
pub mod list;
pub mod look_up;
pub mod node;
pub mod ranges;
pub mod session;
pub mod wide;
