//! Node files, sessions and induction certificates for Lustre booking nodes:
//! safe calls of the functions that the repository's crate `capi` proves.
//!
//! Each function answers for any arguments, and what it answers is proved:
//! the contracts stand in `crates/capi/src`, the meaning of numbers and places
//! in `include/conuhawe.h`. What is not proved is this wrapper, which only
//! passes slices on and reads answers.
//!
//! ```no_run
//! # fn main() -> Result<(), Box<dyn std::error::Error>> {
//! let node = std::fs::read("node.bin")?;
//! let certificate = std::fs::read("cert.bin")?;
//! let accepted = conuhawe::check(&node, &certificate)?;
//! println!("{accepted}"); // accepted depth 1 base 23 step 12
//!
//! let mut session = conuhawe::Session::begin(&node)?;
//! let mut values = [0; 6];
//! session.instant(&[1, 1], &mut values)?;
//! assert_eq!(values, [1, 1, 0, 0, 0, 1]);
//! session.trial(&[0, 1], &mut values)?;
//! assert_eq!(values, [0, 1, 1, 1, 0, 1]);
//! session.commit()?;
//! # Ok(())
//! # }
//! ```
//!
//! A certificate may be checked in turns, with other work between them:
//!
//! ```no_run
//! use conuhawe::{Stage, Turns};
//!
//! # fn steer() {}
//! # fn main() -> Result<(), Box<dyn std::error::Error>> {
//! # let [node, certificate] = [std::fs::read("node.bin")?, std::fs::read("cert.bin")?];
//! let mut turns = Turns::begin(&node, &certificate);
//! let accepted = loop {
//!     match turns.turn(10).answer? {
//!         Stage::Unfinished => steer(),
//!         Stage::Accepted(accepted) => break accepted,
//!     }
//! };
//! assert_eq!(conuhawe::check(&node, &certificate), Ok(accepted));
//! # Ok(())
//! # }
//! ```
//!
//! One value of a short pass may be looked up without a session:
//!
//! ```no_run
//! use conuhawe::History;
//!
//! # fn main() -> Result<(), Box<dyn std::error::Error>> {
//! # let node = std::fs::read("node.bin")?;
//! let (instants, inputs) = (2, &[1, 1, 0, 1]);
//! let history = History { node: &node, instants, inputs };
//! assert_eq!(history.look_up(3, 1)?, 1); // stream 3 at instant 1
//! # Ok(())
//! # }
//! ```

#![warn(missing_docs)]
#![deny(unsafe_op_in_unsafe_fn)]

mod answer;
mod files;
mod history;
mod session;
mod sys;
mod turns;

pub use answer::{Accepted, Node, Place, Refusal, Stage};
pub use files::{certificate_note, check, node_note, ranges, read};
pub use history::History;
pub use session::Session;
pub use turns::{turn, turns_begin, Progress, Turned, Turns};
