//! Differential tests: generated nodes, certificates and passes on which two
//! implementations of "Induction certificates for Lustre booking nodes",
//! called 01 in these comments, and of the requests that change it, called
//! 02, must say the same, byte for byte.
//!
//! * [`checker`] is what an implementation is compared by; [`by_reference`]
//!   is `rust/reference`, [`twin`] a second path through any checker, and
//!   `proved` (a feature) the proved library; [`checkers`] has them all.
//! * [`nodes`], [`delays`], [`draft`], [`grow`], [`cuts`], [`factors`],
//!   [`prove`], [`forge`], [`windows`], [`pool`] and [`passes`] generate;
//!   [`reorder`] puts records into another order, or makes them lead back to
//!   themselves; [`damage`], [`miscuts`], [`misfactors`] and [`miswindows`]
//!   spoil; [`cases`] mixes them. [`listed`] generates nodes with tables of
//!   [`ranges`], [`misranges`] spoils the tables. [`misrecords`] spoils session
//!   records. [`histories`] has short passes and look-ups in them, [`deep`] nodes
//!   that these follow far down, and [`mishistories`] spoils them. [`largest`],
//!   [`narrow`] and [`alike`] generate what is measured. [`splits`] splits a check
//!   into turns.
//! * [`compare`] compares, and prints seed and bytes where two differ;
//!   [`tally`], [`events`] and [`stages`] count what was met, [`rests`] tells
//!   what a step rests on.
//!
//! A longer run, with a line on the way now and then:
//!
//! ```text
//! DIFFERENTIAL_PAIRS=5000000 DIFFERENTIAL_EVENTS=5000000 DIFFERENTIAL_SEED=2 \
//!     cargo test --offline --test differential -- --nocapture --test-threads=1
//! DIFFERENTIAL_TABLES=5000000 DIFFERENTIAL_SEED=2 \
//!     cargo test --offline --test ranges -- --nocapture --test-threads=1
//! DIFFERENTIAL_TURNS=5000000 DIFFERENTIAL_SEED=2 \
//!     cargo test --offline --test turns -- --nocapture --test-threads=1
//! DIFFERENTIAL_LOOK_UPS=5000000 DIFFERENTIAL_SEED=2 \
//!     cargo test --offline --test look_ups -- --nocapture --test-threads=1
//! ```
//!
//! The same seed draws the same cases; a difference names seed and case and
//! prints the bytes in hexadecimal.

#![forbid(unsafe_code)]
#![warn(missing_docs)]

pub mod alike;
pub mod by_reference;
pub mod cases;
pub mod checker;
pub mod checkers;
pub mod clauses;
pub mod compare;
pub mod cuts;
pub mod damage;
pub mod deep;
pub mod delays;
pub mod draft;
pub mod evaluator;
pub mod events;
pub mod factors;
pub mod forge;
pub mod grow;
pub mod histories;
pub mod largest;
pub mod linear;
pub mod listed;
pub mod miscuts;
pub mod misfactors;
pub mod mishistories;
pub mod misranges;
pub mod misrecords;
pub mod miswindows;
pub mod narrow;
pub mod nodes;
pub mod passes;
pub mod pool;
pub mod prove;
#[cfg(feature = "proved")]
pub mod proved;
pub mod random;
pub mod ranges;
pub mod reorder;
pub mod rests;
pub mod splits;
pub mod stages;
pub mod tally;
pub mod twin;
pub mod windows;
