//! All that are compared.

use crate::by_reference::Reference;
use crate::checker::Checker;
use crate::twin::Twin;

/// The reference first; every other must say what it says.
pub const CHECKERS: &[&dyn Checker] = &[
    &Reference,
    &Twin(Reference),
    #[cfg(feature = "proved")]
    &crate::proved::Proved,
    #[cfg(feature = "proved")]
    &Twin(crate::proved::Proved),
];

/// All that are compared on sessions: one more, for records of other bytes.
pub const ON_SESSIONS: &[&dyn Checker] = &[
    &Reference,
    &Twin(Reference),
    #[cfg(feature = "proved")]
    &crate::proved::Proved,
    #[cfg(feature = "proved")]
    &Twin(crate::proved::Proved),
    #[cfg(feature = "proved")]
    &crate::proved::marked::Marked,
];
