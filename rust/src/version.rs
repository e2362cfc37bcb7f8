//! The version of this crate, and of the archive that it is linked with.

use crate::raw;

/// This crate's version as one number, major · 10000 + minor · 100 + patch: 0.1.0 is 100.
pub const VERSION: u32 = number(env!("CARGO_PKG_VERSION_MAJOR")) * 10_000
    + number(env!("CARGO_PKG_VERSION_MINOR")) * 100
    + number(env!("CARGO_PKG_VERSION_PATCH"));

/// The number that decimal digits spell.
const fn number(digits: &str) -> u32 {
    let digits = digits.as_bytes();
    let (mut at, mut so_far) = (0, 0);
    while at < digits.len() {
        so_far = so_far * 10 + (digits[at] - b'0') as u32;
        at += 1;
    }
    so_far
}

/// The version of the linked archive, which goes with this crate if it is [`VERSION`].
///
/// A program over [`lent`](crate::lent) asks once, when it starts; a `Tree` asks whenever one is made, in builds with debug
/// assertions.
///
/// ```
/// assert_eq!(cftree::version(), cftree::VERSION, "a stale libcftree.a: run `bin/library`");
/// ```
#[must_use]
pub fn version() -> u32 {
    raw::version()
}
