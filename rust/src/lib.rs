//! A tree of at most M summaries of rows: how many rows each stands for, their mean and their squared deviation.
//!
//! The library beneath is proved: every call does what its written rules say, for every input, NaN and infinity included,
//! and reads and writes nothing but what is lent to it. [`Tree`] owns its memory; [`lent`] has the same calls over memory
//! of the caller's, on a machine without a heap too.
//!
#![cfg_attr(feature = "alloc", doc = "```")]
#![cfg_attr(not(feature = "alloc"), doc = "```ignore")]
//! use cftree::{Settings, Tree};
//!
//! let mut tree = Tree::new(Settings::new(4, 24))?; // rows of 4 numbers, at most 24 entries
//! tree.insert(&[1009.4, 11.9, 93.0, 0.35])?;
//! for entry in &tree {
//!     println!("{} rows, mean {:?}", entry.weight, entry.means);
//! }
//! # Ok::<(), cftree::Refusal>(())
//! ```
//!
//! It asks for the default floating-point environment, as Rust does itself: rounding to nearest, subnormals not flushed to
//! zero. The start-up code of a program that is linked with C's `-ffast-math` may flush them. A NaN that a call works out
//! may have any sign and payload.
//!
//! # What is linked
//!
//! `libcftree.a`, which `bin/library` writes to `target/lib` of the repository and which runs on x86-64 Linux; the variable
//! `CFTREE_LIB` names another folder. `cargo check` and `cargo doc` need no archive and work anywhere. [`version`] finds an
//! archive that does not go with this crate.
//!
//! # Features
//!
//! - `alloc`, on by default: [`Tree`]. Without it the crate takes no memory. It never needs `std`.
#![no_std]
#![deny(unsafe_code)]
#![warn(missing_docs, missing_debug_implementations)]
// the front page speaks of Tree, which is not there without memory
#![cfg_attr(not(feature = "alloc"), allow(rustdoc::broken_intra_doc_links))]

#[cfg(feature = "alloc")]
extern crate alloc;

mod entries;
mod head;
pub mod lent;
#[allow(unsafe_code)]
mod raw;
mod refusal;
mod settings;
#[cfg(feature = "alloc")]
mod tree;
mod version;

pub use entries::{Entries, Entry};
pub use refusal::Refusal;
pub use settings::{Distance, Feature, Settings};
#[cfg(feature = "alloc")]
pub use tree::Tree;
pub use version::{version, VERSION};

/// What a compiler has to refuse or to warn of.
#[cfg(doctest)]
#[doc = include_str!("../tests/refused.md")]
pub struct Refused;
