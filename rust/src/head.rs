//! The head that a caller lends by value.

use crate::raw;
use crate::refusal::Refusal;
use crate::settings::{Distance, Feature, Settings};

/// The settings and counters of a tree, all as plain numbers.
///
/// Any numbers may stand in it, as in a head that came over a cable: every call looks at them before it believes them.
#[repr(C)]
#[derive(Clone, Copy, Debug, PartialEq)]
pub struct Head {
    /// Numbers in a row, 1 to 8.
    pub dim: u64,
    /// The most children of a node, 2 to 16.
    pub branching: u64,
    /// The most entries of a leaf, 1 to 16.
    pub leaf_cap: u64,
    /// M, the most entries of the tree, 1 to 256.
    pub max_leaves: u64,
    /// Nodes in the tree.
    pub nodes: u64,
    /// Entries in the tree.
    pub entries: u64,
    /// The number of the root node.
    pub root: u64,
    /// Rebuilds so far; stops at its top value.
    pub rebuilds: u64,
    /// Entries merged away since the tree was last built anew.
    pub merged: u64,
    /// The absorption threshold, finite and not below 0.
    pub threshold: f64,
    /// 0 Spherical, 1 Diagonal.
    pub feature: u32,
    /// The distance that rows and splits go by, 0 to 5 in the order of [`Distance`].
    pub dist: u32,
    /// The distance that is held against the threshold, 0 to 5.
    pub abs: u32,
}

impl From<Settings> for Head {
    /// The head of an empty tree.
    fn from(s: Settings) -> Head {
        Head {
            dim: s.dim as u64,
            branching: s.branching as u64,
            leaf_cap: s.leaf_cap as u64,
            max_leaves: s.max_leaves as u64,
            nodes: 1,
            entries: 0,
            root: 0,
            rebuilds: 0,
            merged: 0,
            threshold: s.threshold,
            feature: s.feature as u32,
            dist: s.dist as u32,
            abs: s.abs as u32,
        }
    }
}

impl TryFrom<Head> for Settings {
    type Error = Refusal;

    /// The settings in a head, with the threshold as it stands. Sizes are not checked here.
    ///
    /// # Errors
    ///
    /// 1 [`Refusal::Settings`]: a choice has a number that is no feature's or no distance's.
    fn try_from(h: Head) -> Result<Settings, Refusal> {
        let size = |n: u64| usize::try_from(n).map_err(|_| Refusal::Settings);
        Ok(Settings {
            dim: size(h.dim)?,
            branching: size(h.branching)?,
            leaf_cap: size(h.leaf_cap)?,
            max_leaves: size(h.max_leaves)?,
            feature: Feature::try_from(h.feature)?,
            dist: Distance::try_from(h.dist)?,
            abs: Distance::try_from(h.abs)?,
            threshold: h.threshold,
        })
    }
}

impl Head {
    /// How many floats hold the tree; 0 if the head is outside its limits.
    #[must_use]
    pub fn floats_needed(self) -> usize {
        raw::floats_needed(self) as usize
    }

    /// How many links hold the tree; 0 if the head is outside its limits.
    #[must_use]
    pub fn links_needed(self) -> usize {
        raw::links_needed(self) as usize
    }

    /// How many floats of scratch a changing call needs; 0 if the head is outside its limits.
    #[must_use]
    pub fn scratch_floats_needed(self) -> usize {
        raw::scratch_floats_needed(self) as usize
    }

    /// How many links of scratch a changing call needs; 0 if the head is outside its limits.
    #[must_use]
    pub fn scratch_links_needed(self) -> usize {
        raw::scratch_links_needed(self) as usize
    }
}
