//! What a tree is made with.

use crate::refusal::Refusal;

/// What a summary keeps of its rows' squared deviations.
#[derive(Clone, Copy, Debug, PartialEq, Eq, Hash)]
#[repr(u32)]
pub enum Feature {
    /// One number, summed over the channels.
    Spherical = 0,
    /// One number for each channel.
    Diagonal = 1,
}

/// How far a row or a summary is from a summary. None takes a square root.
#[derive(Clone, Copy, Debug, PartialEq, Eq, Hash)]
#[repr(u32)]
pub enum Distance {
    /// The squared Euclidean distance of the means.
    CentroidEuclidean = 0,
    /// The Manhattan distance of the means, the sum of the channels' gaps.
    CentroidManhattan = 1,
    /// The mean squared distance of a row here and a row there.
    AverageIntercluster = 2,
    /// The mean squared distance of two rows of both together.
    AverageIntracluster = 3,
    /// By how much the squared deviation grows when both become one.
    VarianceIncrease = 4,
    /// The mean squared distance of the rows of both together from their mean.
    Radius = 5,
}

impl TryFrom<u32> for Feature {
    type Error = Refusal;

    /// The feature of a head's number.
    ///
    /// # Errors
    ///
    /// 1 [`Refusal::Settings`]: there is none.
    fn try_from(number: u32) -> Result<Feature, Refusal> {
        let all = [Feature::Spherical, Feature::Diagonal];
        let mut found = all.into_iter().filter(|f| *f as u32 == number);
        found.next().ok_or(Refusal::Settings)
    }
}

impl TryFrom<u32> for Distance {
    type Error = Refusal;

    /// The distance of a head's number.
    ///
    /// # Errors
    ///
    /// 1 [`Refusal::Settings`]: there is none.
    fn try_from(number: u32) -> Result<Distance, Refusal> {
        let all = [
            Distance::CentroidEuclidean,
            Distance::CentroidManhattan,
            Distance::AverageIntercluster,
            Distance::AverageIntracluster,
            Distance::VarianceIncrease,
            Distance::Radius,
        ];
        let mut found = all.into_iter().filter(|d| *d as u32 == number);
        found.next().ok_or(Refusal::Settings)
    }
}

/// Sizes, choices and the first threshold of a tree. Nothing is checked before the call that uses them.
///
/// ```
/// use cftree::{Distance, Feature, Settings};
///
/// const STATION: Settings = Settings::new(4, 24)
///     .with_feature(Feature::Spherical)
///     .with_abs(Distance::Radius);
/// assert_eq!((STATION.dim, STATION.max_leaves), (4, 24));
/// assert_eq!((STATION.branching, STATION.abs), (8, Distance::Radius));
/// ```
#[derive(Clone, Copy, Debug, PartialEq)]
#[non_exhaustive]
pub struct Settings {
    /// Numbers in a row, 1 to 8.
    pub dim: usize,
    /// The most children of a node, 2 to 16.
    pub branching: usize,
    /// The most entries of a leaf, 1 to 16.
    pub leaf_cap: usize,
    /// M, the most entries of the tree, 1 to 256.
    pub max_leaves: usize,
    /// What a summary keeps.
    pub feature: Feature,
    /// Where rows go and how nodes split.
    pub dist: Distance,
    /// What is held against the threshold.
    pub abs: Distance,
    /// The absorption threshold to begin with, finite and not below 0.
    pub threshold: f64,
}

impl Settings {
    /// Rows of `dim` numbers and at most `max_leaves` entries; the rest as a station has it: branching 8, leaf_cap 8,
    /// [`Feature::Diagonal`], [`Distance::CentroidEuclidean`] both for dist and for abs, threshold 0.
    #[must_use]
    pub const fn new(dim: usize, max_leaves: usize) -> Settings {
        Settings {
            dim,
            branching: 8,
            leaf_cap: 8,
            max_leaves,
            feature: Feature::Diagonal,
            dist: Distance::CentroidEuclidean,
            abs: Distance::CentroidEuclidean,
            threshold: 0.0,
        }
    }

    /// The same with other children at most of a node, 2 to 16.
    #[must_use]
    pub const fn with_branching(mut self, branching: usize) -> Settings {
        self.branching = branching;
        self
    }

    /// The same with other entries at most of a leaf, 1 to 16.
    #[must_use]
    pub const fn with_leaf_cap(mut self, leaf_cap: usize) -> Settings {
        self.leaf_cap = leaf_cap;
        self
    }

    /// The same with other entries at most of the tree, 1 to 256.
    #[must_use]
    pub const fn with_max_leaves(mut self, max_leaves: usize) -> Settings {
        self.max_leaves = max_leaves;
        self
    }

    /// The same with another feature.
    #[must_use]
    pub const fn with_feature(mut self, feature: Feature) -> Settings {
        self.feature = feature;
        self
    }

    /// The same with another distance for where rows go and how nodes split.
    #[must_use]
    pub const fn with_dist(mut self, dist: Distance) -> Settings {
        self.dist = dist;
        self
    }

    /// The same with another distance to hold against the threshold.
    #[must_use]
    pub const fn with_abs(mut self, abs: Distance) -> Settings {
        self.abs = abs;
        self
    }

    /// The same with another threshold to begin with, finite and not below 0.
    #[must_use]
    pub const fn with_threshold(mut self, threshold: f64) -> Settings {
        self.threshold = threshold;
        self
    }
}

/// Lengths of the four buffers, for arrays. For settings within their limits they are what
/// [`Head::floats_needed`](crate::lent::Head::floats_needed) and the three beside it answer.
impl Settings {
    /// N, the most nodes.
    const fn most_nodes(&self) -> usize {
        let m = self.max_leaves;
        m.saturating_add(1).saturating_mul(m.saturating_add(2)) / 2
    }

    /// How many floats hold a tree.
    #[must_use]
    pub const fn floats_len(&self) -> usize {
        let slots = self.most_nodes().saturating_add(self.max_leaves);
        let width = self.dim.saturating_mul(2).saturating_add(1);
        slots.saturating_add(1).saturating_mul(width)
    }

    /// How many links hold a tree.
    #[must_use]
    pub const fn links_len(&self) -> usize {
        let cap = if self.branching > self.leaf_cap {
            self.branching
        } else {
            self.leaf_cap
        };
        self.most_nodes().saturating_mul(cap.saturating_add(3))
    }

    /// How many floats of scratch a changing call needs.
    #[must_use]
    pub const fn scratch_floats_len(&self) -> usize {
        let width = self.dim.saturating_mul(2).saturating_add(1);
        self.max_leaves.saturating_add(1).saturating_mul(width)
    }

    /// How many links of scratch a changing call needs.
    #[must_use]
    pub const fn scratch_links_len(&self) -> usize {
        self.max_leaves.saturating_add(1).saturating_mul(3)
    }
}
