//! Summaries, read where they stand in the floats.

use core::fmt;
use core::iter::FusedIterator;

/// A summary of rows.
#[derive(Clone, Copy, Debug, PartialEq)]
pub struct Entry<'a> {
    /// How many rows it stands for.
    pub weight: f64,
    /// Their mean, dim numbers.
    pub means: &'a [f64],
    /// Their squared deviation: one number if Spherical, dim if Diagonal.
    pub deviations: &'a [f64],
}

/// Where the entries stand: entry i's weight is float `first + i * width`; `means` means follow, then `deviations`
/// deviations.
#[derive(Clone, Copy, Debug, PartialEq, Eq)]
#[must_use]
pub struct Places {
    /// How many entries there are.
    pub entries: u64,
    /// The place of the first entry's weight.
    pub first: u64,
    /// Floats from one entry's weight to the next one's.
    pub width: u64,
    /// Means of an entry: dim.
    pub means: u64,
    /// Deviations of an entry: 1 if Spherical, dim if Diagonal.
    pub deviations: u64,
}

impl Places {
    /// The summary whose weight stands at `at`.
    pub(crate) fn summary(self, floats: &[f64], at: usize) -> Entry<'_> {
        let (width, means) = (self.width as usize, self.means as usize);
        let slot = &floats[at..][..width];
        Entry {
            weight: slot[0],
            means: &slot[1..][..means],
            deviations: &slot[1 + means..][..self.deviations as usize],
        }
    }
}

/// The entries of a tree, in order.
#[derive(Clone)]
#[must_use = "an iterator does nothing unless it is asked"]
pub struct Entries<'a> {
    floats: &'a [f64],
    places: Places,
    next: usize,
}

impl<'a> Entries<'a> {
    /// The places are those that the library gave for these floats, so that every one of them is there.
    pub(crate) fn new(floats: &'a [f64], places: Places) -> Entries<'a> {
        Entries {
            floats,
            places,
            next: 0,
        }
    }

    /// Where the entries stand, those that were taken already too.
    pub fn places(&self) -> Places {
        self.places
    }
}

impl<'a> Iterator for Entries<'a> {
    type Item = Entry<'a>;

    fn next(&mut self) -> Option<Entry<'a>> {
        if self.next == self.places.entries as usize {
            return None;
        }
        let at = self.places.first as usize + self.next * self.places.width as usize;
        self.next += 1;
        Some(self.places.summary(self.floats, at))
    }

    fn size_hint(&self) -> (usize, Option<usize>) {
        let left = self.places.entries as usize - self.next;
        (left, Some(left))
    }
}

impl ExactSizeIterator for Entries<'_> {}

impl FusedIterator for Entries<'_> {}

impl fmt::Debug for Entries<'_> {
    /// The entries that are still to come.
    fn fmt(&self, f: &mut fmt::Formatter) -> fmt::Result {
        f.debug_list().entries(self.clone()).finish()
    }
}
