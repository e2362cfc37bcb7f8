//! The calls over a head and slices that the caller lends, as a controller without a heap uses them.
//!
//! Nothing is required of what is lent: any head, any numbers in the slices, slices of any length. A call does its work or
//! is refused, and a refused call writes nothing: the functions that work out a refusal have the slices to read only. What
//! a C caller has to see to, memory that is there and is set, and buffers that do not overlap, slices see to by their type.
//!
//! The head that a changing call gives back is the one to lend next: an older one over the same slices can pass the tree
//! check, and the tree then goes on with an older threshold.
//!
//! ```
//! use cftree::lent::{self, Head, Lent};
//! use cftree::Settings;
//!
//! const STATION: Settings = Settings::new(4, 24);
//! let (mut floats, mut links) = ([0.0; STATION.floats_len()], [0; STATION.links_len()]);
//! let mut scratch_floats = [0.0; STATION.scratch_floats_len()];
//! let mut scratch_links = [0; STATION.scratch_links_len()];
//!
//! let mut head = lent::create(Head::from(STATION), &mut floats, &mut links).into_result()?;
//! for row in [[1009.4, 11.9, 93.0, 0.35], [1009.3, 11.9, 93.2, 0.31]] {
//!     let lent = Lent {
//!         floats: &mut floats,
//!         links: &mut links,
//!         scratch_floats: &mut scratch_floats,
//!         scratch_links: &mut scratch_links,
//!     };
//!     head = lent::insert_row(head, lent, &row).into_result()?;
//! }
//! assert_eq!(lent::entries(head, &floats, &links)?.len(), 2);
//! assert_eq!(lent::summary(head, &floats, &links)?.weight, 2.0);
//! # Ok::<(), cftree::Refusal>(())
//! ```

use crate::entries::{Entries, Entry};
use crate::raw;
use crate::refusal::Refusal;

pub use crate::entries::Places;
pub use crate::head::Head;

/// What a changing call gives back: the head to keep, and whether the call was accepted.
#[derive(Clone, Copy, Debug, PartialEq)]
#[must_use = "the head to lend next is in it, and whether the call was refused"]
pub struct Outcome {
    /// The head to lend next; the one that was lent, if the call was refused.
    pub head: Head,
    /// Whether the call was accepted.
    pub answer: Result<(), Refusal>,
}

impl Outcome {
    /// The head to lend next, or the refusal, with which the head stays the one that was lent.
    ///
    /// # Errors
    ///
    /// The refusal that the call gave.
    pub fn into_result(self) -> Result<Head, Refusal> {
        self.answer.map(|()| self.head)
    }
}

/// What is lent to a changing call: the floats and links that hold the tree, and scratch of both kinds.
#[derive(Debug)]
pub struct Lent<'a> {
    /// Summaries, first the nodes' and then the entries'.
    pub floats: &'a mut [f64],
    /// Parents and lists of the nodes.
    pub links: &'a mut [u32],
    /// Scratch, zero after an accepted call.
    pub scratch_floats: &'a mut [f64],
    /// Scratch, zero after an accepted call.
    pub scratch_links: &'a mut [u32],
}

fn answer(a: raw::Answer) -> Result<(), Refusal> {
    Refusal::of(a.number, a.first, a.second)
}

fn outcome(o: raw::Outcome) -> Outcome {
    Outcome {
        head: o.head,
        answer: answer(o.answer),
    }
}

/// Creates an empty tree with the head's settings and threshold; its counters are not read.
///
/// # Errors
///
/// In the outcome: 1 [`Settings`](Refusal::Settings), 2 [`Room`](Refusal::Room).
pub fn create(head: Head, floats: &mut [f64], links: &mut [u32]) -> Outcome {
    outcome(raw::create(head, floats, links))
}

/// One row into the tree. Any numbers are taken, NaN and infinity too.
///
/// # Errors
///
/// In the outcome: 1 [`Settings`](Refusal::Settings), 2 [`Room`](Refusal::Room), 3 [`Tree`](Refusal::Tree),
/// 4 [`RowShape`](Refusal::RowShape), 6 [`Full`](Refusal::Full).
pub fn insert_row(head: Head, lent: Lent, row: &[f64]) -> Outcome {
    let Outcome { head, answer } = outcome(raw::insert_row(head, lent, row));
    Outcome {
        head,
        answer: answer.map_err(Refusal::of_row),
    }
}

/// A batch of rows into the tree, one after the other: all of them or none. The tree is checked once.
///
/// # Errors
///
/// In the outcome: 1 [`Settings`](Refusal::Settings), 2 [`Room`](Refusal::Room), 3 [`Tree`](Refusal::Tree),
/// 4 [`BatchShape`](Refusal::BatchShape), 6 [`Full`](Refusal::Full).
pub fn insert_batch(head: Head, lent: Lent, rows: &[f64]) -> Outcome {
    outcome(raw::insert_batch(head, lent, rows))
}

/// Makes the entries anew from the rows that are routed to them; unused ones are dropped.
///
/// # Errors
///
/// In the outcome: 1 [`Settings`](Refusal::Settings), 2 [`Room`](Refusal::Room), 3 [`Tree`](Refusal::Tree),
/// 4 [`BatchShape`](Refusal::BatchShape), 6 [`Full`](Refusal::Full).
pub fn refit(head: Head, lent: Lent, rows: &[f64]) -> Outcome {
    outcome(raw::refit(head, lent, rows))
}

/// The tree check.
///
/// # Errors
///
/// 1 [`Settings`](Refusal::Settings), 2 [`Room`](Refusal::Room), 3 [`Tree`](Refusal::Tree).
pub fn validate(head: Head, floats: &[f64], links: &[u32]) -> Result<(), Refusal> {
    answer(raw::validate(head, floats, links))
}

/// Where the entries stand, once the library has answered that the tree is whole.
pub(crate) fn places(head: Head, floats: &[f64], links: &[u32]) -> Result<Places, Refusal> {
    let listing = raw::entries(head, floats, links);
    answer(listing.answer).map(|()| Places {
        entries: listing.entries,
        first: listing.first,
        width: listing.width,
        means: listing.means,
        deviations: listing.deviations,
    })
}

/// The entries in order, after the tree check.
///
/// # Errors
///
/// 1 [`Settings`](Refusal::Settings), 2 [`Room`](Refusal::Room), 3 [`Tree`](Refusal::Tree).
pub fn entries<'a>(head: Head, floats: &'a [f64], links: &[u32]) -> Result<Entries<'a>, Refusal> {
    places(head, floats, links).map(|places| Entries::new(floats, places))
}

/// The summary of all rows in the tree, which is the root's, after the tree check.
///
/// Its weight is how many rows there are. Mean and deviation were carried along row by row, so their rounding is another
/// than that of the entries added up.
///
/// # Errors
///
/// 1 [`Settings`](Refusal::Settings), 2 [`Room`](Refusal::Room), 3 [`Tree`](Refusal::Tree).
pub fn summary<'a>(head: Head, floats: &'a [f64], links: &[u32]) -> Result<Entry<'a>, Refusal> {
    places(head, floats, links).map(|places| root(head, floats, places))
}

/// The root's summary in floats of a whole tree: nodes stand first, and the root is one of them.
pub(crate) fn root(head: Head, floats: &[f64], places: Places) -> Entry<'_> {
    places.summary(floats, head.root as usize * places.width as usize)
}

/// The entry number of each row, to the front of the output.
///
/// # Errors
///
/// 1 [`Settings`](Refusal::Settings), 2 [`Room`](Refusal::Room), 3 [`Tree`](Refusal::Tree),
/// 4 [`BatchShape`](Refusal::BatchShape), 5 [`Empty`](Refusal::Empty), 7 [`Output`](Refusal::Output).
pub fn route(
    head: Head,
    floats: &[f64],
    links: &[u32],
    rows: &[f64],
    out: &mut [u32],
) -> Result<(), Refusal> {
    answer(raw::route(head, floats, links, rows, out))
}

/// The entry number of one row.
///
/// # Errors
///
/// 1 [`Settings`](Refusal::Settings), 2 [`Room`](Refusal::Room), 3 [`Tree`](Refusal::Tree),
/// 4 [`RowShape`](Refusal::RowShape), 5 [`Empty`](Refusal::Empty).
pub fn route_row(head: Head, floats: &[f64], links: &[u32], row: &[f64]) -> Result<u32, Refusal> {
    let (dim, got) = (head.dim, row.len() as u64);
    if got != dim {
        // the library would take no row, or two, for a batch
        validate(head, floats, links)?;
        return Err(Refusal::RowShape { dim, got });
    }
    let mut out = [0];
    route(head, floats, links, row, &mut out)?;
    Ok(out[0])
}

/// The spread of each entry, dim numbers an entry, to the front of the output: squared deviation over weight, and over dim
/// too if Spherical.
///
/// # Errors
///
/// 1 [`Settings`](Refusal::Settings), 2 [`Room`](Refusal::Room), 3 [`Tree`](Refusal::Tree),
/// 7 [`Output`](Refusal::Output).
pub fn spread(head: Head, floats: &[f64], links: &[u32], out: &mut [f64]) -> Result<(), Refusal> {
    answer(raw::spread(head, floats, links, out))
}
