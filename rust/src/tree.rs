//! A tree that owns its buffers.

use crate::entries::{Entries, Entry};
use crate::lent::{self, Head, Lent, Outcome, Places};
use crate::refusal::Refusal;
use crate::settings::Settings;
use crate::version::{version, VERSION};
use alloc::vec;
use alloc::vec::Vec;
use core::fmt;

/// A tree of at most M summaries, with the memory for it.
///
/// ```
/// use cftree::{Feature, Settings, Tree};
///
/// let mut tree = Tree::new(Settings::new(1, 2).with_feature(Feature::Spherical))?;
/// for row in [[0.0], [1.0], [10.0]] {
///     tree.insert(&row)?;
/// }
/// let entries: Vec<_> = tree.entries().collect();
/// assert_eq!(entries.len(), 2);
/// assert_eq!(entries[0].weight, 2.0);
/// assert_eq!(entries[0].means, [0.5]);
/// assert_eq!(entries[0].deviations, [0.5]);
/// assert_eq!(tree.route(&[9.0, 0.0])?, [1, 0]);
/// # Ok::<(), cftree::Refusal>(())
/// ```
///
/// What calls the library gives its answer. What only reads the tree gives no refusal, since the tree is always whole: the
/// library answered so when it was made, of new memory or of parts, each change keeps it so, which is proved, and nothing
/// else can write to it.
#[derive(Clone)]
pub struct Tree {
    head: Head,
    // of the entries at the start; all but their count stays, since it comes of the settings
    places: Places,
    floats: Vec<f64>,
    links: Vec<u32>,
    scratch_floats: Vec<f64>,
    scratch_links: Vec<u32>,
}

impl Tree {
    /// An empty tree.
    ///
    /// # Errors
    ///
    /// 1 [`Settings`](Refusal::Settings): they are outside their limits.
    ///
    /// # Panics
    ///
    /// With debug assertions, if the linked archive is of another [`version`](crate::version()) than this crate.
    ///
    /// ```
    /// use cftree::{Refusal, Settings, Tree};
    ///
    /// assert!(Tree::new(Settings::new(4, 256)).is_ok());
    /// assert_eq!(Tree::new(Settings::new(4, 257)).err(), Some(Refusal::Settings));
    /// ```
    pub fn new(settings: Settings) -> Result<Tree, Refusal> {
        debug_assert_eq!(version(), VERSION, "a stale libcftree.a: run `bin/library`");
        let head = Head::from(settings);
        let mut floats = vec![0.0; head.floats_needed()];
        let mut links = vec![0; head.links_needed()];
        let head = lent::create(head, &mut floats, &mut links).into_result()?;
        Tree::from_parts(head, floats, links)
    }

    /// The tree of a head and the two buffers that hold it, as [`into_parts`](Tree::into_parts) gave them or as they were
    /// kept or sent. All three have to be of one moment: an older head can pass the tree check, and the tree then goes on
    /// with an older threshold. Scratch is made anew.
    ///
    /// # Errors
    ///
    /// The tree check's: 1 [`Settings`](Refusal::Settings), 2 [`Room`](Refusal::Room), 3 [`Tree`](Refusal::Tree).
    ///
    /// # Panics
    ///
    /// As [`new`](Tree::new).
    pub fn from_parts(head: Head, floats: Vec<f64>, links: Vec<u32>) -> Result<Tree, Refusal> {
        debug_assert_eq!(version(), VERSION, "a stale libcftree.a: run `bin/library`");
        Ok(Tree {
            places: lent::places(head, &floats, &links)?,
            scratch_floats: vec![0.0; head.scratch_floats_needed()],
            scratch_links: vec![0; head.scratch_links_needed()],
            head,
            floats,
            links,
        })
    }

    /// The head, the floats and the links: all of the tree, to keep or to send.
    #[must_use]
    pub fn into_parts(self) -> (Head, Vec<f64>, Vec<u32>) {
        (self.head, self.floats, self.links)
    }

    fn change(
        &mut self,
        call: fn(Head, Lent, &[f64]) -> Outcome,
        rows: &[f64],
    ) -> Result<(), Refusal> {
        let lent = Lent {
            floats: &mut self.floats,
            links: &mut self.links,
            scratch_floats: &mut self.scratch_floats,
            scratch_links: &mut self.scratch_links,
        };
        self.head = call(self.head, lent, rows).into_result()?;
        Ok(())
    }

    /// One row into the tree. Any numbers are taken, NaN and infinity too.
    ///
    /// # Errors
    ///
    /// 4 [`RowShape`](Refusal::RowShape), 6 [`Full`](Refusal::Full); the tree is then as it was.
    pub fn insert(&mut self, row: &[f64]) -> Result<(), Refusal> {
        self.change(lent::insert_row, row)
    }

    /// Rows into the tree, one after the other: all of them or none. The tree is checked once, so a batch is cheaper than
    /// its rows one by one.
    ///
    /// # Errors
    ///
    /// 4 [`BatchShape`](Refusal::BatchShape), 6 [`Full`](Refusal::Full); the tree is then as it was.
    pub fn insert_batch(&mut self, rows: &[f64]) -> Result<(), Refusal> {
        self.change(lent::insert_batch, rows)
    }

    /// Makes the entries anew from the rows that are routed to them; unused ones are dropped.
    ///
    /// # Errors
    ///
    /// 4 [`BatchShape`](Refusal::BatchShape), 6 [`Full`](Refusal::Full); the tree is then as it was.
    pub fn refit(&mut self, rows: &[f64]) -> Result<(), Refusal> {
        self.change(lent::refit, rows)
    }

    /// The entry number of each row.
    ///
    /// # Errors
    ///
    /// 4 [`BatchShape`](Refusal::BatchShape), 5 [`Empty`](Refusal::Empty).
    pub fn route(&self, rows: &[f64]) -> Result<Vec<u32>, Refusal> {
        let mut out = vec![0; rows.len() / self.dim().max(1)];
        lent::route(self.head, &self.floats, &self.links, rows, &mut out)?;
        Ok(out)
    }

    /// The entry number of one row; nothing is allocated.
    ///
    /// # Errors
    ///
    /// 4 [`RowShape`](Refusal::RowShape), 5 [`Empty`](Refusal::Empty).
    pub fn route_row(&self, row: &[f64]) -> Result<u32, Refusal> {
        lent::route_row(self.head, &self.floats, &self.links, row)
    }

    /// Squared deviation over weight, and over dim too if Spherical: dim numbers for each entry in order.
    ///
    /// # Errors
    ///
    /// None of a whole tree; it is the library's own answer.
    pub fn spread(&self) -> Result<Vec<f64>, Refusal> {
        let mut out = vec![0.0; self.num_leaves() * self.dim()];
        lent::spread(self.head, &self.floats, &self.links, &mut out)?;
        Ok(out)
    }

    /// The tree check, for whoever doubts the memory.
    ///
    /// # Errors
    ///
    /// None of a whole tree; of one whose memory was damaged, 3 [`Tree`](Refusal::Tree).
    pub fn validate(&self) -> Result<(), Refusal> {
        lent::validate(self.head, &self.floats, &self.links)
    }

    /// The entries in order, as `for entry in &tree` has them.
    pub fn entries(&self) -> Entries<'_> {
        let places = Places {
            entries: self.head.entries,
            ..self.places
        };
        Entries::new(&self.floats, places)
    }

    /// The summary of all rows in the tree, which is the root's.
    ///
    /// Mean and deviation were carried along row by row, so their rounding is another than that of the entries added up.
    #[must_use]
    pub fn summary(&self) -> Entry<'_> {
        lent::root(self.head, &self.floats, self.places)
    }

    /// How many rows the tree counts, at most 2^53.
    #[must_use]
    pub fn rows(&self) -> u64 {
        self.summary().weight as u64
    }

    /// How many entries the tree has, at most M.
    #[must_use]
    pub fn num_leaves(&self) -> usize {
        self.head.entries as usize
    }

    /// Whether the tree has no entries.
    #[must_use]
    pub fn is_empty(&self) -> bool {
        self.num_leaves() == 0
    }

    /// Numbers in a row.
    #[must_use]
    pub fn dim(&self) -> usize {
        self.head.dim as usize
    }

    /// The absorption threshold as it stands; rebuilds let it grow.
    #[must_use]
    pub fn threshold(&self) -> f64 {
        self.head.threshold
    }

    /// How often the tree was rebuilt.
    #[must_use]
    pub fn rebuilds(&self) -> u64 {
        self.head.rebuilds
    }

    /// The settings and counters.
    #[must_use]
    pub fn head(&self) -> &Head {
        &self.head
    }
}

impl<'a> IntoIterator for &'a Tree {
    type Item = Entry<'a>;
    type IntoIter = Entries<'a>;

    fn into_iter(self) -> Entries<'a> {
        self.entries()
    }
}

impl fmt::Debug for Tree {
    /// The settings, with the threshold as it stands, and counts; none of the numbers that the tree holds.
    fn fmt(&self, f: &mut fmt::Formatter) -> fmt::Result {
        let mut shown = f.debug_struct("Tree");
        match Settings::try_from(self.head) {
            Ok(settings) => shown.field("settings", &settings),
            Err(_) => shown.field("head", &self.head),
        };
        shown
            .field("entries", &self.num_leaves())
            .field("rebuilds", &self.rebuilds())
            .field("rows", &self.rows())
            .finish_non_exhaustive()
    }
}
