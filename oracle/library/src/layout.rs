//! Where a tree stands in floats and links, as oracle/README.md has it, read and written apart from the library.

use crate::buffers::Word;
use cftree::lent::Head;

/// A parent word that is no node's number.
const NONE: u32 = u32::MAX;

/// The widths and counts that place a tree; they stay while single fields of the head are set.
#[derive(Clone, Copy)]
pub struct Layout {
    pub dim: usize,
    pub deviations: usize,
    pub places: usize,
    pub nodes: usize,
    pub entries: usize,
}

pub struct Node {
    pub parent: Option<u32>,
    pub leaf: bool,
    pub length: u32,
    pub list: Vec<u32>,
    /// Weight, means, deviations (one, or dim).
    pub summary: Vec<f64>,
}

/// The nodes and entries below their counts, or as many as there are slots.
pub struct Plain {
    pub nodes: Vec<Node>,
    pub entries: Vec<Vec<f64>>,
}

impl Layout {
    /// None if the tree would not fit any memory.
    pub fn of(h: &Head) -> Option<Layout> {
        let most = usize::try_from(h.max_leaves)
            .ok()
            .filter(|m| *m < 1 << 12)?;
        let dim = usize::try_from(h.dim).ok().filter(|d| *d < 1 << 8)?;
        let places = usize::try_from(h.branching.max(h.leaf_cap))
            .ok()
            .filter(|p| *p < 1 << 12)?
            + 1;
        let deviations = if h.feature == 0 { 1 } else { dim };
        Some(Layout {
            dim,
            deviations,
            places,
            nodes: (most + 1) * (most + 2) / 2,
            entries: most + 1,
        })
    }

    fn slot(&self) -> usize {
        1 + 2 * self.dim
    }

    fn block(&self) -> usize {
        2 + self.places
    }

    pub fn floats(&self) -> usize {
        (self.nodes + self.entries) * self.slot()
    }

    pub fn links(&self) -> usize {
        self.nodes * self.block()
    }

    pub fn first_entry(&self) -> usize {
        self.nodes * self.slot()
    }

    pub fn width(&self) -> usize {
        self.slot()
    }

    fn summary(&self, floats: &[f64], slot: usize) -> Vec<f64> {
        let at = slot * self.slot();
        (at..at + 1 + self.dim + self.deviations)
            .map(|i| floats.get(i).copied().unwrap_or(0.0))
            .collect()
    }

    pub fn read(&self, h: &Head, floats: &[f64], links: &[u32]) -> Plain {
        let word = |at: usize| links.get(at).copied().unwrap_or(0);
        let node = |i: usize| {
            let at = i * self.block();
            let length = word(at + 1) / 2;
            Node {
                parent: Some(word(at)).filter(|p| *p != NONE),
                leaf: word(at + 1) % 2 == 1,
                length,
                list: (0..(length as usize).min(self.places))
                    .map(|k| word(at + 2 + k))
                    .collect(),
                summary: self.summary(floats, i),
            }
        };
        Plain {
            nodes: (0..(h.nodes as usize).min(self.nodes)).map(node).collect(),
            entries: (0..(h.entries as usize).min(self.entries))
                .map(|j| self.summary(floats, self.nodes + j))
                .collect(),
        }
    }

    /// Puts a tree in its slots, as far as the buffers reach.
    pub fn write(&self, tree: &Plain, floats: &mut [f64], links: &mut [u32]) {
        for (i, node) in tree.nodes.iter().enumerate().take(self.nodes) {
            put(floats, i * self.slot(), &node.summary);
            let at = i * self.block();
            put(
                links,
                at,
                &[
                    node.parent.unwrap_or(NONE),
                    node.length.wrapping_mul(2) + u32::from(node.leaf),
                ],
            );
            put(links, at + 2, &node.list);
        }
        for (j, entry) in tree.entries.iter().enumerate().take(self.entries) {
            put(floats, (self.nodes + j) * self.slot(), entry);
        }
    }
}

fn put<W: Word>(words: &mut [W], at: usize, values: &[W]) {
    for (k, value) in values.iter().enumerate() {
        if let Some(word) = words.get_mut(at + k) {
            *word = *value;
        }
    }
}
