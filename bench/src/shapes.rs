//! Trees written straight into lent memory, passing ones and others.

use crate::rows::Rows;
use cftree::lent::Head;
use cftree::Settings;

#[derive(Clone)]
pub struct Node {
    pub parent: Option<usize>,
    pub leaf: bool,
    pub list: Vec<usize>,
    pub weight: usize,
}

/// Nodes over entries that weigh 1 each. Node 0 is the root until the nodes are numbered anew.
#[derive(Clone)]
pub struct Shape {
    pub nodes: Vec<Node>,
    pub entries: usize,
    pub root: usize,
    pub merged: usize,
}

/// What memory holds a tree.
pub struct Lent {
    pub head: Head,
    pub floats: Vec<f64>,
    pub links: Vec<u32>,
}

#[derive(Clone, Copy)]
pub enum Order {
    First,
    Last,
    Shuffled,
}

/// The most nodes that a tree of at most m entries has room for.
pub fn node_room(m: usize) -> usize {
    (m + 1) * (m + 2) / 2
}

fn inner(parent: Option<usize>, list: Vec<usize>) -> Node {
    Node {
        parent,
        leaf: false,
        list,
        weight: 1,
    }
}

fn shape(nodes: Vec<Node>, entries: usize) -> Shape {
    Shape {
        nodes,
        entries,
        root: 0,
        merged: 0,
    }
}

/// So many nodes a level, as many as in the level above or one more, which the first node there lists; an entry a leaf.
pub fn levels(widths: impl Iterator<Item = usize>) -> Shape {
    let mut nodes: Vec<Node> = Vec::new();
    let (mut above, mut wide) = (0, 0);
    for width in widths {
        let first = nodes.len();
        for i in 0..width {
            let parent = (wide > 0).then(|| above + i.saturating_sub(width - wide));
            parent
                .into_iter()
                .for_each(|p| nodes[p].list.push(first + i));
            nodes.push(inner(parent, Vec::new()));
        }
        (above, wide) = (first, width);
    }
    for (entry, leaf) in nodes[above..].iter_mut().enumerate() {
        (leaf.leaf, leaf.list) = (true, vec![entry]);
    }
    for at in (0..above).rev() {
        nodes[at].weight = nodes[at].list.iter().map(|&c| nodes[c].weight).sum();
    }
    shape(nodes, wide)
}

/// A leaf for a root, and the other nodes in a ring beside it.
pub fn ring(count: usize) -> Shape {
    let mut nodes = levels([1].into_iter()).nodes;
    for at in 1..count {
        let before = if at == 1 { count - 1 } else { at - 1 };
        let after = if at == count - 1 { 1 } else { at + 1 };
        nodes.push(inner(Some(before), vec![after]));
    }
    shape(nodes, 1)
}

/// Lists as long as can be, over leaves that list nothing.
pub fn bushy(count: usize, branching: usize) -> Shape {
    let below = |at: usize| (at * branching + 1..count).take(branching);
    let nodes = (0..count).map(|at| Node {
        parent: (at > 0).then(|| (at - 1) / branching),
        leaf: below(at).next().is_none(),
        list: below(at).collect(),
        weight: 0,
    });
    shape(nodes.collect(), 0)
}

impl Order {
    pub const ALL: [Order; 3] = [Order::First, Order::Last, Order::Shuffled];

    pub fn name(self) -> &'static str {
        match self {
            Order::First => "root first",
            Order::Last => "root last",
            Order::Shuffled => "shuffled",
        }
    }

    /// The number that each of so many nodes gets.
    fn numbers(self, count: usize) -> Vec<usize> {
        let mut out: Vec<usize> = (0..count).collect();
        match self {
            Order::First => {}
            Order::Last => out.reverse(),
            Order::Shuffled => {
                let mut draw = Rows::new(1);
                (1..count).for_each(|i| out.swap(i, draw.below(i + 1)));
            }
        }
        out
    }
}

impl Shape {
    /// The same tree with its nodes in an order.
    pub fn numbered(&self, order: Order) -> Shape {
        let new = order.numbers(self.nodes.len());
        let mut nodes = self.nodes.clone();
        for (old, node) in self.nodes.iter().enumerate() {
            let mut node = node.clone();
            node.parent = node.parent.map(|p| new[p]);
            if !node.leaf {
                node.list.iter_mut().for_each(|c| *c = new[*c]);
            }
            nodes[new[old]] = node;
        }
        let root = new[self.root];
        Shape {
            nodes,
            root,
            ..*self
        }
    }

    /// The tree in memory of the settings' size. Weights stand first in each slot of floats; a block of links is the
    /// parent, twice the list's length and one more for a leaf, and the list.
    pub fn lent(&self, s: Settings) -> Lent {
        let mut head = Head::from(s);
        head.nodes = self.nodes.len() as u64;
        head.entries = self.entries as u64;
        head.root = self.root as u64;
        head.merged = self.merged as u64;
        let mut floats = vec![0.0; head.floats_needed()];
        let mut links = vec![0; head.links_needed()];
        let room = node_room(s.max_leaves);
        let slot = floats.len() / (room + s.max_leaves + 1);
        let block = links.len() / room;
        for (at, node) in self.nodes.iter().enumerate() {
            floats[at * slot] = node.weight as f64;
            let words = &mut links[at * block..][..block];
            words[0] = node.parent.map_or(u32::MAX, |p| p as u32);
            words[1] = (2 * node.list.len() + usize::from(node.leaf)) as u32;
            (words[2..].iter_mut().zip(&node.list)).for_each(|(word, &c)| *word = c as u32);
        }
        (room..room + self.entries).for_each(|at| floats[at * slot] = 1.0);
        Lent {
            head,
            floats,
            links,
        }
    }
}
