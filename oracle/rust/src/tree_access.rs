//! Readers of a tree's private fields, and a loader that starts from any tree.

use super::{CFTree, Node};
use crate::distance::CFDistance;
use crate::feature::ClusterFeature;

/// A node as plain data: the list holds entry numbers in a leaf, node numbers elsewhere.
pub struct PlainNode<C> {
    pub parent: Option<usize>,
    pub leaf: bool,
    pub list: Vec<usize>,
    pub summary: C,
}

/// All of a tree that calls change.
pub struct PlainTree<C> {
    pub threshold: f64,
    pub rebuilds: usize,
    pub merged: usize,
    pub root: usize,
    pub nodes: Vec<PlainNode<C>>,
    pub entries: Vec<C>,
}

impl<C: ClusterFeature<f64>, D: CFDistance<f64, C>, A: CFDistance<f64, C>> CFTree<f64, C, D, A> {
    /// The tree as it stands.
    pub fn plain(&self) -> PlainTree<C> {
        let node = |n: &Node<C>| PlainNode {
            parent: n.parent,
            leaf: n.leaf,
            list: n.children.clone(),
            summary: n.cf.clone(),
        };
        PlainTree {
            threshold: self.threshold,
            rebuilds: self.rebuilds,
            merged: self.merged_since_rebalance,
            root: self.root,
            nodes: self.nodes.iter().map(node).collect(),
            entries: self.entries.clone(),
        }
    }

    /// Goes on from the tree given, whatever it holds; the settings stay.
    pub fn load(&mut self, tree: PlainTree<C>) {
        self.threshold = tree.threshold;
        self.rebuilds = tree.rebuilds;
        self.merged_since_rebalance = tree.merged;
        self.root = tree.root;
        self.entries = tree.entries;
        self.nodes = tree
            .nodes
            .into_iter()
            .map(|n| Node {
                cf: n.summary,
                children: n.list,
                leaf: n.leaf,
                parent: n.parent,
            })
            .collect();
    }

    /// The entry that each row routes to, greedily, as refit routes.
    pub fn routes(&self, flat: &[f64], rows: usize) -> Vec<usize> {
        self.nearest_entries(flat, rows)
    }
}
