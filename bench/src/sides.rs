//! The two sides of a measurement, with the same calls.

use betula::distance::CFDistance;
use betula::feature::ClusterFeature;
use betula::tree::CFTree;
use cftree::{Settings, Tree};

pub trait Side {
    fn insert(&mut self, row: &[f64]);
    fn batch(&mut self, rows: &[f64]);
    fn refit(&mut self, rows: &[f64]);
    fn routes(&self, rows: &[f64]) -> Vec<usize>;
    /// Numbers that two equal trees share: threshold, rebuilds, entries, every entry's weight and means.
    fn print(&self) -> Vec<u64>;
}

pub struct Ours(Tree);

impl Ours {
    pub fn new(s: Settings) -> Ours {
        Ours(Tree::new(s).expect("settings within their limits"))
    }
}

impl Side for Ours {
    fn insert(&mut self, row: &[f64]) {
        self.0.insert(row).expect("a row of dim numbers");
    }

    fn batch(&mut self, rows: &[f64]) {
        self.0.insert_batch(rows).expect("whole rows");
    }

    fn refit(&mut self, rows: &[f64]) {
        self.0.refit(rows).expect("whole rows");
    }

    fn routes(&self, rows: &[f64]) -> Vec<usize> {
        self.0
            .route(rows)
            .expect("entries")
            .into_iter()
            .map(|e| e as usize)
            .collect()
    }

    fn print(&self) -> Vec<u64> {
        let mut out = vec![self.0.threshold().to_bits(), self.0.rebuilds()];
        for e in &self.0 {
            out.push(e.weight.to_bits());
            out.extend(e.means.iter().map(|x| x.to_bits()));
        }
        out
    }
}

pub struct Theirs<C: ClusterFeature<f64>, D: CFDistance<f64, C>, A: CFDistance<f64, C>> {
    tree: CFTree<f64, C, D, A>,
    dim: usize,
}

impl<C: ClusterFeature<f64>, D: CFDistance<f64, C>, A: CFDistance<f64, C>> Theirs<C, D, A> {
    pub fn new(s: Settings, dist: D, abs: A) -> Self {
        let tree = CFTree::new(
            s.dim,
            s.branching,
            s.leaf_cap,
            s.threshold,
            s.max_leaves,
            dist,
            abs,
        );
        Theirs { tree, dim: s.dim }
    }
}

impl<C: ClusterFeature<f64>, D: CFDistance<f64, C>, A: CFDistance<f64, C>> Side
    for Theirs<C, D, A>
{
    fn insert(&mut self, row: &[f64]) {
        self.tree.try_insert(row).expect("a row of dim numbers");
    }

    fn batch(&mut self, rows: &[f64]) {
        for row in rows.chunks_exact(self.dim) {
            self.insert(row);
        }
    }

    fn refit(&mut self, rows: &[f64]) {
        self.tree.refit_leaves(rows, rows.len() / self.dim);
    }

    fn routes(&self, rows: &[f64]) -> Vec<usize> {
        self.tree.routes(rows, rows.len() / self.dim)
    }

    fn print(&self) -> Vec<u64> {
        let mut out = vec![self.tree.threshold().to_bits(), self.tree.rebuilds() as u64];
        for e in self.tree.leaf_features() {
            out.push(e.weight().to_bits());
            out.extend(e.mean().iter().map(|x| x.to_bits()));
        }
        out
    }
}
