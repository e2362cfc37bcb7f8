//! Readers and a builder for a feature's private fields: weight, means, deviations.

use super::{ClusterFeature, Diagonal, Spherical};

/// A summary as plain numbers: Spherical has one deviation, Diagonal one a channel.
pub trait Parts: ClusterFeature<f64> {
    fn deviations(&self) -> Vec<f64>;
    fn from_parts(weight: f64, means: Vec<f64>, deviations: Vec<f64>) -> Self;
    fn count_of_deviations(dim: usize) -> usize;
}

impl Parts for Spherical<f64> {
    fn deviations(&self) -> Vec<f64> {
        vec![self.ssd]
    }
    fn from_parts(w: f64, mean: Vec<f64>, deviations: Vec<f64>) -> Self {
        Self {
            w,
            mean,
            ssd: deviations[0],
        }
    }
    fn count_of_deviations(_dim: usize) -> usize {
        1
    }
}

impl Parts for Diagonal<f64> {
    fn deviations(&self) -> Vec<f64> {
        self.ssd.clone()
    }
    fn from_parts(w: f64, mean: Vec<f64>, deviations: Vec<f64>) -> Self {
        Self {
            w,
            mean,
            ssd: deviations,
        }
    }
    fn count_of_deviations(dim: usize) -> usize {
        dim
    }
}
