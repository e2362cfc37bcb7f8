//! The six distances as one type that chooses by case; every case is the Rust's own.

use betula::distance::{
    AverageIntercluster, AverageIntracluster, CFDistance, CentroidEuclidean, CentroidManhattan,
    Radius, VarianceIncrease,
};
use betula::feature::ClusterFeature;

#[derive(Clone, Copy)]
pub enum Choice {
    Euclidean,
    Manhattan,
    Inter,
    Intra,
    Increase,
    Radius,
}

pub const CHOICES: [(&str, Choice); 6] = [
    ("euclidean", Choice::Euclidean),
    ("manhattan", Choice::Manhattan),
    ("inter", Choice::Inter),
    ("intra", Choice::Intra),
    ("increase", Choice::Increase),
    ("radius", Choice::Radius),
];

macro_rules! by_case {
    ($choice:expr, $d:ident => $answer:expr) => {
        match $choice {
            Choice::Euclidean => {
                let $d = &CentroidEuclidean;
                $answer
            }
            Choice::Manhattan => {
                let $d = &CentroidManhattan;
                $answer
            }
            Choice::Inter => {
                let $d = &AverageIntercluster;
                $answer
            }
            Choice::Intra => {
                let $d = &AverageIntracluster;
                $answer
            }
            Choice::Increase => {
                let $d = &VarianceIncrease;
                $answer
            }
            Choice::Radius => {
                let $d = &Radius;
                $answer
            }
        }
    };
}

impl<C: ClusterFeature<f64>> CFDistance<f64, C> for Choice {
    fn point(&self, cf: &C, x: &[f64]) -> f64 {
        by_case!(self, d => d.point(cf, x))
    }
    fn between(&self, a: &C, b: &C) -> f64 {
        by_case!(self, d => d.between(a, b))
    }
    fn merge_cost(&self, a: &C, b: &C) -> f64 {
        by_case!(self, d => d.merge_cost(a, b))
    }
}
