//! Stands in for `clustering/rng.rs`, which is not among the published files. Nothing in scope
//! draws a random number, so every draw ends the run.

pub struct SplitMix64;

impl SplitMix64 {
    pub fn new(_seed: u64) -> Self {
        unimplemented!("no random numbers in the oracle")
    }
    pub fn next_u64(&mut self) -> u64 {
        unimplemented!("no random numbers in the oracle")
    }
    pub fn next_f64(&mut self) -> f64 {
        unimplemented!("no random numbers in the oracle")
    }
    pub fn gauss(&mut self) -> f64 {
        unimplemented!("no random numbers in the oracle")
    }
}
