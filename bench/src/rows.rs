//! Rows to measure with: readings around a few centres that drift, the same ones for every run.

pub struct Rows {
    state: u64,
}

impl Rows {
    pub fn new(seed: u64) -> Rows {
        Rows { state: seed }
    }

    /// From 0 to 1, by a linear congruential generator's high bits.
    fn unit(&mut self) -> f64 {
        self.state = self
            .state
            .wrapping_mul(6364136223846793005)
            .wrapping_add(1442695040888963407);
        (self.state >> 11) as f64 / (1u64 << 53) as f64
    }

    /// From 0 to n − 1.
    pub fn below(&mut self, n: usize) -> usize {
        (self.unit() * n as f64) as usize
    }

    /// Roughly normal, around 0.
    fn noise(&mut self) -> f64 {
        (0..4).map(|_| self.unit()).sum::<f64>() - 2.0
    }

    pub fn flat(&mut self, dim: usize, count: usize) -> Vec<f64> {
        let centres: Vec<f64> = (0..12 * dim).map(|_| 100.0 * self.unit()).collect();
        let mut out = Vec::with_capacity(dim * count);
        for row in 0..count {
            let centre = (self.unit() * 12.0) as usize;
            let drift = row as f64 / count as f64;
            for channel in 0..dim {
                out.push(centres[centre * dim + channel] + drift + 3.0 * self.noise());
            }
        }
        out
    }
}
