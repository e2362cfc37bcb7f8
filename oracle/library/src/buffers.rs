//! Lent buffers: how long each is, and what it is filled with where it is lent anew.

pub const NAMES: [&str; 6] = [
    "floats",
    "links",
    "scratch_floats",
    "scratch_links",
    "output",
    "spreads",
];
pub const FLOATS: usize = 0;
pub const LINKS: usize = 1;
pub const SCRATCH_FLOATS: usize = 2;
pub const SCRATCH_LINKS: usize = 3;
pub const OUTPUT: usize = 4;
pub const SPREADS: usize = 5;

/// A word of a buffer.
pub trait Word: Copy {
    fn cut(filler: u64) -> Self;
    /// Its bits; a NaN has its own.
    fn bits(self) -> u64;
    fn text(self) -> String;
}

impl Word for f64 {
    /// With bit 53 a NaN, of either sign, quiet or signalling; without it none.
    fn cut(filler: u64) -> f64 {
        f64::from_bits(if filler & (1 << 53) != 0 {
            filler | 0x7ff0_0000_0000_0000
        } else {
            filler & 0xffef_ffff_ffff_ffff
        })
    }
    fn bits(self) -> u64 {
        self.to_bits()
    }
    fn text(self) -> String {
        format!("{:016x}", self.to_bits())
    }
}

impl Word for u32 {
    fn cut(filler: u64) -> u32 {
        filler as u32
    }
    fn bits(self) -> u64 {
        u64::from(self)
    }
    fn text(self) -> String {
        self.to_string()
    }
}

/// Word `at` of a buffer that is filled from a seed; seed 0 is zeros.
pub fn filler(seed: u64, at: usize) -> u64 {
    if seed == 0 {
        return 0;
    }
    let x = seed
        .wrapping_mul(0x9e37_79b9_7f4a_7c15)
        .wrapping_add((at as u64).wrapping_mul(0xbf58_476d_1ce4_e5b9));
    x ^ (x >> 31)
}

/// How a buffer is lent.
#[derive(Clone, Copy, Default)]
pub struct Lending {
    /// How many words more than needed, or fewer.
    pub more: i64,
    /// Or how many in all.
    pub exact: Option<usize>,
    pub seed: u64,
}

impl Lending {
    pub fn length(self, need: usize) -> usize {
        self.exact
            .unwrap_or((need as i64).saturating_add(self.more).max(0) as usize)
    }

    /// Cut off at its length, or filled up to it.
    pub fn resize<W: Word>(self, words: &mut Vec<W>, need: usize) {
        let length = self.length(need);
        words.truncate(length);
        for at in words.len()..length {
            words.push(W::cut(filler(self.seed, at)));
        }
    }

    pub fn afresh<W: Word>(self, need: usize) -> Vec<W> {
        let mut words = Vec::new();
        self.resize(&mut words, need);
        words
    }
}

/// Whether words are the same, bit for bit.
pub fn same<W: Word>(one: &[W], other: &[W]) -> bool {
    one.len() == other.len() && one.iter().zip(other).all(|(a, b)| a.bits() == b.bits())
}

/// A line of `raw`: name, length, words needed, the words, a run of equal ones as WORD*COUNT.
pub fn raw_line<W: Word>(name: &str, words: &[W], need: usize) -> String {
    let mut out = format!("{name} {} {need}", words.len());
    let mut at = 0;
    while at < words.len() {
        let run = words[at..]
            .iter()
            .take_while(|w| w.bits() == words[at].bits())
            .count();
        out += &format!(" {}", words[at].text());
        if run > 1 {
            out += &format!("*{run}");
        }
        at += run;
    }
    out
}
