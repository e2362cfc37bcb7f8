//! Heads and buffers that hold anything: every call answers, and touches nothing that it was not lent.

use cftree::lent::{self, Head, Lent};
use cftree::Refusal;

/// A small generator, the same numbers every time.
struct Draw(u64);

impl Draw {
    fn next(&mut self) -> u64 {
        self.0 ^= self.0 << 13;
        self.0 ^= self.0 >> 7;
        self.0 ^= self.0 << 17;
        self.0
    }

    fn below(&mut self, n: u64) -> u64 {
        self.next() % n
    }

    /// Mostly below n, now and then anything.
    fn around(&mut self, n: u64) -> u64 {
        match self.below(8) {
            0 => self.next(),
            1 => n,
            _ => self.below(n),
        }
    }

    fn head(&mut self) -> Head {
        Head {
            dim: self.around(4),
            branching: 2 + self.around(4),
            leaf_cap: 1 + self.around(4),
            max_leaves: 1 + self.around(6),
            nodes: 1 + self.around(4),
            entries: self.around(6),
            root: self.around(3),
            rebuilds: self.next(),
            merged: self.around(4),
            threshold: if self.below(8) == 0 {
                f64::from_bits(self.next())
            } else {
                0.5
            },
            feature: self.around(2) as u32,
            dist: self.around(6) as u32,
            abs: self.around(6) as u32,
        }
    }

    /// Any bits now and then, half of them a NaN's.
    fn float(&mut self) -> f64 {
        match self.below(4) {
            0 => f64::from_bits(self.next() | (self.below(2) * (0x7ff << 52))),
            1 => 0.0,
            _ => self.below(5) as f64,
        }
    }

    fn link(&mut self) -> u32 {
        match self.below(6) {
            0 => self.next() as u32,
            1 => u32::MAX,
            _ => self.below(9) as u32,
        }
    }
}

const EDGE: usize = 7;

/// Words with an edge on both sides that no call is lent.
struct Guarded<W> {
    words: Vec<W>,
    before: Vec<W>,
}

impl<W: Clone> Guarded<W> {
    fn new(need: usize, mut word: impl FnMut() -> W) -> Self {
        let words: Vec<W> = (0..need + 2 * EDGE).map(|_| word()).collect();
        Guarded {
            before: words.clone(),
            words,
        }
    }

    fn lent(&mut self) -> &mut [W] {
        let end = self.words.len() - EDGE;
        &mut self.words[EDGE..end]
    }
}

fn bits(words: &[f64]) -> Vec<u64> {
    words.iter().map(|x| x.to_bits()).collect()
}

/// The words that stay as they were: all of them if the call was refused, else the edges.
fn kept<W: Clone, B: PartialEq>(g: &Guarded<W>, refused: bool, of: impl Fn(&[W]) -> B) -> bool {
    let n = g.words.len();
    let edges = of(&g.words[..EDGE]) == of(&g.before[..EDGE])
        && of(&g.words[n - EDGE..]) == of(&g.before[n - EDGE..]);
    edges && (!refused || of(&g.words) == of(&g.before))
}

/// A head with its buffers, and rows.
struct Case {
    head: Head,
    floats: Guarded<f64>,
    links: Guarded<u32>,
    scratch_floats: Guarded<f64>,
    scratch_links: Guarded<u32>,
    rows: Vec<f64>,
}

impl Case {
    /// Anything, or, if made, an empty tree where anything was.
    fn drawn(draw: &mut Draw, made: bool) -> Case {
        let head = draw.head();
        let short = usize::from(draw.below(10) == 0);
        let mut floats = Guarded::new(head.floats_needed().saturating_sub(short), || draw.float());
        let mut links = Guarded::new(head.links_needed(), || draw.link());
        let created = made.then(|| lent::create(head, floats.lent(), links.lent()).head);
        floats.before.clone_from(&floats.words);
        links.before.clone_from(&links.words);
        Case {
            head: created.unwrap_or(head),
            floats,
            links,
            scratch_floats: Guarded::new(head.scratch_floats_needed(), || draw.float()),
            scratch_links: Guarded::new(head.scratch_links_needed(), || draw.link()),
            rows: (0..draw.below(9)).map(|_| draw.float()).collect(),
        }
    }

    /// Every call that reads the tree: it writes its output alone, and nothing if refused.
    fn look(&mut self, draw: &mut Draw) {
        let (head, floats, links) = (self.head, self.floats.lent(), self.links.lent());
        let mut out = Guarded::new(draw.below(9) as usize, || draw.link());
        let routed = lent::route(head, floats, links, &self.rows, out.lent());
        assert!(kept(&out, routed.is_err(), <[u32]>::to_vec));
        let mut spreads = Guarded::new(draw.below(40) as usize, || draw.float());
        let spread = lent::spread(head, floats, links, spreads.lent());
        assert!(kept(&spreads, spread.is_err(), bits));
        read_as_checked(head, floats, links);
        route_as_a_batch(head, floats, links, &self.rows);
        assert!(kept(&self.floats, true, bits) && kept(&self.links, true, <[u32]>::to_vec));
    }

    /// A call that changes the tree: whether it was accepted, and the tree is then whole.
    fn change(&mut self, draw: &mut Draw) -> bool {
        let calls = [lent::insert_row, lent::insert_batch, lent::refit];
        let call = calls[draw.below(3) as usize];
        let lent = Lent {
            floats: self.floats.lent(),
            links: self.links.lent(),
            scratch_floats: self.scratch_floats.lent(),
            scratch_links: self.scratch_links.lent(),
        };
        let outcome = call(self.head, lent, &self.rows);
        let refused = outcome.answer.is_err();
        assert!(kept(&self.floats, refused, bits));
        assert!(kept(&self.links, refused, <[u32]>::to_vec));
        assert!(kept(&self.scratch_floats, refused, bits));
        assert!(kept(&self.scratch_links, refused, <[u32]>::to_vec));
        if !refused {
            let valid = lent::validate(outcome.head, self.floats.lent(), self.links.lent());
            assert_eq!(valid, Ok(()));
        }
        !refused
    }
}

/// What reads the tree answers as the tree check does, and the entries' rows are the root's.
fn read_as_checked(head: Head, floats: &[f64], links: &[u32]) {
    let valid = lent::validate(head, floats, links);
    let entries = lent::entries(head, floats, links);
    let rows = entries.map(|entries| entries.map(|e| e.weight).sum::<f64>());
    assert_eq!(rows.map(|_| ()), valid);
    assert_eq!(
        lent::summary(head, floats, links).map(|all| all.weight),
        rows
    );
}

/// One row goes where a batch of it alone goes; what is no row is refused as such, after the tree check.
fn route_as_a_batch(head: Head, floats: &[f64], links: &[u32], row: &[f64]) {
    let mut out = [u32::MAX];
    let (dim, got) = (head.dim, row.len() as u64);
    let batch = if got == dim {
        lent::route(head, floats, links, row, &mut out).map(|()| out[0])
    } else {
        lent::validate(head, floats, links).and(Err(Refusal::RowShape { dim, got }))
    };
    assert_eq!(lent::route_row(head, floats, links, row), batch);
}

#[test]
fn anything_is_answered() {
    let mut draw = Draw(0x9e37_79b9_7f4a_7c15);
    let mut accepted = 0;
    for turn in 0..20_000 {
        let mut case = Case::drawn(&mut draw, turn % 2 == 0);
        case.look(&mut draw);
        accepted += usize::from(case.change(&mut draw));
    }
    assert!(accepted > 300, "only {accepted} calls were accepted");
}
