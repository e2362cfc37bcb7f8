//! One tree of the Rust behind the protocol's calls, whatever its feature.

use crate::choice::{Choice, CHOICES};
use crate::state::{tree_from, tree_text};
use crate::words::{float, hex, number};
use betula::feature::access::Parts;
use betula::feature::{Diagonal, Spherical};
use betula::tree::CFTree;
use std::panic::{catch_unwind, AssertUnwindSafe};

/// The calls; each answers its lines.
pub trait Calls {
    fn insert(&mut self, row: &[f64]) -> String;
    fn batch(&mut self, flat: &[f64]) -> String;
    fn refit(&mut self, flat: &[f64]) -> String;
    fn route(&mut self, flat: &[f64]) -> String;
    fn spread(&self) -> String;
    fn validate(&self) -> String;
    fn listing(&self) -> Vec<String>;
    fn state(&self) -> Vec<String>;
    fn load(&mut self, lines: &[String], trusting: bool) -> Result<String, String>;
    fn set(&mut self, name: &str, value: &str) -> Result<String, String>;
}

/// The most channels that a tree is made for here.
const WIDEST: usize = 1 << 16;

/// `settings` spelled as the listing's first line, without the threshold.
pub struct Settings {
    pub text: String,
    pub sizes: [usize; 4],
    pub diagonal: bool,
    pub dist: Choice,
    pub abs: Choice,
}

fn choice(word: &str) -> Option<Choice> {
    CHOICES.iter().find(|c| c.0 == word).map(|c| c.1)
}

impl Settings {
    /// None if a choice is a number, which the Rust has no case for, or dim is past all memory.
    pub fn read(words: &[&str]) -> Result<Option<Self>, String> {
        if words.len() != 7 {
            return Err("settings are DIM BRANCHING LEAF_CAP M FEATURE DIST ABS".into());
        }
        let mut sizes = [0; 4];
        for (at, word) in words[..4].iter().enumerate() {
            sizes[at] = number(word)?;
        }
        let named = |w: &str| ["spherical", "diagonal"].contains(&w) || choice(w).is_some();
        if let Some(odd) = words[4..].iter().find(|w| !named(w) && number(w).is_err()) {
            return Err(format!("no such choice: {odd}"));
        }
        let diagonal = ["spherical", "diagonal"]
            .iter()
            .position(|f| *f == words[4]);
        let (Some(f), Some(dist), Some(abs)) = (diagonal, choice(words[5]), choice(words[6]))
        else {
            return Ok(None);
        };
        if sizes[0] > WIDEST {
            return Ok(None);
        }
        Ok(Some(Self {
            text: words.join(" "),
            sizes,
            diagonal: f == 1,
            dist,
            abs,
        }))
    }

    /// An empty tree.
    pub fn create(self, threshold: f64) -> Box<dyn Calls> {
        if self.diagonal {
            Box::new(Held::<Diagonal<f64>>::new(self, threshold))
        } else {
            Box::new(Held::<Spherical<f64>>::new(self, threshold))
        }
    }
}

struct Held<C: Parts> {
    settings: Settings,
    tree: CFTree<f64, C, Choice, Choice>,
    /// The Rust itself calls the loaded tree invalid, so nothing but `validate` is answered.
    invalid: bool,
    /// Calls go on with any loaded tree, as the Rust's insert and rebuild do; `validate` says what it has against it.
    trusting: bool,
}

/// The answer of a call that the Rust may end by a panic.
fn caught(call: impl FnOnce() -> String) -> String {
    catch_unwind(AssertUnwindSafe(call)).unwrap_or_else(|_| "panic".into())
}

impl<C: Parts> Held<C> {
    fn new(settings: Settings, threshold: f64) -> Self {
        let [dim, branching, leaf_cap, most] = settings.sizes;
        let (dist, abs) = (settings.dist, settings.abs);
        let tree = CFTree::new(dim, branching, leaf_cap, threshold, most, dist, abs);
        Self {
            settings,
            tree,
            invalid: false,
            trusting: false,
        }
    }

    /// Rows in a batch, or none if it has no whole number of them.
    fn rows(&self, flat: &[f64]) -> Option<usize> {
        let dim = self.settings.sizes[0];
        let whole = !self.invalid && dim > 0 && flat.len() % dim == 0;
        whole.then(|| flat.len() / dim)
    }
}

impl<C: Parts> Calls for Held<C> {
    fn insert(&mut self, row: &[f64]) -> String {
        if self.invalid {
            return "none".into();
        }
        caught(|| match self.tree.try_insert(row) {
            Ok(()) => "ok".into(),
            Err(e) => format!("refused 4 {} {}", e.expected, e.got),
        })
    }

    fn batch(&mut self, flat: &[f64]) -> String {
        if self.rows(flat).is_none() {
            return "none".into();
        }
        let dim = self.settings.sizes[0];
        caught(|| {
            for row in flat.chunks_exact(dim) {
                self.tree.try_insert(row).expect("a row of dim numbers");
            }
            "ok".into()
        })
    }

    fn refit(&mut self, flat: &[f64]) -> String {
        let Some(rows) = self.rows(flat) else {
            return "none".into();
        };
        caught(|| {
            self.tree.refit_leaves(flat, rows);
            "ok".into()
        })
    }

    fn route(&mut self, flat: &[f64]) -> String {
        let Some(rows) = self.rows(flat) else {
            return "none".into();
        };
        let dim = self.settings.sizes[0];
        caught(|| {
            let routes = self.tree.routes(flat, rows);
            for (row, &entry) in flat.chunks_exact(dim).zip(&routes) {
                assert_eq!(
                    self.tree.nearest_entry(row),
                    entry,
                    "one row and a block differ"
                );
            }
            let words: String = routes.iter().map(|e| format!(" {e}")).collect();
            format!("ok{words}")
        })
    }

    fn spread(&self) -> String {
        if self.invalid {
            return "none".into();
        }
        let dim = self.settings.sizes[0];
        let of = |e: &C| {
            (0..dim)
                .map(|d| format!(" {}", hex(e.variance(d))))
                .collect::<String>()
        };
        format!(
            "ok{}",
            self.tree.leaf_features().iter().map(of).collect::<String>()
        )
    }

    fn validate(&self) -> String {
        match self.tree.validate() {
            Ok(()) => "ok".into(),
            Err(why) if self.trusting => format!("invalid: {why}"),
            Err(_) => "invalid".into(),
        }
    }

    fn listing(&self) -> Vec<String> {
        let entries = self.tree.leaf_features();
        let first = format!(
            "{}\t{}\t{}\t{}",
            entries.len(),
            hex(self.tree.threshold()),
            self.tree.rebuilds(),
            self.tree.summary().weight() + 0.0 // a weight of −0.0 is 0
        );
        let line = |(at, e): (usize, &C)| {
            let numbers = e.mean().iter().copied().chain(e.deviations());
            let words: String = numbers.map(|x| format!("\t{}", hex(x))).collect();
            format!("{at}\t{}{words}", e.weight())
        };
        let rest = entries.iter().enumerate().map(line);
        std::iter::once(first).chain(rest).collect()
    }

    fn state(&self) -> Vec<String> {
        let mut out = vec![format!("settings {}", self.settings.text)];
        out.extend(tree_text(&self.tree.plain()));
        out
    }

    fn load(&mut self, lines: &[String], trusting: bool) -> Result<String, String> {
        let Some(tree) = tree_from(self.settings.sizes[0], lines)? else {
            return Ok("none".into());
        };
        self.tree.load(tree);
        self.trusting = trusting;
        self.invalid = !trusting && self.tree.validate().is_err();
        Ok("ok".into())
    }

    fn set(&mut self, name: &str, value: &str) -> Result<String, String> {
        let mut tree = self.tree.plain();
        match name {
            "threshold" => tree.threshold = float(value)?,
            "rebuilds" => tree.rebuilds = number(value)?,
            "merged" => tree.merged = number(value)?,
            _ => return Ok("none".into()),
        }
        self.tree.load(tree);
        Ok("ok".into())
    }
}
