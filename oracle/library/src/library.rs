//! A head and its lent buffers, and what is not a call: lending, loading, setting, looking.

use crate::buffers::{
    raw_line, Lending, FLOATS, LINKS, NAMES, OUTPUT, SCRATCH_FLOATS, SCRATCH_LINKS, SPREADS,
};
use crate::layout::{Layout, Plain};
use crate::text::{state_from, state_lines};
use crate::words::{choice, float, hex, number, DISTANCES, FEATURES};
use cftree::lent::{self, Head};

pub struct Standing {
    pub head: Head,
    pub layout: Layout,
}

#[derive(Default)]
pub struct Library {
    pub tree: Option<Standing>,
    pub lending: [Lending; 6],
    pub need: [usize; 6],
    pub floats: Vec<f64>,
    pub links: Vec<u32>,
    pub scratch_floats: Vec<f64>,
    pub scratch_links: Vec<u32>,
    pub output: Vec<u32>,
    pub spreads: Vec<f64>,
}

impl Library {
    pub fn lend(&mut self, words: &[&str]) -> Result<(), String> {
        let usage = "lend BUFFER +K|-K|=K [SEED]";
        let [name, amount, rest @ ..] = words else {
            return Err(usage.into());
        };
        let at = NAMES.iter().position(|n| n == name).ok_or(usage)?;
        let k = number(amount.get(1..).ok_or(usage)?)?;
        let (more, exact) = match amount.as_bytes().first() {
            Some(b'+') => (k as i64, None),
            Some(b'-') => (-(k as i64), None),
            Some(b'=') => (0, Some(k as usize)),
            _ => return Err(usage.into()),
        };
        let seed = match rest {
            [] => 0,
            [seed] => number(seed)?,
            _ => return Err(usage.into()),
        };
        self.lending[at] = Lending { more, exact, seed };
        if let Some(tree) = &self.tree {
            self.lending[FLOATS].resize(&mut self.floats, tree.layout.floats());
            self.lending[LINKS].resize(&mut self.links, tree.layout.links());
        }
        Ok(())
    }

    pub fn load(&mut self, lines: &[String]) -> Result<(), String> {
        let (head, layout, tree) = state_from(lines)?;
        self.floats = self.lending[FLOATS].afresh(layout.floats());
        self.links = self.lending[LINKS].afresh(layout.links());
        (self.need[FLOATS], self.need[LINKS]) = (layout.floats(), layout.links());
        layout.write(&tree, &mut self.floats, &mut self.links);
        self.tree = Some(Standing { head, layout });
        Ok(())
    }

    pub fn set(&mut self, name: &str, value: &str) -> Result<(), String> {
        let h = &mut self.tree.as_mut().ok_or("no tree")?.head;
        let counter = match name {
            "threshold" => {
                h.threshold = float(value)?;
                return Ok(());
            }
            "feature" => {
                h.feature = choice(value, &FEATURES)?;
                return Ok(());
            }
            "dist" => {
                h.dist = choice(value, &DISTANCES)?;
                return Ok(());
            }
            "abs" => {
                h.abs = choice(value, &DISTANCES)?;
                return Ok(());
            }
            "dim" => &mut h.dim,
            "branching" => &mut h.branching,
            "leaf_cap" => &mut h.leaf_cap,
            "max_leaves" => &mut h.max_leaves,
            "rebuilds" => &mut h.rebuilds,
            "merged" => &mut h.merged,
            "nodes" => &mut h.nodes,
            "entries" => &mut h.entries,
            "root" => &mut h.root,
            _ => return Err(format!("no such field: {name}")),
        };
        *counter = number(value)?;
        Ok(())
    }

    /// The tree as the words have it.
    pub fn plain(&self) -> Result<Plain, String> {
        let tree = self.tree.as_ref().ok_or("no tree")?;
        Ok(tree.layout.read(&tree.head, &self.floats, &self.links))
    }

    /// Fills what no call may read.
    pub fn spoil(&mut self, seed: u64) -> Result<(), String> {
        let plain = self.plain()?;
        let layout = self.tree.as_ref().ok_or("no tree")?.layout;
        let filled = Lending {
            more: 0,
            exact: None,
            seed,
        };
        let (floats, links) = (
            layout.floats().min(self.floats.len()),
            layout.links().min(self.links.len()),
        );
        self.floats[..floats].copy_from_slice(&filled.afresh::<f64>(floats));
        self.links[..links].copy_from_slice(&filled.afresh::<u32>(links));
        layout.write(&plain, &mut self.floats, &mut self.links);
        Ok(())
    }

    pub fn state(&self) -> Result<Vec<String>, String> {
        let head = &self.tree.as_ref().ok_or("no tree")?.head;
        Ok(state_lines(head, &self.plain()?))
    }

    pub fn raw(&self) -> Vec<String> {
        vec![
            raw_line(NAMES[FLOATS], &self.floats, self.need[FLOATS]),
            raw_line(NAMES[LINKS], &self.links, self.need[LINKS]),
            raw_line(
                NAMES[SCRATCH_FLOATS],
                &self.scratch_floats,
                self.need[SCRATCH_FLOATS],
            ),
            raw_line(
                NAMES[SCRATCH_LINKS],
                &self.scratch_links,
                self.need[SCRATCH_LINKS],
            ),
            raw_line(NAMES[OUTPUT], &self.output, self.need[OUTPUT]),
            raw_line(NAMES[SPREADS], &self.spreads, self.need[SPREADS]),
        ]
    }

    /// Document 01's listing, its entries read where the library says they stand.
    pub fn listing(&self) -> Result<Vec<String>, String> {
        let h = self.tree.as_ref().ok_or("no tree")?.head;
        let entries =
            lent::entries(h, &self.floats, &self.links).map_err(|why| format!("listing: {why}"))?;
        let total = self.plain()?.nodes[h.root as usize].summary[0];
        let mut out = vec![format!(
            "{}\t{}\t{}\t{}",
            entries.len(),
            hex(h.threshold),
            h.rebuilds,
            total as u64
        )];
        for (i, entry) in entries.enumerate() {
            let numbers = entry.means.iter().chain(entry.deviations);
            let words: String = numbers.map(|x| format!("\t{}", hex(*x))).collect();
            out.push(format!("{i}\t{}{words}", entry.weight as u64));
        }
        Ok(out)
    }
}
