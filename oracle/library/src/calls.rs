//! The library's calls. After each one every lent word is looked at, bit for bit: a call that breaks a rule on them
//! answers `broken`.

use crate::buffers::{same, FLOATS, LINKS, OUTPUT, SCRATCH_FLOATS, SCRATCH_LINKS, SPREADS};
use crate::layout::Layout;
use crate::library::{Library, Standing};
use crate::words::hex;
use cftree::lent::{self, Head, Lent, Outcome, Places};
use cftree::Refusal;

fn refused(why: Refusal) -> String {
    let values: String = why.values().map(|v| format!(" {v}")).collect();
    format!("refused {}{values}", why.number())
}

fn answered(answer: Result<(), Refusal>) -> String {
    answer.map_or_else(refused, |()| "ok".into())
}

/// Whether two heads are the same, bit for bit.
fn same_heads(a: &Head, b: &Head) -> bool {
    let of = |h: &Head| Head {
        threshold: 0.0,
        ..*h
    };
    of(a) == of(b) && same(&[a.threshold], &[b.threshold])
}

fn within(h: &Head) -> bool {
    h.floats_needed() != 0
}

pub type Change = fn(Head, Lent, &[f64]) -> Outcome;

impl Library {
    fn lend_scratch(&mut self, floats: usize, links: usize) {
        (self.need[SCRATCH_FLOATS], self.need[SCRATCH_LINKS]) = (floats, links);
        self.scratch_floats = self.lending[SCRATCH_FLOATS].afresh(floats);
        self.scratch_links = self.lending[SCRATCH_LINKS].afresh(links);
    }

    pub fn create(&mut self, settings: Head, threshold: f64) -> String {
        let head = Head {
            threshold,
            ..settings
        };
        let (need_floats, need_links) = (head.floats_needed(), head.links_needed());
        let mut floats: Vec<f64> = self.lending[FLOATS].afresh(need_floats);
        let mut links: Vec<u32> = self.lending[LINKS].afresh(need_links);
        let (old_floats, old_links) = (floats.clone(), links.clone());
        let outcome = lent::create(head, &mut floats, &mut links);
        if outcome.answer.is_err() {
            if !same_heads(&outcome.head, &head)
                || !same(&floats, &old_floats)
                || !same(&links, &old_links)
            {
                return "broken: a refused creation changed what was lent".into();
            }
            return answered(outcome.answer);
        }
        let Some(layout) =
            Layout::of(&head).filter(|l| (l.floats(), l.links()) == (need_floats, need_links))
        else {
            return "broken: the sizes needed are not the written ones".into();
        };
        (self.floats, self.links) = (floats, links);
        (self.need[FLOATS], self.need[LINKS]) = (need_floats, need_links);
        self.tree = Some(Standing {
            head: outcome.head,
            layout,
        });
        self.lend_scratch(0, 0);
        match self.broken(&head, &old_floats, &old_links, false) {
            Some(why) => format!("broken: {why}"),
            None => "ok".into(),
        }
    }

    pub fn change(&mut self, call: Change, rows: &[f64]) -> Result<String, String> {
        let head = self.tree.as_ref().ok_or("no tree")?.head;
        self.lend_scratch(head.scratch_floats_needed(), head.scratch_links_needed());
        let (floats, links) = (self.floats.clone(), self.links.clone());
        let as_lent = rows.to_vec();
        let lent = Lent {
            floats: &mut self.floats,
            links: &mut self.links,
            scratch_floats: &mut self.scratch_floats,
            scratch_links: &mut self.scratch_links,
        };
        let outcome = call(head, lent, rows);
        if !same(rows, &as_lent) {
            return Ok("broken: the rows were written".into());
        }
        if outcome.answer.is_err() {
            let (scratch, numbers) = self.scratch_as_lent();
            if !same_heads(&outcome.head, &head)
                || !self.holds(&floats, &links)
                || !same(&self.scratch_floats, &scratch)
                || !same(&self.scratch_links, &numbers)
            {
                return Ok("broken: a refused call changed what was lent".into());
            }
            return Ok(answered(outcome.answer));
        }
        self.tree.as_mut().ok_or("no tree")?.head = outcome.head;
        Ok(match self.broken(&head, &floats, &links, rows.is_empty()) {
            Some(why) => format!("broken: {why}"),
            None => "ok".into(),
        })
    }

    fn holds(&self, floats: &[f64], links: &[u32]) -> bool {
        same(&self.floats, floats) && same(&self.links, links)
    }

    fn scratch_as_lent(&self) -> (Vec<f64>, Vec<u32>) {
        (
            self.lending[SCRATCH_FLOATS].afresh(self.need[SCRATCH_FLOATS]),
            self.lending[SCRATCH_LINKS].afresh(self.need[SCRATCH_LINKS]),
        )
    }

    /// What an accepted changing call may not leave: other settings, a needed word that is neither the tree's nor zero,
    /// scratch that is not zero, a surplus that was touched; and, with nothing to do, another tree than the one lent.
    fn broken(
        &self,
        before: &Head,
        old_floats: &[f64],
        old_links: &[u32],
        idle: bool,
    ) -> Option<&'static str> {
        let tree = self.tree.as_ref()?;
        let (h, layout) = (tree.head, tree.layout);
        let settings = Head {
            nodes: h.nodes,
            entries: h.entries,
            root: h.root,
            rebuilds: h.rebuilds,
            merged: h.merged,
            threshold: h.threshold,
            ..*before
        };
        if !same_heads(&settings, &h) {
            return Some("the settings changed");
        }
        let plain = if idle {
            layout.read(before, old_floats, old_links)
        } else {
            self.plain().ok()?
        };
        let (mut floats, mut links) = (old_floats.to_vec(), old_links.to_vec());
        floats[..layout.floats()].fill(0.0);
        links[..layout.links()].fill(0);
        layout.write(&plain, &mut floats, &mut links);
        if (idle && !same_heads(before, &h)) || !self.holds(&floats, &links) {
            return Some("a word is neither the tree's nor zero nor as lent");
        }
        let (mut scratch, mut numbers) = self.scratch_as_lent();
        scratch[..self.need[SCRATCH_FLOATS]].fill(0.0);
        numbers[..self.need[SCRATCH_LINKS]].fill(0);
        if !same(&scratch, &self.scratch_floats) || !same(&numbers, &self.scratch_links) {
            return Some("scratch is not zeros and then as lent");
        }
        None
    }

    pub fn route(&mut self, rows: &[f64]) -> Result<String, String> {
        let h = self.tree.as_ref().ok_or("no tree")?.head;
        self.lend_scratch(0, 0);
        let count = if within(&h) {
            rows.len() / h.dim as usize
        } else {
            0
        };
        self.need[OUTPUT] = count;
        self.output = self.lending[OUTPUT].afresh(count);
        let as_lent = self.output.clone();
        let (floats, links, rows_as_lent) =
            (self.floats.clone(), self.links.clone(), rows.to_vec());
        let answer = lent::route(h, &self.floats, &self.links, rows, &mut self.output);
        if !self.holds(&floats, &links) || !same(rows, &rows_as_lent) {
            return Ok("broken: routing wrote what it only reads".into());
        }
        let written = if answer.is_ok() { count } else { 0 };
        if !same(&self.output[written..], &as_lent[written..]) {
            return Ok("broken: the output past its front was touched".into());
        }
        let words: String = self.output[..written]
            .iter()
            .map(|e| format!(" {e}"))
            .collect();
        Ok(answered(answer) + &words)
    }

    pub fn spread(&mut self) -> Result<String, String> {
        let h = self.tree.as_ref().ok_or("no tree")?.head;
        self.lend_scratch(0, 0);
        let count = if within(&h) {
            (h.entries.min(h.max_leaves + 1) * h.dim) as usize
        } else {
            0
        };
        self.need[SPREADS] = count;
        self.spreads = self.lending[SPREADS].afresh(count);
        let as_lent = self.spreads.clone();
        let (floats, links) = (self.floats.clone(), self.links.clone());
        let answer = lent::spread(h, &self.floats, &self.links, &mut self.spreads);
        if !self.holds(&floats, &links) {
            return Ok("broken: spread wrote what it only reads".into());
        }
        let written = if answer.is_ok() { count } else { 0 };
        if !same(&self.spreads[written..], &as_lent[written..]) {
            return Ok("broken: the output past its front was touched".into());
        }
        let words: String = self.spreads[..written]
            .iter()
            .map(|x| format!(" {}", hex(*x)))
            .collect();
        Ok(answered(answer) + &words)
    }

    /// The tree check; the listing of entries has to give the same answer, and the places of the layout.
    pub fn validate(&mut self) -> Result<String, String> {
        self.lend_scratch(0, 0);
        let tree = self.tree.as_ref().ok_or("no tree")?;
        let (h, layout) = (tree.head, tree.layout);
        let (floats, links) = (self.floats.clone(), self.links.clone());
        let answer = lent::validate(h, &self.floats, &self.links);
        let places = Places {
            entries: h.entries,
            first: layout.first_entry() as u64,
            width: layout.width() as u64,
            means: layout.dim as u64,
            deviations: layout.deviations as u64,
        };
        let listed = lent::entries(h, &self.floats, &self.links).map(|entries| entries.places());
        if listed != answer.map(|()| places) {
            return Ok("broken: the listing is not as the tree check and the layout".into());
        }
        if !self.holds(&floats, &links) {
            return Ok("broken: the tree check or the listing wrote what it only reads".into());
        }
        Ok(answered(answer))
    }
}
