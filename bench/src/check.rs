//! How long the tree check takes: trees made by inserts, the tallest that passes, and the worst for each condition, in
//! three numberings.

use crate::rows::Rows;
use crate::shapes::{bushy, levels, node_room, ring, Lent, Order, Shape};
use crate::{seconds, Times, DIM, RUNS};
use cftree::{lent, Refusal, Settings, Tree};
use std::hint::black_box;

/// A tree and what the check has to say of it: 0, or the condition that fails.
struct Case {
    name: String,
    tree: Lent,
    verdict: u64,
}

impl Case {
    fn nodes(&self) -> usize {
        self.tree.head.nodes as usize
    }

    fn check(&self, times: usize) {
        for _ in 0..times {
            let t = black_box(&self.tree);
            let said = match lent::validate(t.head, &t.floats, &t.links) {
                Ok(()) => 0,
                Err(Refusal::Tree { condition }) => condition,
                Err(other) => panic!("{}: {other}", self.name),
            };
            assert_eq!(said, self.verdict, "{}", self.name);
        }
    }

    /// Nanoseconds of a check, the least of a few runs.
    fn time(&self) -> f64 {
        let times = 1 + 1_000_000 / self.nodes();
        let mut runs = Times::default();
        (0..RUNS).for_each(|_| runs.0.push(seconds(|| self.check(times))));
        1e9 * runs.best() / times as f64
    }
}

fn settings(m: usize, branching: usize, leaf_cap: usize) -> Settings {
    Settings::new(DIM, m)
        .with_branching(branching)
        .with_leaf_cap(leaf_cap)
}

/// A full tree as inserts make it.
fn full(m: usize, branching: usize, leaf_cap: usize) -> Case {
    let mut tree =
        Tree::new(settings(m, branching, leaf_cap)).expect("settings within their limits");
    tree.insert_batch(&Rows::new(1).flat(DIM, m))
        .expect("whole rows");
    assert_eq!(tree.num_leaves(), m);
    let (head, floats, links) = tree.into_parts();
    Case {
        name: format!("full, M {m}, {branching}/{leaf_cap}"),
        tree: Lent {
            head,
            floats,
            links,
        },
        verdict: 0,
    }
}

/// The tallest tree that passes.
fn tall(m: usize) -> Shape {
    levels(1..=m)
}

/// The tallest tree with a change in the node that the walk comes to last, which has the last number too.
fn spoiled(m: usize, change: fn(&mut Shape, usize)) -> Shape {
    let mut shape = tall(m);
    let last = shape.nodes.len() - 1;
    change(&mut shape, last);
    shape
}

/// The first child stands in the last place of the root's list too: the walk goes round until it has no steps left.
fn twice(m: usize) -> Shape {
    let mut shape = bushy(node_room(m), 16);
    shape.nodes[0].list[15] = 1;
    shape
}

/// A name, the verdict, branching and the tree.
type Kind = (&'static str, u64, usize, Shape);

/// What the walk has to find its way through, whatever the numbering.
fn winding(m: usize) -> Vec<Kind> {
    let room = node_room(m);
    let parent_wrong = |t: &mut Shape, at: usize| t.nodes[at].parent = Some(0);
    vec![
        ("tallest", 0, 2, tall(m)),
        ("ring beside a leaf", 4, 2, ring(room)),
        ("round and round", 4, 16, twice(m)),
        ("last parent wrong", 4, 2, spoiled(m, parent_wrong)),
        ("lists of 16, leaves empty", 5, 16, bushy(room, 16)),
        ("chain", 6, 2, levels((0..room).map(|_| 1))),
        ("last level no wider", 6, 2, levels((1..m).chain([m - 1]))),
    ]
}

/// What fails at the last node.
fn late(m: usize) -> Vec<Kind> {
    let no_such_entry = |t: &mut Shape, at: usize| t.nodes[at].list[0] = t.entries;
    let entry_twice = |t: &mut Shape, at: usize| t.nodes[at].list[0] = 0;
    let list_empty = |t: &mut Shape, at: usize| {
        t.nodes[at].list.clear();
        t.entries -= 1;
    };
    let weight_off = |t: &mut Shape, at: usize| t.nodes[at].weight += 1;
    let merged_all = |t: &mut Shape, _: usize| t.merged = usize::MAX;
    vec![
        ("last list names no entry", 3, 2, spoiled(m, no_such_entry)),
        ("last entry listed twice", 4, 2, spoiled(m, entry_twice)),
        ("last list empty", 5, 2, spoiled(m, list_empty)),
        ("last weight off", 7, 2, spoiled(m, weight_off)),
        ("merged total", 8, 2, spoiled(m, merged_all)),
    ]
}

fn numbered(m: usize, (name, verdict, branching, shape): Kind, orders: &[Order]) -> Vec<Case> {
    let case = |order: &Order| Case {
        name: format!("{name}, M {m}, {}", order.name()),
        tree: shape.numbered(*order).lent(settings(m, branching, 1)),
        verdict,
    };
    orders.iter().map(case).collect()
}

fn cases() -> Vec<Case> {
    let mut out = Vec::new();
    for branching in [2, 3, 4, 8, 16] {
        out.extend([1, 2, 4, 8, 16].map(|leaf_cap| full(24, branching, leaf_cap)));
    }
    out.extend([(8, 8), (2, 2), (2, 1), (16, 1), (16, 16)].map(|(b, l)| full(256, b, l)));
    for m in [24, 256] {
        let winding = winding(m).into_iter();
        out.extend(winding.flat_map(|kind| numbered(m, kind, &Order::ALL)));
        let late = late(m).into_iter();
        out.extend(late.flat_map(|kind| numbered(m, kind, &[Order::First])));
    }
    out
}

/// One line of the table over and over, for a profiler.
pub fn repeat(line: usize, times: usize) {
    let case = cases()
        .into_iter()
        .nth(line - 1)
        .expect("a line of the table");
    println!("{}, {} nodes", case.name, case.nodes());
    case.check(times);
}

pub fn table() {
    println!("| | tree | nodes | verdict | a check, ns | a node, ns |");
    println!("|---|---|---|---|---|---|");
    for (at, case) in cases().iter().enumerate() {
        let (nodes, time) = (case.nodes(), case.time());
        println!(
            "| {} | {} | {nodes} | {} | {time:.0} | {:.1} |",
            at + 1,
            case.name,
            case.verdict,
            time / nodes as f64
        );
    }
}
