//! The text of a whole tree: `state` prints it and `load` reads the same.

use crate::words::{float, hex, number};
use betula::feature::access::Parts;
use betula::tree::access::{PlainNode, PlainTree};

/// A loaded text: the tree, unless the Rust has no way to hold it.
pub type Loaded<C> = Option<PlainTree<C>>;

fn joined(numbers: impl IntoIterator<Item = f64>) -> String {
    numbers.into_iter().map(hex).collect::<Vec<_>>().join(" ")
}

/// Weight, means, deviations (one, or dim).
pub fn summary_text<C: Parts>(c: &C) -> String {
    let head = std::iter::once(c.weight());
    joined(head.chain(c.mean().iter().copied()).chain(c.deviations()))
}

fn node_text<C: Parts>(at: usize, node: &PlainNode<C>) -> String {
    let parent = node.parent.map_or("-".to_string(), |p| p.to_string());
    let kind = if node.leaf { "leaf" } else { "inner" };
    let list: String = node.list.iter().map(|i| format!("{i} ")).collect();
    let length = node.list.len();
    format!(
        "node {at} {parent} {kind} {length} {list}: {}",
        summary_text(&node.summary)
    )
}

/// The lines after `settings`, up to and without `end`.
pub fn tree_text<C: Parts>(tree: &PlainTree<C>) -> Vec<String> {
    let mut out = vec![format!(
        "head {} {} {} {} {} {}",
        hex(tree.threshold),
        tree.rebuilds,
        tree.merged,
        tree.nodes.len(),
        tree.entries.len(),
        tree.root
    )];
    out.extend(tree.nodes.iter().enumerate().map(|(i, n)| node_text(i, n)));
    let entry = |(i, e): (usize, &C)| format!("entry {i} {}", summary_text(e));
    out.extend(tree.entries.iter().enumerate().map(entry));
    out
}

fn summary<C: Parts>(dim: usize, words: &[&str]) -> Result<C, String> {
    let floats: Vec<f64> = words.iter().map(|w| float(w)).collect::<Result<_, _>>()?;
    if floats.len() != 1 + dim + C::count_of_deviations(dim) {
        return Err(format!("a summary has {} numbers", floats.len()));
    }
    Ok(C::from_parts(
        floats[0],
        floats[1..=dim].to_vec(),
        floats[dim + 1..].to_vec(),
    ))
}

/// A node's line; none if its length is not that of its list.
fn node<C: Parts>(dim: usize, words: &[&str]) -> Result<Option<PlainNode<C>>, String> {
    let colon = words
        .iter()
        .position(|w| *w == ":")
        .ok_or("a node without `:`")?;
    if colon < 5 {
        return Err("a node is `node NUMBER PARENT KIND LENGTH LIST : SUMMARY`".into());
    }
    let parent = if words[2] == "-" {
        None
    } else {
        Some(number(words[2])?)
    };
    let leaf = match words[3] {
        "leaf" => true,
        "inner" => false,
        other => return Err(format!("no such kind: {other}")),
    };
    let list: Vec<usize> = words[5..colon]
        .iter()
        .map(|w| number(w))
        .collect::<Result<_, _>>()?;
    let summary = summary(dim, &words[colon + 1..])?;
    let whole = list.len() == number(words[4])?;
    Ok(whole.then_some(PlainNode {
        parent,
        leaf,
        list,
        summary,
    }))
}

/// The lines after `settings`, up to and without `end`; none if the counts and the lists
/// say something that a `Vec` cannot.
pub fn tree_from<C: Parts>(dim: usize, lines: &[String]) -> Result<Loaded<C>, String> {
    let head: Vec<&str> = lines.first().ok_or("no head")?.split(' ').collect();
    if head.len() != 7 || head[0] != "head" {
        return Err("a head is `head THRESHOLD REBUILDS MERGED NODES ENTRIES ROOT`".into());
    }
    let (mut nodes, mut entries, mut whole) = (Vec::new(), Vec::new(), true);
    for line in &lines[1..] {
        let words: Vec<&str> = line.split(' ').collect();
        match words[0] {
            "node" if number(words.get(1).unwrap_or(&""))? == nodes.len() => {
                match node(dim, &words)? {
                    Some(n) => nodes.push(n),
                    None => return Ok(None),
                }
            }
            "entry" if number(words.get(1).unwrap_or(&""))? == entries.len() => {
                entries.push(summary::<C>(dim, &words[2..])?);
            }
            _ => return Err(format!("not the next node or entry: {line}")),
        }
    }
    whole &= nodes.len() == number(head[4])? && entries.len() == number(head[5])?;
    let tree = PlainTree {
        threshold: float(head[1])?,
        rebuilds: number(head[2])?,
        merged: number(head[3])?,
        root: number(head[6])?,
        nodes,
        entries,
    };
    Ok(whole.then_some(tree))
}
