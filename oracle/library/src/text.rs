//! The text of a whole tree: `state` prints it and `load` reads the same.

use crate::layout::{Layout, Node, Plain};
use crate::words::{choice, choice_name, float, hex, number, DISTANCES, FEATURES};
use cftree::lent::Head;

/// A head with the settings of the words, the rest of no meaning.
pub fn settings_from(words: &[&str]) -> Result<Head, String> {
    let [dim, branching, leaf_cap, max_leaves, feature, dist, abs] = words else {
        return Err("settings are DIM BRANCHING LEAF_CAP M FEATURE DIST ABS".into());
    };
    Ok(Head {
        dim: number(dim)?,
        branching: number(branching)?,
        leaf_cap: number(leaf_cap)?,
        max_leaves: number(max_leaves)?,
        nodes: 9,
        entries: 9,
        root: 9,
        rebuilds: 9,
        merged: 9,
        threshold: 0.0,
        feature: choice(feature, &FEATURES)?,
        dist: choice(dist, &DISTANCES)?,
        abs: choice(abs, &DISTANCES)?,
    })
}

fn summary_text(numbers: &[f64]) -> String {
    numbers
        .iter()
        .map(|x| hex(*x))
        .collect::<Vec<_>>()
        .join(" ")
}

fn node_text(at: usize, node: &Node) -> String {
    let parent = node.parent.map_or("-".to_string(), |p| p.to_string());
    let kind = if node.leaf { "leaf" } else { "inner" };
    let list: String = node.list.iter().map(|i| format!("{i} ")).collect();
    format!(
        "node {at} {parent} {kind} {} {list}: {}",
        node.length,
        summary_text(&node.summary)
    )
}

pub fn state_lines(h: &Head, tree: &Plain) -> Vec<String> {
    let (feature, dist, abs) = (
        choice_name(h.feature, &FEATURES),
        choice_name(h.dist, &DISTANCES),
        choice_name(h.abs, &DISTANCES),
    );
    let mut out = vec![
        format!(
            "settings {} {} {} {} {feature} {dist} {abs}",
            h.dim, h.branching, h.leaf_cap, h.max_leaves
        ),
        format!(
            "head {} {} {} {} {} {}",
            hex(h.threshold),
            h.rebuilds,
            h.merged,
            h.nodes,
            h.entries,
            h.root
        ),
    ];
    out.extend(tree.nodes.iter().enumerate().map(|(i, n)| node_text(i, n)));
    out.extend(
        tree.entries
            .iter()
            .enumerate()
            .map(|(i, e)| format!("entry {i} {}", summary_text(e))),
    );
    out
}

fn summary_from(layout: &Layout, words: &[&str]) -> Result<Vec<f64>, String> {
    let numbers: Vec<f64> = words.iter().map(|w| float(w)).collect::<Result<_, _>>()?;
    if numbers.len() != 1 + layout.dim + layout.deviations {
        return Err(format!("a summary has {} numbers", numbers.len()));
    }
    Ok(numbers)
}

fn small(word: &str) -> Result<u32, String> {
    u32::try_from(number(word)?).map_err(|_| format!("no link holds {word}"))
}

fn node_from(layout: &Layout, words: &[&str]) -> Result<Node, String> {
    let colon = words.iter().position(|w| *w == ":").filter(|at| *at >= 5);
    let colon = colon.ok_or("a node is `node NUMBER PARENT KIND LENGTH LIST : SUMMARY`")?;
    let node = Node {
        parent: if words[2] == "-" {
            None
        } else {
            Some(small(words[2])?)
        },
        leaf: match words[3] {
            "leaf" => true,
            "inner" => false,
            other => return Err(format!("no such kind: {other}")),
        },
        length: small(words[4])?,
        list: words[5..colon]
            .iter()
            .map(|w| small(w))
            .collect::<Result<_, _>>()?,
        summary: summary_from(layout, &words[colon + 1..])?,
    };
    if node.list.len() != (node.length as usize).min(layout.places) {
        return Err("a list's length is not that of its numbers".into());
    }
    if node.length >= 1 << 31 {
        return Err(format!("no link holds a length of {}", node.length));
    }
    Ok(node)
}

/// The head, the layout and the tree of a loaded text.
pub fn state_from(lines: &[String]) -> Result<(Head, Layout, Plain), String> {
    let first: Vec<&str> = lines
        .first()
        .ok_or("load without settings")?
        .split(' ')
        .collect();
    if first[0] != "settings" {
        return Err("a loaded state begins with `settings`".into());
    }
    let mut h = settings_from(&first[1..])?;
    let head: Vec<&str> = lines.get(1).map_or(Vec::new(), |l| l.split(' ').collect());
    let ["head", threshold, rebuilds, merged, nodes, entries, root] = head[..] else {
        return Err("a head is `head THRESHOLD REBUILDS MERGED NODES ENTRIES ROOT`".into());
    };
    h.threshold = float(threshold)?;
    (h.rebuilds, h.merged) = (number(rebuilds)?, number(merged)?);
    (h.nodes, h.entries, h.root) = (number(nodes)?, number(entries)?, number(root)?);
    let layout = Layout::of(&h).ok_or("a loaded tree is past all memory")?;
    let mut tree = Plain {
        nodes: Vec::new(),
        entries: Vec::new(),
    };
    for line in &lines[2..] {
        let words: Vec<&str> = line.split(' ').collect();
        let at = words
            .get(1)
            .map_or(Err("no number".to_string()), |w| number(w))? as usize;
        match words[0] {
            "node" if at == tree.nodes.len() => tree.nodes.push(node_from(&layout, &words)?),
            "entry" if at == tree.entries.len() => {
                tree.entries.push(summary_from(&layout, &words[2..])?)
            }
            _ => return Err(format!("not the next node or entry: {line}")),
        }
    }
    Ok((h, layout, tree))
}
