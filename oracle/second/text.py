"""The text of a whole tree: `state` prints it and `load` reads the same."""
from .floats import unword, word
from .summaries import Summary, devs_of
from .tree import Node, Settings, Tree


def decimal(text):
    if not text.isdigit() or not text.isascii() or (text[0] == "0" and text != "0"):
        raise ValueError(f"not a decimal number: {text}")
    return int(text)


def choice(text, names):
    """A name, or a number for a choice that has none."""
    return text if text in names else decimal(text)


def settings_from(words):
    from .check import FEATURES
    from .distances import NAMES
    if len(words) != 7:
        raise ValueError("settings are DIM BRANCHING LEAF_CAP M FEATURE DIST ABS")
    sizes = [decimal(w) for w in words[:4]]
    return Settings(*sizes, choice(words[4], FEATURES), choice(words[5], NAMES),
                    choice(words[6], NAMES))


def settings_text(h):
    return f"{h.dim} {h.branching} {h.leaf_cap} {h.most} {h.feature} {h.dist} {h.abs}"


def summary_text(summary):
    return " ".join(word(x) for x in summary.numbers())


def summary_from(h, words):
    numbers = [unword(w) for w in words]
    if len(numbers) != 1 + h.dim + devs_of(h):
        raise ValueError(f"a summary has {len(numbers)} numbers")
    return Summary(numbers[0], numbers[1 : h.dim + 1], numbers[h.dim + 1 :])


def node_text(at, node):
    parent = "-" if node.parent is None else node.parent
    kind = "leaf" if node.leaf else "inner"
    items = "".join(f"{i} " for i in node.list)
    return f"node {at} {parent} {kind} {node.length} {items}: {summary_text(node.summary)}"


def node_from(h, words):
    if ":" not in words[5:]:
        raise ValueError("a node is `node NUMBER PARENT KIND LENGTH LIST : SUMMARY`")
    colon = words.index(":")
    parent = None if words[2] == "-" else decimal(words[2])
    if words[3] not in ("leaf", "inner"):
        raise ValueError(f"no such kind: {words[3]}")
    length = decimal(words[4])
    items = [decimal(w) for w in words[5:colon]]
    if len(items) != min(length, h.places):
        raise ValueError("a list's length is not that of its numbers")
    return Node(parent, words[3] == "leaf", items, summary_from(h, words[colon + 1 :]), length)


def state_lines(tree):
    head = [word(tree.threshold), tree.rebuilds, tree.merged, tree.node_count, tree.entry_count,
            tree.root]
    lines = ["settings " + settings_text(tree.settings), "head " + " ".join(map(str, head))]
    lines += [node_text(i, n) for i, n in enumerate(tree.nodes[: tree.node_count])]
    lines += [f"entry {i} {summary_text(e)}" for i, e in enumerate(tree.entries[: tree.entry_count])]
    return lines


def state_from(lines):
    """Any numbers may stand in the text, but each slot below its count has its line."""
    if not lines or not lines[0].startswith("settings "):
        raise ValueError("a loaded state begins with `settings`")
    h = settings_from(lines[0].split(" ")[1:])
    head = lines[1].split(" ") if len(lines) > 1 else []
    if len(head) != 7 or head[0] != "head":
        raise ValueError("a head is `head THRESHOLD REBUILDS MERGED NODES ENTRIES ROOT`")
    tree = Tree(h, unword(head[1]))
    tree.rebuilds, tree.merged, nodes, entries, tree.root = map(decimal, head[2:])
    tree.nodes, tree.entries = [], []
    for line in lines[2:]:
        words = line.split(" ")
        if words[0] == "node" and decimal(words[1]) == len(tree.nodes):
            tree.nodes.append(node_from(h, words))
        elif words[0] == "entry" and decimal(words[1]) == len(tree.entries):
            tree.entries.append(summary_from(h, words[2:]))
        else:
            raise ValueError(f"not the next node or entry: {line}")
    if len(tree.nodes) < min(nodes, h.node_room) or len(tree.entries) < min(entries, h.most + 1):
        raise ValueError("a node or an entry below its count has no line")
    tree.node_count, tree.entry_count = nodes, entries
    return tree


def listing_lines(tree):
    """Document 01, Listing program: entry count, threshold, rebuilds, total weight; the entries."""
    total = int(tree.nodes[tree.root].summary.weight)
    lines = [f"{len(tree.entries)}\t{word(tree.threshold)}\t{tree.rebuilds}\t{total}"]
    for at, entry in enumerate(tree.entries):
        words = [word(x) for x in entry.means + entry.devs]
        lines.append("\t".join([str(at), str(int(entry.weight))] + words))
    return lines
