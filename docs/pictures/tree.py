"""One small tree and its words, as the second reading (oracle/second) works them out."""
import struct

from second.calls import Library
from second.lent import NONE, scratch
from second.tree import Settings
from svg import EDGE, ENTRY, GREY, LINE, USED, ZERO, Picture


def small_tree():
    """The tree of rows 0, 1 and 10, with every lent word."""
    library = Library()
    library.track()
    library.create(Settings(1, 2, 2, 3, "spherical", "euclidean", "euclidean"), 0.0)
    for row in 0.0, 1.0, 10.0:
        library.insert([row], True)
    return library


def decimal(word):
    return repr(struct.unpack(">d", struct.pack(">Q", word))[0])


def box(p, x, y, title, summary, fill):
    """A node or an entry with its summary; x is its middle."""
    p.rect(x - 95, y, 190, 74, fill, EDGE, 6)
    p.text(x, y + 18, title, 12, "middle", bold=True)
    for k, (name, value) in enumerate(zip(("weight", "mean", "deviation"), summary.numbers())):
        p.text(x, y + 35 + 15 * k, f"{name} {value!r}", 11, "middle")


def titled(tree, kind, at):
    if kind == "entry":
        return f"entry {at}"
    return f"node {at}, " + ("leaf" if tree.nodes[at].leaf else "inner") + (", root" if at == tree.root else "")


def tree_part(p, tree, y):
    """Levels from the root down, then the entries; a parent stands over the middle of its list."""
    levels = [[tree.root]]
    while not tree.nodes[levels[-1][0]].leaf:
        levels.append([child for at in levels[-1] for child in tree.nodes[at].list])
    order = [entry for at in levels[-1] for entry in tree.nodes[at].list]
    place = {("entry", entry): 120 + 204 * k for k, entry in enumerate(order)}
    for level in reversed(levels):
        for at in level:
            node = tree.nodes[at]
            below = [place["entry" if node.leaf else "node", child] for child in node.list]
            place["node", at] = sum(below) // len(below)
    high = {("node", at): y + 116 * k for k, level in enumerate(levels) for at in level}
    high.update({("entry", entry): y + 116 * len(levels) for entry in order})
    for at, node in enumerate(tree.nodes):
        for child in node.list:
            key = ("entry" if node.leaf else "node", child)
            p.line((place["node", at], high["node", at] + 74), (place[key], high[key]))
    for (kind, at), x in place.items():
        summary = tree.entries[at] if kind == "entry" else tree.nodes[at].summary
        box(p, x, high[kind, at], titled(tree, kind, at), summary, ENTRY if kind == "entry" else USED)


def head_words(p, tree, y):
    h = tree.settings
    for k, words in enumerate([
        f"dim {h.dim}   branching {h.branching}   leaf_cap {h.leaf_cap}   max_leaves {h.most}",
        f"feature {h.feature}   dist {h.dist}   abs {h.abs}",
        f"nodes {tree.node_count}   entries {tree.entry_count}   root {tree.root}   threshold {tree.threshold!r}   "
        f"rebuilds {tree.rebuilds}   merged {tree.merged}",
    ]):
        p.text(24, y + 18 * k, words, 12, mono=True)


def rows_of(words, width, used):
    """Each used stretch of so many words, and runs of the others between them, which are zero: first number, words, which stretch."""
    slots = [words[at:at + width] for at in range(0, len(words), width)]
    at = 0
    while at < len(slots):
        end = at + 1
        while at not in used and end < len(slots) and end not in used:
            end += 1
        run = sum(slots[at:end], [])
        if at not in used and any(run):
            raise ValueError(f"words {at * width} to {end * width - 1} are not zero")
        yield at * width, run, at if at in used else None
        at = end


def zero_row(p, x, y, first, run, wide, what):
    p.text(x, y + 20, f"{first} to {first + len(run) - 1}", 12, mono=True)
    p.rect(x + 170, y, wide, 30, ZERO, LINE, 0, "3 3")
    p.text(x + 170 + wide / 2, y + 19, f"zero: {what}", 12, "middle")


def float_words(p, library, x, y):
    """A line a slot: decimals and bits."""
    tree, room = library.tree, library.tree.settings.node_room
    used = {at: f"node {at}" for at in range(tree.node_count)} | {room + at: f"entry {at}" for at in range(tree.entry_count)}
    p.text(x, y, "floats", 14, bold=True, mono=True)
    for k, words in enumerate(["weight", "mean", "deviation"]):
        p.text(x + 170 + 75 + 150 * k, y, words, 11, "middle", fill=GREY)
    y += 8
    for first, run, slot in rows_of(library.buffers["floats"].words, 3, used):
        if slot is None:
            slots = len(run) // 3
            zero_row(p, x, y, first, run, 450, f"{slots} slot{'s' if slots > 1 else ''} of {'nodes' if first < 3 * room else 'entries'} to come")
        else:
            p.text(x, y + 20, f"{first} to {first + 2}", 12, mono=True)
            p.text(x + 92, y + 20, used[slot], 12, bold=True)
            for k, word in enumerate(run):
                p.rect(x + 170 + 150 * k, y, 150, 32, USED if slot < room else ENTRY)
                p.text(x + 245 + 150 * k, y + 13, decimal(word), 11, "middle")
                p.text(x + 245 + 150 * k, y + 27, f"{word:016x}", 11, "middle", mono=True)
        y += 36
    return y


def link_words(p, library, x, y):
    """A line a block."""
    tree = library.tree
    names = ["parent", "kind", "list", "", "spare"]
    p.text(x, y, "links", 14, bold=True, mono=True)
    for k, words in enumerate(names):
        p.text(x + 170 + 45 + 90 * k, y, words, 11, "middle", fill=GREY)
    y += 8
    for first, run, slot in rows_of(library.buffers["links"].words, len(names), range(tree.node_count)):
        if slot is None:
            zero_row(p, x, y, first, run, 450, f"{len(run) // len(names)} blocks of nodes to come")
        else:
            node = tree.nodes[slot]
            p.text(x, y + 20, f"{first} to {first + len(run) - 1}", 12, mono=True)
            p.text(x + 92, y + 20, f"node {slot}", 12, bold=True)
            for k, word in enumerate(run):
                p.rect(x + 170 + 90 * k, y, 90, 30, USED if k < 2 + node.length else ZERO, LINE, 0, "" if k < 2 + node.length else "3 3")
                p.text(x + 215 + 90 * k, y + 19, word, 12, "middle", mono=True)
        y += 34
    return y


def notes(library):
    """How the words of the links read, by those of this tree."""
    tree, step = library.tree, 2 + library.tree.settings.places
    kinds = library.buffers["links"].words[1::step]
    read = [f"{kinds[at]} is {'a leaf' if node.leaf else 'an inner node'} with {len(node.list)}" for at, node in enumerate(tree.nodes)]
    yield f"A parent of {NONE} is none: the root. A kind word is twice the list's length, and one"
    yield f"more for a leaf: {', '.join(read)}."
    yield f"The third row took leaf 0 over its cap of {tree.settings.leaf_cap}; the split left it entries {' and '.join(map(str, tree.nodes[0].list))}."


def picture():
    library = small_tree()
    tree = library.tree
    needs = {name: len(library.buffers[name].words) for name in ("floats", "links")} | scratch(tree.settings, "insert")
    said = "; ".join(f"node {at} lists {node.list}, weight {node.summary.weight:.0f}" for at, node in enumerate(tree.nodes))
    p = Picture(1320, 610, "One small tree and its words",
                f"The tree of rows 0, 1 and 10: {said}; root {tree.root}. Beside it each word of floats and links.")
    p.text(24, 56, f"Rows 0, 1 and 10 in a tree of M 3. Lent were {needs['floats']} floats, {needs['links']} links, and scratch of "
           f"{needs['scratch_floats']} floats and {needs['scratch_links']} links, which is zero again.", 12, fill=GREY)
    tree_part(p, tree, 84)
    p.text(24, 444, "head", 14, bold=True, mono=True)
    head_words(p, tree, 466)
    for k, words in enumerate(notes(library)):
        p.text(24, 536 + 17 * k, words, 12, fill=GREY)
    y = float_words(p, library, 670, 92)
    link_words(p, library, 670, y + 30)
    return p
