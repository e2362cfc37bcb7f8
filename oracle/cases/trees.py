"""Trees for the tree check, each on a line of 16-digit hex words that ends with the verdict of the second reading.

The words: dim, branching, leaf_cap, M, the node count, the entry count, the root and the merged total; how many
nodes and how many entries follow; of each node its weight, its parent word, its kind word, how many numbers of its
list follow, and those; the weights of the entries; the lowest condition that fails, or 0.
"""
import random

from second.check import failing
from second.text import state_from

from . import case
from .by_hand import by_hand, flat, windings
from .draw import word
from .hostile import NONE, hostile

LARGEST_M = 24


def line(lines):
    """The words of a loaded tree, and its verdict."""
    tree = state_from(lines)
    h = tree.settings
    nodes, entries = tree.nodes[: h.node_room], tree.entries[: h.most + 1]
    numbers = [h.dim, h.branching, h.leaf_cap, h.most, tree.node_count, tree.entry_count, tree.root, tree.merged]
    out = ["%016x" % n for n in numbers + [len(nodes), len(entries)]]
    for one in nodes:
        parent = NONE if one.parent is None else one.parent
        out += [word(one.summary.weight)]
        out += ["%016x" % n for n in [parent, 2 * one.length + one.leaf, len(one.list)] + one.list]
    out += [word(one.weight) for one in entries]
    verdict = failing(tree)
    return verdict, " ".join(out + ["%016x" % verdict])


def loads(kind, seed, number):
    """The loaded trees of a case, with what the generator knows of them."""
    commands = case(kind, seed, number)
    for at, command in enumerate(commands):
        if command.text.startswith("load\n"):
            known = [c.expect for c in commands[at + 1 :] if c.text == "validate"][:1]
            yield command.text.split("\n")[1:-1], known


def drawn(seed, kind, count):
    """Trees of a kind that loads one, M at most 24."""
    number = 0
    while count:
        for lines, known in loads(kind, seed, number):
            if count and int(lines[0].split(" ")[4]) <= LARGEST_M:
                count -= 1
                yield lines, known
        number += 1


def lined(tree):
    return line(tree.text().split("\n")[1:-1])


def made(seed, count):
    """The trees made by hand, then those drawn, a quarter of each kind: names of what a tree is, its verdict and its line."""
    for tree in flat(by_hand()):
        yield ["by hand"], *lined(tree)
    for tree in windings():
        yield ["by hand", "winding"], *lined(tree)
    for kind in ["loaded", "damaged", "small"]:
        for lines, known in drawn(seed, kind, count // 4):
            verdict, text = line(lines)
            if known and known[0] != ("ok" if verdict == 0 else f"refused 3 {verdict}"):
                raise ValueError(f"the generator knows {known[0]}, the second reading says {verdict}")
            yield [kind], verdict, text
    for number in range(count // 4):
        tree, names = hostile(random.Random(f"{seed}/hostile/{number}"))
        yield ["hostile", *names], *lined(tree)
