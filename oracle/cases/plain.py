"""Trees as plain data, drawn so that they pass the tree check, and their text for `load`."""
import math

from .draw import EDGES, TOP, word


class Node:
    def __init__(self, parent, leaf, items):
        self.parent, self.leaf, self.list = parent, leaf, items
        self.length = None
        self.weight, self.numbers = 0.0, []


class Tree:
    """Entries are [weight, numbers]; counts of None are those of the lists."""

    def __init__(self, settings, threshold):
        self.settings, self.threshold = settings, threshold
        self.rebuilds = self.merged = self.root = 0
        self.nodes, self.entries = [], []
        self.node_count = self.entry_count = None

    def text(self):
        nodes = len(self.nodes) if self.node_count is None else self.node_count
        entries = len(self.entries) if self.entry_count is None else self.entry_count
        lines = ["load", f"settings {self.settings.text()}",
                 f"head {word(self.threshold)} {self.rebuilds} {self.merged} {nodes} {entries} {self.root}"]
        for at, node in enumerate(self.nodes):
            parent = "-" if node.parent is None else node.parent
            length = len(node.list) if node.length is None else node.length
            items = "".join(f"{i} " for i in node.list[: self.settings.places])
            numbers = " ".join(word(x) for x in [node.weight] + node.numbers)
            kind = "leaf" if node.leaf else "inner"
            lines.append(f"node {at} {parent} {kind} {length} {items}: {numbers}")
        for at, (weight, numbers) in enumerate(self.entries):
            lines.append(f"entry {at} " + " ".join(word(x) for x in [weight] + numbers))
        return "\n".join(lines + ["end"])

    def leaves(self):
        return [at for at, node in enumerate(self.nodes) if node.leaf]

    def inners(self):
        return [at for at, node in enumerate(self.nodes) if not node.leaf]

    def sum_weights(self):
        """Each node's weight from the entries beneath it."""
        def beneath(at):
            node = self.nodes[at]
            if node.leaf:
                total = sum(int(self.entries[e][0]) for e in node.list)
            else:
                total = sum(beneath(child) for child in node.list)
            node.weight = float(total)
            return total
        return beneath(self.root)


def numbers(draw, settings, kind):
    """Means and deviations: grid points, ordinary ones, negative deviations, any floats."""
    count = settings.dim + settings.devs
    if kind == "grid":
        return [float(draw.randint(-3, 3)) for _ in range(settings.dim)] + \
            [float(draw.randint(0, 3)) for _ in range(settings.devs)]
    if kind == "ordinary":
        return [draw.gauss(0, 10) for _ in range(settings.dim)] + \
            [abs(draw.gauss(0, 5)) for _ in range(settings.devs)]
    if kind == "negative":
        return [float(draw.randint(-2, 2)) for _ in range(settings.dim)] + \
            [-draw.choice([0.0, 1.0, 40.0, 41.0, 1e9]) for _ in range(settings.devs)]
    if kind == "any":
        return [draw.choice(EDGES) if draw.random() < 0.6 else draw.uniform(-9, 9)
                for _ in range(count)]
    return [draw.choice([-1, 1]) * 10.0 ** draw.uniform(-320, 308) for _ in range(count)]


def entry_weights(draw, count, kind):
    """Whole weights: small, or with a total up to 2^53."""
    if kind == "small":
        return [float(draw.randint(1, 5)) for _ in range(count)]
    left = TOP - count - (0 if draw.random() < 0.5 else draw.randint(0, 40))
    out = []
    for i in range(count):
        last = i == count - 1 and draw.random() < 0.7
        more = left if last else draw.randint(0, left) >> draw.randint(0, 50)
        left -= more
        out.append(float(1 + more))
    draw.shuffle(out)
    return out


def parted(draw, items, groups, cap):
    """The items in so many lists, each with 1 to `cap`."""
    sizes = [1] * groups
    for _ in range(len(items) - groups):
        sizes[draw.choice([i for i, n in enumerate(sizes) if n < cap])] += 1
    out, at = [], 0
    for size in sizes:
        out.append(items[at : at + size])
        at += size
    return out


def passing(draw, settings, limit, floats=None):
    """A tree that passes the tree check: any shape, numbering and floats that it allows."""
    tree = Tree(settings, limit)
    kind = floats or draw.choice(["grid", "ordinary", "any", "wide"])
    count = draw.choice([settings.most, draw.randint(0, settings.most), draw.randint(1, settings.most)])
    weights = entry_weights(draw, count, draw.choice(["small", "small", "large"]))
    tree.entries = [[w, numbers(draw, settings, kind)] for w in weights]
    shape(draw, tree, count)
    renumber(draw, tree)
    for node in tree.nodes:
        node.numbers = numbers(draw, settings, kind)
    if count == 0:
        tree.nodes[0].weight = draw.choice([0.0, -0.0])
    else:
        tree.sum_weights()
    tree.rebuilds = draw.choice([0, 1, draw.randint(0, 2**40), 2**32 - 1, 2**63, 2**64 - 2, 2**64 - 1])
    tree.merged = draw.choice([0, settings.most - 1, draw.randint(0, settings.most - 1)])
    return tree


def shape(draw, tree, count):
    """Leaves over the entries, then levels over levels, each with fewer nodes."""
    h = tree.settings
    order = list(range(count))
    draw.shuffle(order)
    if count == 0:
        tree.nodes = [Node(None, True, [])]
        return
    least = math.ceil(count / h.leaf_cap)
    leaves = draw.choice([least, count, draw.randint(least, count)])
    tree.nodes = [Node(None, True, part) for part in parted(draw, order, leaves, h.leaf_cap)]
    level = list(range(leaves))
    while len(level) > 1:
        least = math.ceil(len(level) / h.branching)
        above = draw.choice([least, len(level) - 1, draw.randint(least, len(level) - 1)])
        draw.shuffle(level)
        upper = []
        for part in parted(draw, level, above, h.branching):
            upper.append(len(tree.nodes))
            for child in part:
                tree.nodes[child].parent = len(tree.nodes)
            tree.nodes.append(Node(None, False, part))
        level = upper
    tree.root = level[0]


def renumber(draw, tree):
    """Nodes in any order, the root at any number."""
    new = list(range(len(tree.nodes)))
    draw.shuffle(new)
    numbered(tree, new)


def numbered(tree, new):
    """Node i becomes node new[i]; a number that is no node's stays."""
    def to(number):
        return new[number] if number is not None and number < len(new) else number
    nodes = [None] * len(new)
    for old, node in enumerate(tree.nodes):
        node.parent = to(node.parent)
        if not node.leaf:
            node.list = [to(c) for c in node.list]
        nodes[new[old]] = node
    tree.nodes, tree.root = nodes, to(tree.root)
