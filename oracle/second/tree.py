"""Document 01, Tree steps: descent, the search in a leaf, insert and split."""
from .distances import between, point
from .floats import INFINITY
from .summaries import empty, folded, merge, merged_in_order, push
from .wrong import wrong


class Settings:
    """Sizes and choices of the head; `feature`, `dist` and `abs` are names, or numbers if unknown."""

    def __init__(self, dim, branching, leaf_cap, most, feature, dist, absorb):
        self.dim = dim
        self.branching = branching
        self.leaf_cap = leaf_cap
        self.most = most
        self.feature = feature
        self.dist = dist
        self.abs = absorb

    @property
    def diagonal(self):
        return self.feature == "diagonal"

    @property
    def node_room(self):
        return (self.most + 1) * (self.most + 2) // 2

    @property
    def places(self):
        """Places in a node's list, with the spare one."""
        return max(self.branching, self.leaf_cap) + 1


class Node:
    """The list holds entry numbers in a leaf, node numbers elsewhere; no parent is None."""

    __slots__ = ("parent", "leaf", "length", "list", "summary")

    def __init__(self, parent, leaf, items, summary, length=None):
        self.parent = parent
        self.leaf = leaf
        self.list = items
        self.length = len(items) if length is None else length
        self.summary = summary


class Tree:
    """The head's counters and the arenas. The counts can lie in a tree that was loaded."""

    def __init__(self, settings, threshold):
        self.settings = settings
        self.threshold = threshold
        self.rebuilds = 0
        self.merged = 0
        self.nodes = []
        self.entries = []
        self.clear()
        self.count()

    def clear(self):
        """A lone root leaf with no entries."""
        self.nodes = [Node(None, True, [], empty(self.settings))]
        self.entries = []
        self.root = 0

    def count(self):
        """The counts as the lists have them."""
        self.node_count = len(self.nodes)
        self.entry_count = len(self.entries)
        for node in self.nodes:
            node.length = len(node.list)

    def member(self, node, number):
        """The summary that a number in a node's list stands for."""
        return self.entries[number] if node.leaf else self.nodes[number].summary

    def members(self, node):
        return [self.member(node, i) for i in node.list]


def closest(numbers, distance):
    """The first, then any later one strictly closer: a NaN never wins after the first."""
    best = numbers[0]
    near = distance(best)
    for number in numbers[1:]:
        d = distance(number)
        if d < near or (wrong("descent_last_tie") and d == near) or \
                (wrong("descent_skips_nan") and near != near and d == d):
            best, near = number, d
    return best


def leaf_for(tree, distance):
    """Descent from the root; `distance` measures a node's summary."""
    at = tree.root
    for _ in tree.nodes:      # no tree that passes the check is deeper than its nodes
        if tree.nodes[at].leaf:
            return at
        at = closest(tree.nodes[at].list, lambda c: distance(tree.nodes[c].summary))
    raise RecursionError("a descent without end")


def by_dist(tree, row):
    h = tree.settings
    name = h.abs if wrong("descent_by_abs") else h.dist
    return lambda summary: point(h, name, summary, row)


def nearest_in_leaf(tree, leaf, row):
    """The search in a leaf starts from infinity: the nearest entry, or None if none was below."""
    h = tree.settings
    name = h.abs if wrong("search_by_abs") else h.dist
    numbers = tree.nodes[leaf].list
    if wrong("insert_from_first") and numbers:
        return closest(numbers, lambda e: point(h, name, tree.entries[e], row))
    best, near = None, INFINITY
    for number in numbers:
        d = point(h, name, tree.entries[number], row)
        if d < near:
            best, near = number, d
    return best


def within(tree, entry, row):
    """`abs` ≤ threshold absorbs, all else begins an entry."""
    d = point(tree.settings, tree.settings.abs, tree.entries[entry], row)
    if wrong("absorbs_strictly"):
        return d < tree.threshold
    if wrong("absorbs_nan"):
        return not d > tree.threshold
    return d <= tree.threshold


def absorbing(tree, leaf, row):
    """The entry that absorbs the row, or None: only the `dist` winner is tested."""
    if wrong("tests_every_entry"):
        fits = [e for e in tree.nodes[leaf].list if within(tree, e, row)]
        best = nearest_in_leaf(tree, leaf, row)
        return best if best in fits else fits[0] if fits else None
    best = nearest_in_leaf(tree, leaf, row)
    if best is None or not within(tree, best, row):
        return None
    return best


def path(tree, leaf):
    """The nodes from a leaf to the root."""
    at = leaf
    for _ in tree.nodes:
        yield tree.nodes[at]
        at = tree.nodes[at].parent
        if at is None:
            return
    raise RecursionError("a path without end")


def insert(tree, row):
    """One row, without the rebuild that may follow."""
    h = tree.settings
    leaf = leaf_for(tree, by_dist(tree, row))
    found = absorbing(tree, leaf, row) if wrong("pushed_after") else None
    for node in path(tree, leaf):
        node.summary = push(h, node.summary, row)
        if wrong("path_not_pushed_on_absorb") and absorbing(tree, leaf, row) is not None:
            break
    if not wrong("pushed_after"):
        found = absorbing(tree, leaf, row)
    if found is not None:
        tree.entries[found] = push(h, tree.entries[found], row)
    else:
        begin(tree, leaf, push(h, empty(h), row))
    split_up(tree, leaf)


def begin(tree, leaf, summary):
    """A new entry, last in its leaf's list."""
    tree.nodes[leaf].list.append(len(tree.entries))
    tree.entries.append(summary)


def split_up(tree, leaf):
    """Splits lists over their cap, from a leaf upwards; a parent that doesn't split keeps its own."""
    h = tree.settings
    at = leaf
    while True:
        node = tree.nodes[at]
        cap = h.leaf_cap if node.leaf else h.branching
        if wrong("splits_early"):
            cap = max(cap - 1, 1 if node.leaf else 2)
        if len(node.list) <= cap or (wrong("stops_at_leaf") and not node.leaf):
            if wrong("parent_refolded") and at != leaf:
                node.summary = merged_in_order(h, tree.members(node))
            return
        other = split(tree, at)
        for half in (at, other):
            halves = tree.members(tree.nodes[half])
            fold = folded if wrong("halves_by_halves") else merged_in_order
            tree.nodes[half].summary = fold(h, halves)
        if node.parent is None:
            new_root(tree, at, other)
            return
        above = tree.nodes[node.parent].list
        above.insert(above.index(at) + 1 if wrong("sibling_beside") else len(above), other)
        at = node.parent


def new_root(tree, one, other):
    h = tree.settings
    number = len(tree.nodes)
    root = Node(None, False, [one, other], None)
    root.summary = merged_in_order(h, [tree.nodes[one].summary, tree.nodes[other].summary])
    if wrong("root_not_folded"):
        root.summary = merge(h, tree.nodes[other].summary, tree.nodes[one].summary)
    tree.nodes.append(root)
    tree.nodes[one].parent = number
    tree.nodes[other].parent = number
    tree.root = number


def seeds(h, members):
    """The first pair with the strictly largest `dist`, starting from 0 with seeds 0 and 1."""
    first, second = 0, 1
    largest = -INFINITY if wrong("seeds_from_infinity") else 0.0
    for i in range(len(members)):
        for j in range(i + 1, len(members)):
            d = between(h, h.dist, members[i], members[j])
            if d > largest or (wrong("seeds_last_pair") and d == largest):
                first, second, largest = i, j, d
    return first, second


def to_first(h, member, one, two, left, right):
    """Strictly closer to the first seed, or equal and that group is not longer."""
    d1 = between(h, h.dist, member, one)
    d2 = between(h, h.dist, member, two)
    if wrong("ties_to_second"):
        return d1 < d2
    if wrong("ties_to_longer"):
        return d1 < d2 or (d1 == d2 and left >= right)
    if wrong("nan_tie_first"):
        return d1 < d2 or (not d2 < d1 and left <= right)
    return d1 < d2 or (d1 == d2 and left <= right)


def split(tree, at):
    """Parts a list in two; the second group becomes a new node, whose number is returned."""
    h = tree.settings
    node = tree.nodes[at]
    members = tree.members(node)
    one, two = seeds(h, members)
    left, right = [], []
    for i, number in enumerate(node.list):
        lengths = (len(left), len(right))
        if wrong("seeds_counted"):
            lengths = (len(left) + (i <= one), len(right) + (i <= two))
        if i == one:
            left.append(number)
        elif i == two:
            right.append(number)
        elif to_first(h, members[i], members[one], members[two], *lengths):
            left.append(number)
        else:
            right.append(number)
    if wrong("seeds_first"):
        left.sort(key=lambda number: number != node.list[one])
        right.sort(key=lambda number: number != node.list[two])
    if wrong("split_second_stays"):
        left, right = right, left
    other = len(tree.nodes)
    tree.nodes.append(Node(node.parent, node.leaf, right, None))
    node.list = left
    if not node.leaf:
        for child in right:
            tree.nodes[child].parent = other
    return other


def place(tree, leaf, summary):
    """An entry kept as its own: merged into the path, absorbed by none."""
    for node in path(tree, leaf):
        node.summary = merge(tree.settings, node.summary, summary)
    begin(tree, leaf, summary)
    split_up(tree, leaf)
