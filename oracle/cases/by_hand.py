"""Trees for the tree check made by hand: at each condition's edge, and hard on whoever follows their links."""
import copy
import math
import random

from .draw import Settings, TOP
from .hostile import NONE, ORDERS
from .plain import Node, Tree, numbered


def grown(h, fanout, weights):
    """A passing tree: leaves over the entries in order, levels over levels, `fanout` a list; the root is node 0."""
    tree = Tree(h, 0.0)
    tree.entries = [[w, [0.0] * (h.dim + h.devs)] for w in weights]
    order = list(range(len(weights)))
    level = [Node(None, True, order[i : i + h.leaf_cap]) for i in range(0, max(len(order), 1), h.leaf_cap)]
    levels = [level]
    while len(levels[0]) > 1:
        below = levels[0]
        levels.insert(0, [Node(None, False, below[i : i + fanout]) for i in range(0, len(below), fanout)])
    tree.nodes = [node for row in levels for node in row]
    number = {id(node): at for at, node in enumerate(tree.nodes)}
    for node in tree.nodes:
        node.numbers = [0.0] * (h.dim + h.devs)
        if not node.leaf:
            for below in node.list:
                below.parent = number[id(node)]
            node.list = [number[id(below)] for below in node.list]
    tree.sum_weights()
    return tree


def plain(most=8, count=6, weights=None, branching=2):
    """Levels of 1, 2 and 3 nodes over six entries."""
    h = Settings(1, branching, 2, most, "spherical", "euclidean", "euclidean")
    return grown(h, 2, weights or [float(i + 1) for i in range(count)])


def edited(change, tree=None):
    tree = tree or plain()
    change(tree)
    return tree


def roomy(*changes):
    """The plain tree with room for one more in each list of nodes."""
    return edited(many(*changes), plain(branching=3))


def set_to(name, value):
    return lambda tree: setattr(tree, name, value)


def node(at, name, value):
    return lambda tree: setattr(tree.nodes[at], name, value)


def entry(at, weight, sums=False):
    def change(tree):
        tree.entries[at][0] = weight
        if sums:
            tree.sum_weights()
    return change


def many(*changes):
    def change(tree):
        for one in changes:
            one(tree)
    return change


def added(parent, leaf, items, into=None):
    """A node more, named by the list `into`."""
    def change(tree):
        fresh = Node(parent, leaf, items)
        fresh.numbers = [0.0] * (tree.settings.dim + tree.settings.devs)
        fresh.weight = 1.0
        if into is not None:
            tree.nodes[into].list.append(len(tree.nodes))
        tree.nodes.append(fresh)
    return change


def ring(size, into=None, hung=False):
    """Nodes more that list and name one another in a ring. The list `into` names the first, which names its node if `hung`."""
    def change(tree):
        first = len(tree.nodes)
        for i in range(size):
            added(first + (i - 1) % size, False, [first + (i + 1) % size])(tree)
        if into is not None:
            tree.nodes[into].list.append(first)
        if hung:
            tree.nodes[first].parent = into
    return change


def chain(length):
    """Node i under node i − 1, and a leaf at the end."""
    tree = plain(most=24, count=1)
    leaf = tree.nodes[0]
    tree.nodes = []
    for at in range(length):
        tree.nodes.append(Node(at - 1 if at else None, False, [at + 1]))
        tree.nodes[-1].numbers, tree.nodes[-1].weight = list(leaf.numbers), leaf.weight
    leaf.parent = length - 1 if length else None
    tree.nodes.append(leaf)
    return tree


def stairs(levels):
    """Level k has k + 1 nodes: the first of each has two children, the others one."""
    h = Settings(1, 2, 1, 24, "spherical", "euclidean", "euclidean")
    tree = grown(h, 2, [float(i + 1) for i in range(levels)])
    tree.nodes, start = [], 0
    for k in range(levels):
        last, below = k == levels - 1, start + k + 1
        for i in range(k + 1):
            items = [i] if last else [below, below + 1] if i == 0 else [below + i + 1]
            fresh = Node(None if k == 0 else start - k + max(i - 1, 0), last, items)
            fresh.numbers = [0.0] * (h.dim + h.devs)
            tree.nodes.append(fresh)
        start = below
    tree.root = 0
    tree.sum_weights()
    return tree


def empty(*changes):
    return edited(many(*changes), grown(Settings(1, 2, 2, 8, "spherical", "euclidean", "euclidean"), 2, []))


def totals(most_rows):
    """Six entries whose weights add up to a number."""
    return plain(weights=[float(most_rows - 5)] + [1.0] * 5)


# In the plain tree node 0 is the root over 1 and 2; 1 is over the leaves 3 and 4, 2 over 5; 3 lists 0, 1, and so on.
def by_hand():
    yield plain()
    yield empty()
    yield plain(most=1, count=1)
    yield stairs(1), stairs(2), stairs(3), stairs(6)
    # 1: counts
    yield tuple(edited(counted(nodes=k)) for k in [0, 45, 46, 2**32, 2**64 - 1])
    yield tuple(edited(counted(entries=k)) for k in [8, 9, 2**64 - 1])
    yield plain(most=6), edited(counted(entries=7), plain(most=6))
    # 2: the root
    yield edited(set_to("root", 6)), edited(set_to("root", 2**64 - 1)), edited(set_to("root", NONE))
    yield tuple(edited(node(0, "parent", p)) for p in [0, 5, NONE - 1])
    yield edited(set_to("root", 3))
    # 3: lists
    yield edited(node(3, "list", [0, 1, 2])), edited(node(1, "list", [3, 4, 5]))
    yield edited(many(node(3, "list", [0, 1, 2]), node(3, "length", 2**31 - 1)))
    yield edited(node(3, "list", [0, 6])), edited(node(1, "list", [3, 6]))
    yield edited(node(3, "list", [0, NONE])), edited(node(1, "list", [NONE, 4]))
    # 4: an entry under two leaves, twice in one, in none
    yield edited(node(3, "list", [0, 2])), edited(node(3, "list", [0, 0])), edited(node(3, "list", [0]))
    # a node under two parents, twice in one list, in none; the root in a list
    yield edited(node(2, "list", [5, 4])), edited(node(1, "list", [3, 3]))
    yield edited(node(1, "list", [3])), edited(node(2, "list", [5, 0]))
    # a parent that is not the lister, is a leaf, is none, is no node
    yield tuple(edited(node(5, "parent", p)) for p in [1, 0, 5, 3, None, 6, NONE - 1])
    yield edited(node(2, "list", [2])), edited(many(node(2, "list", [2]), node(2, "parent", 2)))
    # nodes off the root: a leaf of its own, a ring of two, a ring of one
    yield edited(added(None, True, [0])), edited(many(added(7, False, [7]), added(6, False, [6])))
    yield edited(added(6, False, [6]))
    yield edited(many(set_to("root", 1), node(1, "parent", None)))
    # 5: empty lists
    yield edited(added(2, True, [], 2)), edited(added(2, False, [], 2)), empty(node(0, "leaf", False))
    yield empty(node(0, "leaf", False), node(0, "weight", 1.0))
    # 6: a leaf that is deeper, one that is not so deep, a level as wide as the one above it
    yield chain(0), chain(1), chain(2), chain(20)
    yield edited(many(node(2, "list", [5]), uneven))
    yield edited(shallow)
    yield edited(level_as_wide)
    # 7: weights
    odd = [0.0, -0.0, 1.5, -1.0, math.nan, math.inf, -math.inf, TOP + 2.0, 4.0]
    yield tuple(edited(entry(2, w)) for w in odd)
    yield tuple(edited(entry(2, w, True)) for w in [4.0, 1000.0])
    odd = [0.0, 1.0, 7.5, 20.0, 22.0, math.nan, math.inf, TOP + 2.0]
    yield tuple(edited(node(at, "weight", w)) for at in [0, 2, 4] for w in odd)
    yield totals(TOP - 1), totals(TOP), totals(TOP + 2), totals(TOP + 6)
    yield tuple(empty(node(0, "weight", w)) for w in [-0.0, 1.0, math.nan, -1.0, 5e-324])
    # 8: the merged total
    yield tuple(edited(set_to("merged", m)) for m in [7, 8, 9, 2**64 - 1])
    yield edited(many(set_to("merged", 8), node(4, "weight", 1.0))), edited(many(set_to("merged", 8), entry(0, 1.5)))
    yield edited(many(node(4, "weight", 1.0), level_as_wide))


# Where a walk along the links goes wrong, and what it has to find its way through; the numbers are those of the plain tree.
def winding():
    yield plain(), stairs(3), stairs(6), grown(Settings(8, 3, 2, 24, "diagonal", "inter", "radius"), 3, [2.0] * 24)
    # rings beside the tree, in the root's list and in another
    yield tuple(edited(ring(size)) for size in [1, 2, 9])
    yield tuple(roomy(ring(size, into, hung)) for size in [1, 9] for into in [0, 2] for hung in [False, True])
    # a node beneath itself, by its own list or by that of a node beneath it: what leads to the root is a tree
    yield edited(many(node(0, "list", [1]), node(2, "list", [2, 5]), node(2, "parent", 2)))
    yield edited(many(uneven, node(0, "list", [1]), node(6, "list", [5, 2]), node(2, "parent", 6)))
    # lists that name their own node, the root, a node twice, a node of another list
    yield tuple(edited(node(2, "list", items)) for items in [[2, 5], [5, 2], [5, 0], [0, 5], [5, 5], [3, 5], [5, 1]])
    yield tuple(roomy(node(0, "list", items)) for items in [[0, 1, 2], [1, 2, 0], [1, 1, 2], [1, 2, 1], [1, 2, 2], [1, 2, 5]])
    # a parent that is another node, no node, past the last; one further up, from the last list; two that are exchanged
    yield tuple(edited(node(at, "parent", p)) for at in [1, 5] for p in [4, None, 6, NONE - 1])
    yield edited(node(5, "parent", 0)), tuple(edited(node(9, "parent", p), stairs(4)) for p in [2, 0])
    yield edited(many(node(1, "parent", 2), node(2, "parent", 1))), edited(many(node(3, "parent", 2), node(5, "parent", 1)))
    # a parent that does not list its child, which another node lists, or none
    yield edited(node(1, "list", [4])), edited(many(node(1, "list", [4]), node(2, "list", [3, 5]))), edited(node(2, "list", []))
    # one node a level, leaves at two depths, a level as wide as the one above it
    yield chain(1), chain(2), chain(25), edited(uneven), edited(shallow), roomy(leaf_above), edited(level_as_wide)
    # inner nodes that list nothing, alone and beside a lie in the links
    empty_inner = added(2, False, [], 2)
    yield edited(empty_inner), edited(many(empty_inner, node(6, "parent", 1)))
    yield edited(many(empty_inner, node(3, "parent", 2))), edited(many(empty_inner, ring(2)))


def windings():
    """Each of these in four numberings, and the largest."""
    for at, tree in enumerate(flat(winding())):
        for order in ORDERS.values():
            one = copy.deepcopy(tree)
            numbered(one, order(random.Random(at), len(one.nodes)))
            yield one
    yield from (stairs(24), chain(324), edited(ring(39)), roomy(ring(39, 0, True)))


def counted(nodes=None, entries=None):
    """Counts that the head claims, with something in each slot that there is."""
    def change(tree):
        h = tree.settings
        while nodes is not None and len(tree.nodes) < min(nodes, h.node_room):
            added(None, True, [0])(tree)
        while entries is not None and len(tree.entries) < min(entries, h.most + 1):
            tree.entries.append([1.0, list(tree.entries[0][1])])
        tree.node_count, tree.entry_count = nodes, entries
    return change


def uneven(tree):
    """Leaf 5 goes one deeper."""
    added(2, False, [5])(tree)
    tree.nodes[6].weight = tree.nodes[5].weight
    tree.nodes[5].parent = 6
    tree.nodes[2].list = [6]


def shallow(tree):
    """Leaf 5 goes directly under the root, in place of node 2, and node 2 under node 1."""
    tree.nodes[2].list, tree.nodes[2].parent = [4], 1
    tree.nodes[4].parent = 2
    tree.nodes[1].list = [3, 2]
    tree.nodes[0].list = [1, 5]
    tree.nodes[5].parent = 0
    tree.sum_weights()


def leaf_above(tree):
    """Node 1 a leaf, and the three others under node 2: levels of 1, 2 and 3 nodes."""
    tree.entries.append([1.0, list(tree.entries[0][1])])
    tree.nodes[1].leaf, tree.nodes[1].list = True, [6]
    tree.nodes[2].list = [3, 4, 5]
    tree.nodes[3].parent = tree.nodes[4].parent = 2
    tree.sum_weights()


def level_as_wide(tree):
    """Node 1 keeps leaf 3 alone; leaf 4 lends its entries to it and goes."""
    tree.entries = tree.entries[:2] + tree.entries[4:]
    tree.nodes = tree.nodes[:4] + tree.nodes[5:]
    tree.nodes[1].list, tree.nodes[2].list = [3], [4]
    tree.nodes[4].list = [2, 3]
    tree.sum_weights()


def flat(made):
    for one in made:
        if isinstance(one, tuple):
            yield from flat(one)
        else:
            yield one
