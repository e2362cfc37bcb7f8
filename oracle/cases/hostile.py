"""Trees that are hard on whoever follows their links: a passing tree of any size that a vector has, perhaps deepened, in one
of four numberings, and then perhaps a lie in its links. What the tree check has to say of them, the second reading knows."""
from . import damaged
from .damaged import filled
from .draw import settings, threshold
from .plain import Node, numbered, passing, renumber

NONE = 2**32 - 1

# What number node i of n gets, where numbers went level by level from the root.
ORDERS = {
    "root first": lambda draw, n: list(range(n)),
    "root last": lambda draw, n: [(i - 1) % n for i in range(n)],
    "reversed": lambda draw, n: list(range(n))[::-1],
    "shuffled": lambda draw, n: draw.sample(range(n), n),
}


def reached(tree, start):
    """Nodes from one down, level by level, each once."""
    out = [start]
    for at in out:
        if not tree.nodes[at].leaf:
            out += [c for c in tree.nodes[at].list if c not in out]
    return out


def by_level(tree):
    """Numbers level by level from the root."""
    new = [None] * len(tree.nodes)
    for number, old in enumerate(reached(tree, tree.root)):
        new[old] = number
    numbered(tree, new)


def below_root(tree):
    return [at for at in range(len(tree.nodes)) if at != tree.root]


def listers(tree):
    """Inner nodes whose list is not empty."""
    return [at for at in tree.inners() if tree.nodes[at].list]


def room(tree):
    return tree.settings.node_room - len(tree.nodes)


def added(draw, tree, parent, leaf, items):
    """The number of a new node."""
    tree.nodes.append(filled(draw, tree, Node(parent, leaf, items)))
    return len(tree.nodes) - 1


def put(draw, tree, at, number):
    """Into the list of a node, at any place; where the list is full, for another number."""
    items = tree.nodes[at].list
    if len(items) >= tree.settings.branching:
        items.pop(draw.randrange(len(items)))
    items.insert(draw.randint(0, len(items)), number)


def between(draw, tree, at):
    """An inner node between a node and its parent, or above the root."""
    node = tree.nodes[at]
    fresh = added(draw, tree, node.parent, False, [at])
    if at == tree.root:
        tree.root = fresh
    else:
        upper = tree.nodes[node.parent].list
        upper[upper.index(at)] = fresh
    node.parent = fresh


# Conditions 5 and 6: each node is still reached once.

def whole(draw, tree):
    pass


def chained(draw, tree):
    """One node a level, down to a leaf."""
    most = tree.settings.node_room
    levels = draw.choice([2, 3, draw.randint(2, most), most])
    tree.nodes, tree.entries, tree.root = [], tree.entries[:1], 0
    for at in range(levels):
        last = at == levels - 1
        added(draw, tree, at - 1 if at else None, last, [0 if last else at + 1])


def chain_above(draw, tree):
    for _ in range(draw.choice([1, draw.randint(1, room(tree))])):
        between(draw, tree, tree.root)


def deeper(draw, tree):
    """One leaf hangs deeper than the others."""
    at = draw.choice(tree.leaves())
    for _ in range(draw.choice([1, 2, draw.randint(1, room(tree))])):
        between(draw, tree, at)


def shallower(draw, tree):
    """A leaf goes up to a list with room, in a level above its parent's."""
    at = draw.choice(tree.leaves())
    upper = tree.nodes[at].parent
    ways = [i for i in tree.inners() if i != upper and len(tree.nodes[i].list) < tree.settings.branching]
    if not ways or len(tree.nodes[upper].list) < 2:
        return deeper(draw, tree)
    tree.nodes[upper].list.remove(at)
    tree.nodes[at].parent = draw.choice(ways)
    put(draw, tree, tree.nodes[at].parent, at)


def level_twice(draw, tree):
    """An inner node over every node that is as deep as some leaf or some inner node."""
    level = [tree.root]
    for _ in range(draw.randint(0, 23)):
        below = [c for at in level if not tree.nodes[at].leaf for c in tree.nodes[at].list]
        if below and len(below) <= room(tree):
            level = below
    for at in level:
        between(draw, tree, at)


def empty_list(draw, tree):
    """A new node that lists nothing, an inner one or a leaf; a lone inner root where no list has room."""
    roomy = [i for i in tree.inners() if len(tree.nodes[i].list) < tree.settings.branching]
    if not roomy:
        return damaged.lone_inner(draw, tree)
    at = draw.choice(roomy)
    put(draw, tree, at, added(draw, tree, at, draw.random() < 0.4, []))


# Condition 4: lies in the links.

def ring(draw, tree):
    """New inner nodes that list and name one another in a ring; the first of them."""
    first = len(tree.nodes)
    size = min(draw.choice([1, 2, 3, draw.randint(1, 40), room(tree)]), room(tree))
    for i in range(size):
        added(draw, tree, first + (i - 1) % size, False, [first + (i + 1) % size])
    return first


def ring_beside(draw, tree):
    if room(tree) == 0:
        return closed(draw, tree)
    ring(draw, tree)


def ring_listed(draw, tree):
    """A ring that hangs in the root's list or in another, its first node naming that list's node or the ring's last."""
    if room(tree) == 0:
        return closed(draw, tree)
    at = draw.choice([tree.root, draw.choice(tree.inners())])
    first = ring(draw, tree)
    put(draw, tree, at, first)
    if draw.random() < 0.5:
        tree.nodes[first].parent = at


def closed(draw, tree):
    """A node goes from its parent's list to that of a node beneath it, or to its own: they lead to one another."""
    ways = [at for at in tree.inners() if at != tree.root]
    if not ways:
        return own_list(draw, tree)
    at = draw.choice(ways)
    tree.nodes[tree.nodes[at].parent].list.remove(at)
    tree.nodes[at].parent = draw.choice([i for i in reached(tree, at) if not tree.nodes[i].leaf])
    put(draw, tree, tree.nodes[at].parent, at)


def own_list(draw, tree):
    """A list that names its own node, which names itself or its parent."""
    at = draw.choice(tree.inners())
    put(draw, tree, at, at)
    if at != tree.root and draw.random() < 0.5:
        tree.nodes[at].parent = at


def twice(draw, tree):
    at = draw.choice(listers(tree))
    put(draw, tree, at, draw.choice(tree.nodes[at].list))


def in_two_lists(draw, tree):
    child = draw.choice(below_root(tree))
    others = [at for at in tree.inners() if at != tree.nodes[child].parent]
    put(draw, tree, draw.choice(others or tree.inners()), child)


def root_listed(draw, tree):
    """The root in a list: a ring through the root."""
    put(draw, tree, draw.choice(tree.inners()), tree.root)


def unlisted(draw, tree):
    """A node that its parent does not list; another one does, or none."""
    at = draw.choice(listers(tree))
    child = tree.nodes[at].list.pop(draw.randrange(len(tree.nodes[at].list)))
    others = [i for i in tree.inners() if i != at]
    if others and draw.random() < 0.5:
        put(draw, tree, draw.choice(others), child)


def other_parent(draw, tree):
    """A parent word that is another node: any, an inner one or the node itself."""
    at = draw.choice(below_root(tree))
    others = [i for i in range(len(tree.nodes)) if i != tree.nodes[at].parent]
    inner = [i for i in others if not tree.nodes[i].leaf]
    tree.nodes[at].parent = draw.choice([draw.choice(others), draw.choice(inner or others), at])


def no_parent(draw, tree):
    tree.nodes[draw.choice(below_root(tree))].parent = None


def far_parent(draw, tree):
    """A parent word that is no node's."""
    count = len(tree.nodes)
    tree.nodes[draw.choice(below_root(tree))].parent = draw.choice([count, count + 1, 2**16, 2**31, NONE - 1])


def exchanged(draw, tree):
    """Two nodes exchange their parent words, which differ where there are two inner nodes."""
    a = tree.nodes[draw.choice(below_root(tree))]
    others = [tree.nodes[at] for at in below_root(tree) if tree.nodes[at].parent != a.parent]
    b = draw.choice(others or [a])
    a.parent, b.parent = b.parent, a.parent


DEEP = [chained, chain_above, deeper, shallower, level_twice, empty_list]
LIES = [ring_beside, ring_listed, closed, own_list, twice, in_two_lists, root_listed, unlisted, other_parent, no_parent,
        far_parent, exchanged, damaged.other_root]
OTHERS = [1, 2, 3, 7, 8]


def wide_tree(draw):
    """A passing tree with two leaves or more, M up to 24."""
    while True:
        tree = passing(draw, settings(draw), abs(threshold(draw)), "grid")
        if len(tree.leaves()) > 1:
            return tree


def hostile(draw):
    """A tree, and the names of what was done to it: how it was deepened, its numbering, and the lie."""
    tree = wide_tree(draw)
    deep = draw.choice([whole, draw.choice(DEEP)])
    deep(draw, tree)
    tree.sum_weights()
    by_level(tree)
    order = draw.choice(list(ORDERS))
    numbered(tree, ORDERS[order](draw, len(tree.nodes)))
    lie = whole if len(tree.nodes) < 2 else draw.choice([whole, draw.choice(LIES), draw.choice(LIES)])
    lie(draw, tree)
    if lie is not whole and draw.random() < 0.3:
        renumber(draw, tree)
    if deep is whole and lie is whole and draw.random() < 0.4:
        lie = draw.choice(damaged.FAULTS[draw.choice(OTHERS)])
        lie(draw, tree)
    return tree, (deep.__name__, order, lie.__name__)
