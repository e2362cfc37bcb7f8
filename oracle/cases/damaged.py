"""Loaded trees that the tree check refuses: every kind of fault it names, one and several."""
import math

from .draw import Command, TOP, flat, rows, settings, threshold, words
from .plain import Node, numbers, passing

CALLS = ["insert", "batch", "refit", "route", "spread", "validate"]


def wide_tree(draw):
    """A passing tree with at least two levels and two leaves, small enough to print."""
    while True:
        h = settings(draw, 6, 2)
        tree = passing(draw, h, abs(threshold(draw)))
        if len(tree.leaves()) > 1:
            return tree


def filled(draw, tree, node):
    node.numbers = numbers(draw, tree.settings, "ordinary")
    return node


def pad(draw, tree, count):
    """Node lines up to a count, so that each slot below it has one."""
    while len(tree.nodes) < count:
        tree.nodes.append(filled(draw, tree, Node(None, True, [])))


# 1. counts

def no_nodes(draw, tree):
    tree.node_count = 0


def too_many_nodes(draw, tree):
    room = tree.settings.node_room
    pad(draw, tree, room)
    tree.node_count = room + draw.choice([1, 2, 1000, 2**32 - 1 - room])


def too_many_entries(draw, tree):
    most = tree.settings.most
    while len(tree.entries) < most + 1:
        tree.entries.append([1.0, numbers(draw, tree.settings, "ordinary")])
    tree.entry_count = most + draw.choice([1, 2, 1000])


# 2. root

def root_missing(draw, tree):
    count = len(tree.nodes) if tree.node_count is None else tree.node_count
    tree.root = draw.choice([count, count + 1, 2**32 - 1])


def root_has_parent(draw, tree):
    tree.nodes[tree.root].parent = draw.choice(
        [draw.randrange(len(tree.nodes)), tree.root, len(tree.nodes), 2**32 - 2])


# 3. lists

def leaf_over_cap(draw, tree):
    node = tree.nodes[draw.choice(tree.leaves())]
    over(draw, tree, node, tree.settings.leaf_cap, len(tree.entries))


def inner_over_cap(draw, tree):
    node = tree.nodes[draw.choice(tree.inners())]
    over(draw, tree, node, tree.settings.branching, len(tree.nodes))


def over(draw, tree, node, cap, bound):
    """One over, as far as the places go, or a length that no list has."""
    length = draw.choice([cap + 1, tree.settings.places, tree.settings.places + 1, 2**31 - 1])
    length = max(length, cap + 1)
    while len(node.list) < min(length, tree.settings.places):
        node.list.append(draw.randrange(bound))
    node.length = length


def no_such_entry(draw, tree):
    node = tree.nodes[draw.choice(tree.leaves())]
    node.list[draw.randrange(len(node.list))] = draw.choice([len(tree.entries), 2**32 - 1])


def no_such_node(draw, tree):
    node = tree.nodes[draw.choice(tree.inners())]
    node.list[draw.randrange(len(node.list))] = draw.choice([len(tree.nodes), 2**32 - 1])


# 4. reached once

def wrong_parent(draw, tree):
    at = draw.choice([i for i in range(len(tree.nodes)) if i != tree.root])
    others = [i for i in range(len(tree.nodes)) if i != tree.nodes[at].parent]
    tree.nodes[at].parent = draw.choice(others + [None, 2**32 - 2])


def child_twice(draw, tree):
    """A second mention, in place of another child or in a free place."""
    node = tree.nodes[draw.choice(tree.inners())]
    child = draw.choice(node.list)
    if len(node.list) < tree.settings.branching and (len(node.list) < 2 or draw.random() < 0.5):
        node.list.append(child)
    elif len(node.list) > 1:
        node.list[(node.list.index(child) + 1) % len(node.list)] = child
    else:
        wrong_parent(draw, tree)


def root_in_list(draw, tree):
    node = tree.nodes[draw.choice(tree.inners())]
    node.list[draw.randrange(len(node.list))] = tree.root
    if draw.random() < 0.3 and tree.nodes[tree.root] is not node:
        node.list[-1] = tree.root


def entry_twice(draw, tree):
    at = draw.choice(tree.leaves())
    other = draw.choice([i for i in tree.leaves() if i != at])
    tree.nodes[at].list[0] = draw.choice(tree.nodes[other].list)


def entry_unlisted(draw, tree):
    """An entry that no leaf lists; a lone one of its leaf is exchanged for a second mention."""
    node = tree.nodes[draw.choice(tree.leaves())]
    if len(node.list) > 1:
        node.list.pop(draw.randrange(len(node.list)))
    else:
        entry_twice(draw, tree)


def node_unlisted(draw, tree):
    node = tree.nodes[draw.choice(tree.inners())]
    if len(node.list) > 1:
        node.list.pop(draw.randrange(len(node.list)))
    else:
        child_twice(draw, tree)


def ring_aside(draw, tree):
    """Two inner nodes that list each other, off the root."""
    if len(tree.nodes) + 2 > tree.settings.node_room:
        return wrong_parent(draw, tree)
    at = len(tree.nodes)
    tree.nodes.append(filled(draw, tree, Node(at + 1, False, [at + 1])))
    tree.nodes.append(filled(draw, tree, Node(at, False, [at])))


def other_root(draw, tree):
    """Another node at the root's place, with no parent: the rest is not reached."""
    at = draw.choice([i for i in range(len(tree.nodes)) if i != tree.root])
    tree.nodes[at].parent = None
    tree.root = at


# 5. empty lists

def empty_leaf(draw, tree):
    """A new leaf with an empty list, or a lone inner root."""
    roomy = [i for i in tree.inners() if len(tree.nodes[i].list) < tree.settings.branching]
    if not roomy or len(tree.nodes) == tree.settings.node_room:
        return lone_inner(draw, tree)
    at = draw.choice(roomy)
    tree.nodes[at].list.append(len(tree.nodes))
    tree.nodes.append(filled(draw, tree, Node(at, draw.random() < 0.7, [])))


def lone_inner(draw, tree):
    tree.nodes = [filled(draw, tree, Node(None, False, []))]
    tree.entries, tree.root = [], 0


# 6. levels

def chain_above(draw, tree):
    """A root over the root: two levels of one node."""
    if len(tree.nodes) == tree.settings.node_room:
        return deeper_leaf(draw, tree)
    above = filled(draw, tree, Node(None, False, [tree.root]))
    above.weight = tree.nodes[tree.root].weight
    tree.nodes[tree.root].parent = len(tree.nodes)
    tree.root = len(tree.nodes)
    tree.nodes.append(above)


def deeper_leaf(draw, tree):
    """An inner node between one leaf and its parent: this leaf is deeper than the others."""
    at = draw.choice(tree.leaves())
    node = tree.nodes[at]
    between = filled(draw, tree, Node(node.parent, False, [at]))
    between.weight = node.weight
    upper = tree.nodes[node.parent].list
    upper[upper.index(at)] = len(tree.nodes)
    node.parent = len(tree.nodes)
    tree.nodes.append(between)


def level_as_large(draw, tree):
    """An inner node over every leaf: a level as large as the one below it."""
    if 2 * len(tree.leaves()) + len(tree.inners()) > tree.settings.node_room:
        return deeper_leaf(draw, tree)
    for at in tree.leaves():
        node = tree.nodes[at]
        between = filled(draw, tree, Node(node.parent, False, [at]))
        between.weight = node.weight
        upper = tree.nodes[node.parent].list
        upper[upper.index(at)] = len(tree.nodes)
        node.parent = len(tree.nodes)
        tree.nodes.append(between)


def shallow_leaf(draw, tree):
    """A tree of its own: levels of 1, 2 and 3 nodes, but one leaf beside an inner node."""
    h = tree.settings
    h.branching, h.most = max(h.branching, 3), max(h.most, 4)
    tree.entries = [[float(draw.randint(1, 5)), numbers(draw, h, "ordinary")] for _ in range(4)]
    tree.nodes = [Node(None, False, [1, 2]), Node(0, True, [0]), Node(0, False, [3, 4, 5])]
    tree.nodes += [Node(2, True, [e]) for e in (1, 2, 3)]
    for node in tree.nodes:
        filled(draw, tree, node)
    tree.root = 0
    tree.sum_weights()


# 7. weights

def odd_entry_weight(draw, tree):
    """The sums are kept where the odd weight has one."""
    entry = draw.choice(tree.entries)
    entry[0] = draw.choice([0.0, -0.0, 0.5, 1.5, -1.0, TOP + 2.0, math.nan, math.inf, -math.inf, 2.0**60])
    if entry[0] in (0.0, -1.0, TOP + 2.0):
        tree.sum_weights()


def odd_node_weight(draw, tree):
    node = draw.choice(tree.nodes)
    node.weight = draw.choice([node.weight + 1, node.weight - 1, 0.0, math.nan, math.inf,
                               node.weight + 0.5 if node.weight < 2**40 else 1.0])
    if node.weight == beneath(tree, tree.nodes.index(node)):
        node.weight = -1.0


def beneath(tree, at):
    node = tree.nodes[at]
    if node.leaf:
        return sum(tree.entries[e][0] for e in node.list)
    return sum(beneath(tree, child) for child in node.list)


def total_over(draw, tree):
    """Every weight allowed, the total above 2^53."""
    for entry in tree.entries[:2]:
        entry[0] = float(TOP // 2 + 1)
    tree.sum_weights()


# 8. merged total

def merged_over(draw, tree):
    tree.merged = tree.settings.most + draw.choice([0, 1, 1000, 2**32])


FAULTS = {
    1: [no_nodes, too_many_nodes, too_many_entries],
    2: [root_missing, root_has_parent],
    3: [leaf_over_cap, inner_over_cap, no_such_entry, no_such_node],
    4: [wrong_parent, child_twice, root_in_list, entry_twice, entry_unlisted, node_unlisted,
        ring_aside, other_root],
    5: [empty_leaf, lone_inner],
    6: [chain_above, deeper_leaf, level_as_large, shallow_leaf],
    7: [odd_entry_weight, odd_node_weight, total_over],
    8: [merged_over],
}


def one_fault(draw, tree):
    condition = draw.randint(1, 8)
    draw.choice(FAULTS[condition])(draw, tree)
    return condition


def several_faults(draw, tree):
    """Two to four faults of different conditions; the lowest is the answer."""
    conditions = sorted(draw.sample([1, 2, 3, 7, 8], draw.randint(2, 4)), reverse=True)
    if draw.random() < 0.5:
        conditions.append(draw.choice([4, 6]))
        conditions.sort(reverse=True)
    for condition in conditions:
        faults = [f for f in FAULTS[condition] if f not in (other_root, no_nodes, level_as_large, shallow_leaf)]
        draw.choice(faults)(draw, tree)
    return min(conditions)


def damaged(draw):
    """A damaged tree and a few calls on it, the tree check among them."""
    tree = wide_tree(draw)
    condition = one_fault(draw, tree) if draw.random() < 0.7 else several_faults(draw, tree)
    h = tree.settings
    out = [Command(tree.text(), "ok")]
    for name in draw.sample(CALLS, 2):
        count = {"insert": 1, "spread": 0, "validate": 0}.get(name, draw.randint(0, 3))
        numbers_ = words(flat(rows(draw, h.dim, count)))
        out.append(Command(f"{name}{numbers_}", f"refused 3 {condition}"))
    if "validate" not in (out[1].text, out[2].text):
        out.append(Command("validate", f"refused 3 {condition}"))
    return out
