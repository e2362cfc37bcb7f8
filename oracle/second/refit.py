"""Document 01, Tree steps: greedy routing and refit."""
from .distances import point
from .floats import INFINITY
from .rebuild import drop, refold, reinsert
from .summaries import empty, push
from .tree import by_dist, closest, leaf_for
from .wrong import wrong


def route(tree, row):
    """The entry that a row belongs to: descent, then the first of the leaf or one strictly closer."""
    h = tree.settings
    if wrong("route_everywhere"):
        return closest(range(len(tree.entries)), lambda e: point(h, h.dist, tree.entries[e], row))
    leaf = leaf_for(tree, by_dist(tree, row))
    numbers = tree.nodes[leaf].list
    if wrong("route_from_infinity"):
        near = [(point(h, h.dist, tree.entries[e], row), i) for i, e in enumerate(numbers)]
        near = [(d, i) for d, i in near if d < INFINITY]
        return numbers[min(near)[1]] if near else numbers[-1]
    return closest(numbers, lambda e: point(h, h.dist, tree.entries[e], row))


def reaccumulate(tree, rows):
    """Entries start afresh from the rows that route to them; which of them got any."""
    h = tree.settings
    if wrong("refit_absorbs_alone"):
        return reaccumulate_at_once(tree, rows)
    routes = [route(tree, row) for row in rows]
    fresh = list(tree.entries) if wrong("refit_adds") else [empty(h) for _ in tree.entries]
    for row, entry in zip(rows, routes):
        fresh[entry] = push(h, fresh[entry], row)
    tree.entries = fresh
    used = set(routes)
    return [e in used for e in range(len(fresh))]


def reaccumulate_at_once(tree, rows):
    """For a wrong reading: later rows route to entries that earlier ones have moved."""
    used = set()
    for row in rows:
        entry = route(tree, row)
        start = tree.entries[entry] if entry in used else empty(tree.settings)
        tree.entries[entry] = push(tree.settings, start, row)
        used.add(entry)
    return [e in used for e in range(len(tree.entries))]


def refit(tree, rows):
    """As `refit_leaves_beam` with beam 1: unused entries are dropped; reinsert and repeat, once
    by choice and whenever a leaf was emptied. Threshold, merged total and rebuild count stay."""
    if not tree.entries or not rows:
        return
    rounds = 2 if wrong("refit_rebalances_twice") else 1
    rounds = 0 if wrong("refit_never_rebalances") else rounds
    rebalances = 0
    while True:
        alive = reaccumulate(tree, rows)
        if all(alive) or wrong("refit_keeps_unused"):
            break
        drop(tree, alive)
        emptied = any(node.leaf and not node.list for node in tree.nodes)
        if not emptied and rebalances >= rounds:
            break
        reinsert(tree)
        if wrong("refit_resets_merged"):
            tree.merged = 0
        if wrong("refit_refolds_between"):
            refold(tree)
        rebalances += 1
        if wrong("refit_stops_after_drop"):
            break
    if not wrong("refit_no_refold"):
        refold(tree)
    if wrong("refit_counts_rebuild"):
        tree.rebuilds += 1
