"""Document 01, Tree steps: rebuild, reinsert and refold."""
from .distances import between, merge_cost, point
from .floats import INFINITY, LARGEST, finite
from .summaries import folded, merge
from .tree import leaf_for, path, place
from .wrong import wrong

TOP_COUNT = 2**64 - 1


def target(most):
    """max(M − M/10, 1), whole division."""
    if wrong("target_m"):
        return most
    if wrong("target_rounds_up"):
        return max(most - (most + 9) // 10, 1)
    return max(most - most // 10, 1)


def cost(tree, one, other):
    """`merge_cost`, NaN read as infinity."""
    h = tree.settings
    if wrong("cost_by_abs"):
        d = between(h, h.abs, tree.entries[one], tree.entries[other])
    else:
        d = merge_cost(tree.entries[one], tree.entries[other])
    if d != d:
        return -1.0 if wrong("nan_cost_least") else INFINITY
    return d


def partners(tree, group):
    """Each entry names its cheapest partner in the group, the first on a tie."""
    out = []
    for one in group:
        best = None
        for other in group:
            if other == one:
                continue
            d = cost(tree, one, other)
            if wrong("nan_cost_skipped") and \
                    merge_cost(tree.entries[one], tree.entries[other]) != \
                    merge_cost(tree.entries[one], tree.entries[other]):
                continue
            if best is None or d < best[0] or (wrong("partner_last_tie") and d == best[0]):
                best = (d, one, other)
        if best is not None:
            out.append(best)
    return out


def tree_order(tree):
    """Node numbers depth first, for a wrong reading."""
    out, stack = [], [tree.root]
    while stack and len(out) <= len(tree.nodes):
        at = stack.pop()
        out.append(at)
        if not tree.nodes[at].leaf:
            stack.extend(reversed(tree.nodes[at].list))
    return out


def sibling_pairs(tree, order):
    out = []
    for at in order:
        node = tree.nodes[at]
        if node.leaf and len(node.list) > 1:
            out += partners(tree, node.list)
    return out


def cousin_pairs(tree, order):
    """The same over all the leaves under one parent, by node number."""
    if wrong("cousins_of_all"):
        return partners(tree, range(len(tree.entries)))
    out = []
    for at in order:
        node = tree.nodes[at]
        if not node.leaf and all(tree.nodes[c].leaf for c in node.list):
            out += partners(tree, [e for c in node.list for e in tree.nodes[c].list])
    return out


def listed_pairs(tree):
    """The pairs in list order, and whether cousins were used: only if no leaf has two entries."""
    order = tree_order(tree) if wrong("pairs_by_tree") else range(len(tree.nodes))
    pairs = sibling_pairs(tree, order)
    across = not pairs
    if wrong("cousins_always") and len(tree.nodes) > 1:
        across = True
    if across:
        pairs = cousin_pairs(tree, order)
    if wrong("pairs_once"):
        seen = set()
        pairs = [p for p in pairs if frozenset(p[1:]) not in seen and
                 not seen.add(frozenset(p[1:]))]
    return pairs, across


def by_cost(pairs):
    """By cost, ties in list order."""
    if wrong("sort_ties_reversed"):
        pairs = pairs[::-1]
    if wrong("sort_ties_by_entry"):
        return sorted(pairs, key=lambda p: (p[0], p[1]))
    return sorted(pairs, key=lambda p: p[0])


def merge_pairs(tree, pairs, want):
    """Merges until the target is reached; the one that named its partner survives."""
    h = tree.settings
    found = list(tree.entries)
    alive = [True] * len(tree.entries)
    grown = set()
    merged, widest = 0, 0.0
    pairs = list(pairs)
    while pairs and merged < want:
        _, one, other = pairs.pop(0)
        if wrong("lower_survives") and other < one:
            one, other = other, one
        if not (alive[one] and alive[other]):
            continue
        if (wrong("absorbed_once") and other in grown) or (wrong("absorbs_once") and one in grown):
            continue
        at = found if wrong("gap_at_start") else tree.entries
        gap = between(h, h.dist if wrong("gap_by_dist") else h.abs, at[one], at[other])
        tree.entries[one] = merge(h, tree.entries[one], tree.entries[other])
        if wrong("gap_after_merge"):
            gap = between(h, h.abs, tree.entries[one], tree.entries[other])
        alive[other] = False
        grown.add(one)
        merged += 1
        if wrong("gap_infinite") and gap == INFINITY:
            gap = LARGEST
        if finite(gap) and (gap > widest or wrong("gap_last")):
            widest = gap
        if wrong("costs_again"):
            pairs = sorted([(cost(tree, a, b), a, b) for _, a, b in pairs], key=lambda p: p[0])
    return alive, merged, widest


def raise_threshold(tree, widest):
    """The widest finite gap times (1 + 2^−50), at most the largest float, if that is larger."""
    factor = 1.0 if wrong("gap_exact") else 1.0 + 2.0 ** (-51 if wrong("gap_two_ulps") else -50)
    grown = min(widest * factor, LARGEST)
    if grown > tree.threshold or wrong("threshold_may_fall"):
        tree.threshold = grown


def drop(tree, alive):
    """Takes the others out of entries and lists; numbers close up."""
    new = {}
    for old in range(len(tree.entries)):
        if alive[old]:
            new[old] = len(new)
    tree.entries = [e for e, keep in zip(tree.entries, alive) if keep]
    for node in tree.nodes:
        if node.leaf:
            node.list = [new[e] for e in node.list if e in new]


def rebuild(tree):
    """Runs when entries exceed M."""
    h = tree.settings
    want = len(tree.entries) - target(h.most)
    pairs, across = listed_pairs(tree)
    alive, merged, widest = merge_pairs(tree, by_cost(pairs), want)
    if merged > 0:
        raise_threshold(tree, widest)
        drop(tree, alive)
        tree.merged = merged if wrong("merged_not_added") else tree.merged + merged
        full = tree.merged > h.most if wrong("merged_past_m") else tree.merged >= h.most
        if wrong("cousins_no_reinsert"):
            across = across and any(n.leaf and not n.list for n in tree.nodes)
        if across or full:
            if not (wrong("merged_kept_by_cousins") and not full):
                tree.merged = 0
            reinsert(tree)
    if not wrong("no_refold"):
        refold(tree)
    if tree.rebuilds < TOP_COUNT:
        tree.rebuilds += 1
    elif wrong("count_wraps"):
        tree.rebuilds = 0


def depth_first(tree, at):
    """Entry numbers as a walk from the root meets them."""
    node = tree.nodes[at]
    if node.leaf:
        return list(node.list)
    return [e for child in node.list for e in depth_first(tree, child)]


def reinsert(tree):
    """Every entry into a fresh tree: collected depth first, placed back to front, absorbed by none."""
    h = tree.settings
    numbers = depth_first(tree, tree.root)
    if wrong("reinsert_by_number"):
        numbers = sorted(numbers)
    if not wrong("reinsert_front_to_back"):
        numbers.reverse()
    old = tree.entries
    tree.clear()
    for number in numbers:
        summary = old[number]
        leaf = leaf_for(tree, measure(h, summary))
        if wrong("reinsert_absorbs") and absorbed(tree, leaf, summary):
            continue
        place(tree, leaf, summary)
    if wrong("reinsert_keeps_numbers") and len(tree.entries) == len(old):
        for node in tree.nodes:
            if node.leaf:
                node.list = [numbers[e] for e in node.list]
        tree.entries = old


def measure(h, summary):
    """How an entry descends: `between(node, entry)` by `dist`."""
    if wrong("reinsert_by_mean"):
        return lambda node: point(h, h.dist, node, summary.means)
    if wrong("reinsert_entry_first"):
        return lambda node: between(h, h.dist, summary, node)
    return lambda node: between(h, h.dist, node, summary)


def absorbed(tree, leaf, summary):
    """For a wrong reading: joins the nearest entry within the threshold."""
    h = tree.settings
    numbers = tree.nodes[leaf].list
    near = [(between(h, h.dist, tree.entries[e], summary), e) for e in numbers]
    near = [(d, e) for d, e in near if d < INFINITY]
    if not near:
        return False
    best = min(near)[1]
    if not between(h, h.abs, tree.entries[best], summary) <= tree.threshold:
        return False
    tree.entries[best] = merge(h, tree.entries[best], summary)
    for node in path(tree, leaf):
        node.summary = merge(h, node.summary, summary)
    return True


def refold(tree):
    """Every node's summary from its list by halves, children before their parent."""
    order, stack = [], [tree.root]
    while stack and len(order) <= len(tree.nodes):
        at = stack.pop()
        order.append(at)
        if not tree.nodes[at].leaf:
            stack.extend(tree.nodes[at].list)
    if not wrong("refold_top_down"):
        order.reverse()
    for at in order:
        node = tree.nodes[at]
        if node.list:
            node.summary = folded(tree.settings, tree.members(node))
