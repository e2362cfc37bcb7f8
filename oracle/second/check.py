"""Document 01, Sizes and Tree check: the limits, and the eight conditions in their order."""
from .distances import NAMES
from .floats import TOP, finite
from .wrong import wrong

FEATURES = ["spherical", "diagonal"]
LIMITS = {"dim": (1, 8), "branching": (2, 16), "leaf_cap": (1, 16), "most": (1, 256)}


def settings_hold(h, threshold):
    """Sizes and choices within their limits; threshold finite and not below 0."""
    sizes = all(low <= getattr(h, name) <= high for name, (low, high) in LIMITS.items())
    choices = h.feature in FEATURES and h.dist in NAMES and h.abs in NAMES
    if wrong("minus_zero_refused") and threshold == 0.0 and str(threshold) == "-0.0":
        return False
    return sizes and choices and finite(threshold) and threshold >= 0.0


def counts_hold(t):
    """1. Node count 1 to N, entry count 0 to M."""
    most = t.settings.most + (1 if wrong("entries_up_to_room") else 0)
    return 1 <= t.node_count <= t.settings.node_room and 0 <= t.entry_count <= most


def root_holds(t):
    """2. The root exists and has no parent."""
    return t.root < t.node_count and t.nodes[t.root].parent is None


def lists_hold(t):
    """3. No list is over its cap; every child number exists."""
    for node in t.nodes[: t.node_count]:
        cap = t.settings.leaf_cap if node.leaf else t.settings.branching
        bound = t.entry_count if node.leaf else t.node_count
        if node.length > cap or any(c >= bound for c in node.list):
            return False
    return True


def reached_once(t):
    """4. Every node is reached from the root once, by the parent it names; every entry is in one
    leaf list, once."""
    times = [0] * t.node_count
    listed = [0] * t.entry_count
    for at, node in enumerate(t.nodes[: t.node_count]):
        for number in node.list:
            if node.leaf:
                listed[number] += 1
            elif number == t.root or t.nodes[number].parent != at:
                return False
            else:
                times[number] += 1
    times[t.root] += 1
    if wrong("unreached_allowed"):
        times = [n or 1 for n in times]
    if wrong("unlisted_allowed"):
        listed = [n or 1 for n in listed]
    if any(n != 1 for n in times) or any(n != 1 for n in listed):
        return False
    return wrong("unreached_allowed") or sum(len(level) for level in levels(t)) == t.node_count


def levels(t):
    """The nodes by depth, as far as the root reaches."""
    out, level, seen = [], [t.root], 0
    while level and seen <= t.node_count:
        out.append(level)
        seen += len(level)
        level = [c for at in level if not t.nodes[at].leaf for c in t.nodes[at].list]
    return out


def none_empty(t):
    """5. No list is empty, but for a lone root leaf with no entries."""
    if t.node_count == 1 and t.nodes[t.root].leaf and t.entry_count == 0:
        return True
    return all(node.list for node in t.nodes[: t.node_count])


def levels_hold(t):
    """6. All leaves are equally deep, and each level has more nodes than the level above it."""
    rows = levels(t)
    flat = all(not t.nodes[at].leaf for row in rows[:-1] for at in row)
    more = all(len(a) < len(b) for a, b in zip(rows, rows[1:]))
    if wrong("levels_may_equal"):
        more = all(len(a) <= len(b) for a, b in zip(rows, rows[1:]))
    return (flat or wrong("levels_alone")) and (more or wrong("depth_alone"))


def whole(x):
    """A whole number 1 to 2^53."""
    return 1.0 <= x <= float(TOP) and x == int(x)


def weight_beneath(t, at):
    node = t.nodes[at]
    if node.leaf:
        return sum(int(t.entries[e].weight) for e in node.list)
    return sum(weight_beneath(t, child) for child in node.list)


def weights_hold(t):
    """7. Entry weights are whole, 1 to 2^53; a node's weight is the sum beneath it (0 when empty);
    the total is at most 2^53."""
    if not all(whole(e.weight) for e in t.entries[: t.entry_count]):
        return False
    if sum(int(e.weight) for e in t.entries[: t.entry_count]) > TOP:
        return False
    if wrong("minus_zero_weight") and str(t.nodes[t.root].summary.weight) == "-0.0":
        return False
    if wrong("node_weights_loose"):
        return True
    return all(t.nodes[at].summary.weight == weight_beneath(t, at) for at in range(t.node_count))


def merged_holds(t):
    """8. `merged_since_rebalance` is below M."""
    return t.merged < t.settings.most + (1 if wrong("merged_at_m") else 0)


CONDITIONS = [counts_hold, root_holds, lists_hold, reached_once, none_empty, levels_hold,
              weights_hold, merged_holds]


def failing(t):
    """The lowest failing condition, or 0: each one leans on those before it."""
    last = 0
    for number, holds in enumerate(CONDITIONS, 1):
        if wrong(f"unchecked_{number}"):
            continue
        if not holds(t):
            if not wrong("highest_condition") or number < 7:
                return number
            last = number
    return last
