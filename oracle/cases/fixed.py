"""The cases of the fixed answers: named ones, and drawn ones that decide what those leave open."""
from .draw import Command, SMALLEST, TOP, word, words

NAN, INF = float("nan"), float("inf")


def tree(rows, then=(), dim=1, branching=2, leaf_cap=4, most=24, feature="spherical",
         dist="euclidean", absorb="euclidean", limit=0.0):
    """A fresh tree, its rows one by one with the state after each, and more commands."""
    text = f"create {dim} {branching} {leaf_cap} {most} {feature} {dist} {absorb} {word(limit)}"
    out = [text]
    for row in rows:
        row = row if isinstance(row, (list, tuple)) else [row]
        out += ["insert" + words(row), "state"]
    return [Command(t) for t in out + list(then)]


def call(name, *numbers):
    return name + words(numbers)


def loaded(lines):
    return [Command("load\n" + "\n".join(lines) + "\nend")]


def nearly_full():
    """One entry of weight 2^53 − 1."""
    w, zero = word(float(TOP - 1)), word(0.0)
    return loaded(["settings 1 2 4 24 spherical euclidean euclidean", f"head {zero} 0 0 1 1 0",
                   f"node 0 - leaf 1 0 : {w} {zero} {zero}", f"entry 0 {w} {zero} {zero}"])


def counters_at_top():
    """The rebuild count at its top, the merged total one below M: the next rebuild reinserts."""
    zero, one, two = word(0.0), word(1.0), word(2.0)
    return loaded(["settings 1 2 4 2 spherical euclidean euclidean",
                   f"head {zero} {2**64 - 1} 1 1 2 0", f"node 0 - leaf 2 1 0 : {two} {zero} {zero}",
                   f"entry 0 {one} {one} {zero}", f"entry 1 {one} {two} {zero}"])


def near_tie():
    """Five entries, the merged total one below M. A row makes a sixth, the rebuild merges it back
    and reinserts; on the way two nodes differ by a rounding of `inter`."""
    entries = [(7.0, -0.6000000000000001, 0.7000000000000001), (2.0, -0.2, 0.2),
               (6.0, 0.0, 0.6000000000000001), (5.0, 0.2, 0.5), (1.0, -0.2, 0.1)]
    leaves = ["1 0 leaf 2 0 1 :" + words([9.0, -0.5, 0.5]), "2 0 leaf 2 2 3 :" + words([11.0, 0.1, 0.5]),
              "3 0 leaf 1 4 :" + words([1.0, -0.2, 0.5])]
    return loaded(["settings 1 4 2 5 spherical inter inter", f"head {word(0.0)} 0 4 4 5 0",
                   "node 0 - inner 3 1 2 3 :" + words([21.0, 0.0, 1.0])]
                  + ["node " + leaf for leaf in leaves]
                  + [f"entry {i}{words(e)}" for i, e in enumerate(entries)])


NAMED = {
    # document 01, Bench readings
    "bench-two-rows": tree([0.0, 1.0], limit=1.0),
    "bench-two-rows-diagonal": tree([0.0, 1.0], limit=1.0, feature="diagonal"),
    "bench-1e200": tree([1e200]),
    "bench-1e200-diagonal": tree([1e200], feature="diagonal"),
    "bench-past": tree([0.0, 1.0000000000000002], limit=1.0),
    "bench-leaves": tree([0.0, 10.0, 1.0], leaf_cap=2),
    "bench-nan-rows": tree([NAN, NAN, NAN], leaf_cap=2),
    "bench-listing": tree([0.0, 1.0, 10.0], ["listing"], most=2),
    "bench-one-entry": tree([0.0, 4.0], leaf_cap=1, most=1),
    "bench-shape": tree([], [call("insert", 1.0, 2.0, 3.0)], dim=2),
    "bench-full": nearly_full() + [Command(t) for t in
                                   [call("insert", 1.0), "state", call("insert", 1.0), "state"]],
    "bench-m-256": tree([0.0], most=256) + tree([], most=257)[:1],
    # seams that listings never show
    "route-nan-first": tree([NAN, 0.0], [call("route", 0.0), call("insert", 0.0), "state"]),
    "route-all-infinite": tree([INF, INF], [call("route", 0.0, INF, NAN), call("refit", 1.0), "state"]),
    "split-seeds-not-counted": tree([-1.0, 0.0, 1.0], leaf_cap=2),
    "split-all-equal": tree([3.0, 3.0, 3.0, 3.0], leaf_cap=2, limit=0.0, absorb="increase", dist="manhattan"),
    "descent-nan-child": tree([NAN, NAN, 0.0, 1.0, 2.0, 3.0], [call("route", 0.0, 3.0)], leaf_cap=2),
    "fold-halves-of-three": tree([0.0, 0.1, 0.7, 10.0, 10.3], leaf_cap=4, most=4),
    "cousins": tree([0.0, 10.0, 3.0, 7.0, 1.0], leaf_cap=1, most=3, branching=2),
    "refit-drops": tree([0.0, 1.0, 10.0, 11.0, 20.0],
                        [call("refit", 0.0, 20.0), "state", call("route", 0.0, 10.0, 20.0)], leaf_cap=2),
    "refit-same-rows": tree([0.0, 1.0, 10.0], [call("refit", 10.0, 1.0, 0.0, 1.0), "state"], leaf_cap=2),
    "refit-nothing": tree([0.0, 1.0], ["refit", "state"]) + tree([], [call("refit", 1.0), "state"]),
    "minus-zero-threshold": tree([0.0, 0.0, -0.0, 1.0, 3.0], limit=-0.0, most=2),
    "minus-zero-rows": tree([-0.0, -0.0], feature="diagonal", limit=1.0),
    "subnormal-gap": tree([0.0, SMALLEST, 2e-162], most=2, absorb="manhattan"),
    "overflowing-gap": tree([-1e200, 1e200, 0.0], most=2, leaf_cap=3),
    "largest-gap": tree([1.7976931348623157e308, 0.0], most=1, dist="manhattan", absorb="manhattan"),
    "count-at-top": counters_at_top() + [Command(t) for t in [call("insert", 5.0), "state"]],
    "reinsert-node-first": near_tie() + [Command(t) for t in [call("insert", -0.6000000000000001), "state"]],
    "spread-both": tree([[1.0, 2.0], [3.0, 5.0]], ["spread"], dim=2, limit=100.0)
    + tree([[1.0, 2.0], [3.0, 5.0]], ["spread"], dim=2, limit=100.0, feature="diagonal"),
}

# kind, seed and the numbers of the drawn cases
CHOSEN = [
    ("damaged", 1, [277]),
    ("damaged", 7, [7, 12, 26, 36, 38, 54, 61, 90, 108, 109, 120]),
    ("edges", 7, [137]),
    ("history", 7, [46, 114]),
    ("large", 7, [8, 14, 73]),
    ("loaded", 7, [39, 82, 119, 122]),
    ("loaded_any", 7, [48, 50, 105, 145, 153, 163, 183, 194, 195]),
    ("loaded_large", 7, [4, 9, 98]),
    ("refits", 7, [3, 5, 21]),
    ("refused", 7, [3, 22, 23, 27, 36, 38, 59, 65, 84]),
    ("small", 1, [10, 21, 102, 123, 201, 261, 314, 367, 399, 411, 526, 679, 765, 771, 775, 781]),
    ("stream", 7, [1]),
]
DRAWN = [(kind, seed, number) for kind, seed, numbers in CHOSEN for number in numbers]
