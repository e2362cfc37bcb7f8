"""Small histories: few rows, dim 1 or 2, M 1 to 6; each begins from an empty or a loaded tree."""
from .damaged import one_fault, several_faults, wide_tree
from .draw import Command, DISTANCES, EDGES, FEATURES, Settings, flat, rows, words
from .fresh import create, state
from .plain import passing

LIMITS = [0.0, 0.0, 0.0, 1.0, 2.0, 0.25, -0.0]
FLAVOURS = ["ties", "ties", "lattice", "blobs", "edges"]


def small_settings(draw):
    """Distances are Euclidean half of the time, so that numbers stay easy to follow."""
    dist, absorb = draw.choice(DISTANCES), draw.choice(DISTANCES)
    if draw.random() < 0.5:
        dist = absorb = "euclidean"
    return Settings(draw.randint(1, 2), draw.choice([2, 2, 3]), draw.choice([1, 2, 2, 3]),
                    draw.randint(1, 6), draw.choice(FEATURES), dist, absorb)


def numbers(draw, h, count, flavour):
    return words(flat(rows(draw, h.dim, count, flavour)))


def calls(draw, h, flavour, begun):
    """One to three calls, the whole state after each that changes the tree."""
    out = []
    for _ in range(draw.randint(1, 3)):
        name = draw.choice(["insert", "batch", "route", "refit", "spread"])
        if not begun and name in ("route", "refit"):
            name = "insert"
        count = 1 if name == "insert" else draw.randint(1, 4)
        text = name if name == "spread" else name + numbers(draw, h, count, flavour)
        out.append(Command(text, "ok"))
        if name in ("insert", "batch", "refit"):
            out.append(state())
            begun = True
    return out


def grown(draw):
    """From an empty tree: enough rows for splits and, mostly, a rebuild."""
    h = small_settings(draw)
    flavour = draw.choice(FLAVOURS)
    count = draw.randint(1, h.most + 3)
    start = [create(h, draw.choice(LIMITS)), Command("batch" + numbers(draw, h, count, flavour), "ok")]
    return start + [state()] + calls(draw, h, flavour, True)


def resumed(draw):
    """From a loaded tree with any numbering; weights small."""
    h = small_settings(draw)
    tree = passing(draw, h, draw.choice(LIMITS), draw.choice(["grid", "ordinary", "any"]))
    for entry in tree.entries:
        entry[0] = float(draw.randint(1, 4))
    if tree.entries:
        tree.sum_weights()
    flavour = draw.choice(FLAVOURS)
    start = [Command(tree.text(), "ok"), Command("validate", "ok")]
    return start + calls(draw, h, flavour, bool(tree.entries))


def checked(draw):
    """The tree check on a damaged tree."""
    tree = wide_tree(draw)
    condition = one_fault(draw, tree) if draw.random() < 0.7 else several_faults(draw, tree)
    return [Command(tree.text(), "ok"), Command("validate", f"refused 3 {condition}")]


def odd(draw):
    """Rows of edges alone, so that NaN and infinity decide."""
    h = small_settings(draw)
    source = [[draw.choice(EDGES) for _ in range(h.dim)] for _ in range(draw.randint(1, 6))]
    return [create(h, draw.choice(LIMITS)), Command("batch" + words(flat(source)), "ok"), state(),
            Command("route" + words(flat(source[:3])), "ok"),
            Command("refit" + words(flat(source[1:] or source)), "ok"), state()]


def small(draw):
    pick = draw.random()
    if pick < 0.45:
        return grown(draw)
    if pick < 0.7:
        return resumed(draw)
    return odd(draw) if pick < 0.8 else checked(draw)
