"""Calls that are refused for settings, room, shape, emptiness, fullness or output."""
from .draw import Command, TOP, flat, rows, settings, threshold, word, words
from .fresh import create, state
from .plain import passing

BAD_SIZES = {"dim": [0, 9, 2**32 - 1], "branching": [0, 1, 17], "leaf_cap": [0, 17, 1000],
             "max_leaves": [0, 257, 2**31]}
BAD_CHOICES = {"feature": [2, 3], "dist": [6, 7], "abs": [6, 255]}
BAD_THRESHOLDS = [-1.0, -5e-324, float("inf"), float("-inf"), float("nan")]
FIELDS = {"dim": "dim", "branching": "branching", "leaf_cap": "leaf_cap", "max_leaves": "most",
          "feature": "feature", "dist": "dist", "abs": "abs"}


def bad_setting(draw):
    """A field of the head and a value outside its limits."""
    if draw.random() < 0.3:
        return "threshold", word(draw.choice(BAD_THRESHOLDS))
    name, values = draw.choice(list({**BAD_SIZES, **BAD_CHOICES}.items()))
    return name, str(draw.choice(values))


def odd_call(draw, h):
    """A call with nothing wrong about its shape."""
    name = draw.choice(["insert", "batch", "refit", "route", "spread", "validate"])
    count = {"insert": 1, "spread": 0, "validate": 0}.get(name, draw.randint(0, 3))
    return name + words(flat(rows(draw, h.dim, count)))


def bad_creation(draw):
    h, limit = settings(draw), word(threshold(draw))
    name, value = bad_setting(draw)
    if name == "threshold":
        limit = value
    else:
        setattr(h, FIELDS[name], value)
    return [Command(f"create {h.text()} {limit}", "refused 1")]


def begun_tree(draw):
    h = settings(draw, 8, 4)
    out = [create(h, threshold(draw))]
    numbers = words(flat(rows(draw, h.dim, draw.randint(1, 9))))
    return h, out + [Command(f"batch{numbers}", "ok"), state()]


def bad_settings_later(draw):
    """A head whose settings were spoilt: every call refuses, whatever else is wrong."""
    h, out = begun_tree(draw)
    name, value = bad_setting(draw)
    kept = {k: getattr(h, v) for k, v in FIELDS.items()}
    out += [Command(f"set {name} {value}"), Command(odd_call(draw, h), "refused 1"),
            Command("insert", "refused 1")]
    if name == "threshold":
        return out
    return out + [Command(f"set {name} {kept[name]}"), Command("validate", "ok"), state()]


def bad_shape(draw):
    """One row of another length, a batch with a remainder; on empty trees and full outputs too."""
    h, out = begun_tree(draw) if draw.random() < 0.7 else (settings(draw, 8, 4), [])
    if not out:
        out = [create(h, 0.0)]
    length = draw.choice([n for n in range(0, 3 * h.dim + 2) if n != h.dim])
    numbers = words([draw.uniform(-1, 1) for _ in range(length)])
    out += [Command(f"insert{numbers}", f"refused 4 {h.dim} {length}")]
    if length % h.dim:
        name = draw.choice(["batch", "refit", "route"])
        out += [Command(f"lend output -{draw.randint(0, 1)}"),
                Command(f"{name}{numbers}", f"refused 4 {h.dim} {length % h.dim}")]
    return out + [state()]


def shape_on_damage(draw):
    """A damaged tree comes before a bad shape, bad settings before both."""
    h, out = begun_tree(draw)
    out += [Command(f"set merged {h.most}"), Command("insert" + words([0.0] * (h.dim + 1)), "refused 3 8"),
            Command("route" + words([0.0] * h.dim), "refused 3 8"), Command("set merged 0"), state()]
    return out


def empty(draw):
    """Routing on an empty tree: refused, unless there are no rows; after SHAPE, before OUTPUT."""
    h = settings(draw, 8, 4)
    count = draw.randint(1, 3)
    numbers = words(flat(rows(draw, h.dim, count)))
    return [create(h, 0.0), Command("route", "ok"), Command(f"lend output -{draw.randint(0, 1)}"),
            Command(f"route{numbers}", "refused 5"), Command("spread", "ok"),
            Command(f"refit{numbers}", "ok"), state()]


def full(draw):
    """Weights near 2^53: what fits is inserted whole, one row more refuses the batch."""
    h = settings(draw, 6, 3)
    while True:
        tree = passing(draw, h, threshold(draw))
        if tree.entries:
            break
    room = draw.choice([0, 1, 2, 5])
    tree.entries = [[1.0, numbers] for _, numbers in tree.entries]
    tree.entries[0][0] = float(TOP - room - len(tree.entries) + 1)
    tree.sum_weights()
    fits = words(flat(rows(draw, h.dim, room)))
    over = words(flat(rows(draw, h.dim, room + 1)))
    one = words(flat(rows(draw, h.dim, 1)))
    return [Command(tree.text(), "ok"), Command(f"batch{over}", "refused 6"), Command("batch", "ok"),
            Command(f"batch{fits}", "ok"), state(), Command(f"insert{one}", "refused 6"),
            Command(f"refit{one}", "ok"), state(), Command(f"insert{one}", "ok"), state()]


def output(draw):
    """Outputs one short, exact and longer, for routing and spread."""
    h, out = begun_tree(draw)
    count = draw.randint(1, 4)
    numbers = words(flat(rows(draw, h.dim, count)))
    short = draw.choice([f"-{draw.randint(1, count)}", "=0"])
    return out + [Command(f"lend output {short}"), Command(f"route{numbers}", "refused 7"),
                  Command("route", "ok"), Command("lend output +2"), Command(f"route{numbers}", "ok"),
                  Command("lend spreads -1"), Command("spread", "refused 7"),
                  Command("lend spreads +3"), Command("spread", "ok"), state()]


def room(draw):
    """A buffer one short is refused; before TREE, after SETTINGS."""
    h = settings(draw, 6, 3)
    name = draw.choice(["floats", "links", "scratch_floats", "scratch_links"])
    one = words(flat(rows(draw, h.dim, 1)))
    out = [create(h, 0.0), Command(f"insert{one}", "ok"), state(), Command(f"lend {name} -1"),
           Command(f"set merged {h.most}"), Command(f"insert{one}", "refused 2"),
           Command("set branching 1"), Command(f"insert{one}", "refused 1"),
           Command(f"set branching {h.branching}"), Command(f"lend {name} +0"),
           Command(f"insert{one}", "refused 3 8"), Command("set merged 0"), state()]
    if name.startswith("scratch"):
        return out
    short = draw.choice(["-1", "-2", "=0", "=1"])
    return [Command(f"lend {name} {short}"), Command(f"create {h.text()} {word(0.0)}", "refused 2"),
            Command(f"lend {name} +{draw.choice([0, 3])}")] + out


GROUPS = [bad_creation, bad_settings_later, bad_shape, shape_on_damage, empty, full, output, room]


def refused(draw):
    return draw.choice(GROUPS)(draw)
