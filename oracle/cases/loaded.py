"""Cases that start from a loaded tree which passes the tree check."""
from .draw import Command, TOP, flat, rows, settings, threshold, words
from .fresh import call, state
from .plain import passing


def loaded(draw, most=12, floats=None, measured=None):
    """Any passing tree, then a few calls, with what stands after each."""
    h = settings(draw, most)
    if measured:
        h.dist = draw.choice(measured)
    tree = passing(draw, h, threshold(draw), floats)
    out = [Command(tree.text(), "ok"), state(), Command("validate", "ok")]
    source = own_means(draw, tree) if draw.random() < 0.4 else None
    flavour = draw.choice(["ties", "blobs", "uniform", "edges", "mixed"])
    begun, total = bool(tree.entries), sum(int(w) for w, _ in tree.entries)
    for _ in range(draw.randint(2, 5)):
        more, begun = call(draw, h, flavour, 6, begun, source)
        added, known = rows_added(more[0], h.dim)
        if known == "refit" and added and begun:
            total = added
        elif known in ("insert", "batch"):
            if total + added > TOP:
                more[0].expect = "refused 6"
            else:
                total += added
        out += more
    return out


def own_means(draw, tree):
    """Rows that are the tree's own means, so that distances are 0 or tie."""
    dim = tree.settings.dim
    means = [numbers[:dim] for _, numbers in tree.entries] + [n.numbers[:dim] for n in tree.nodes]
    return [draw.choice(means) for _ in range(12)]


def rows_added(command, dim):
    name, *numbers = command.text.split(" ")
    return len(numbers) // dim, name


def loaded_any(draw):
    """Means and deviations of every kind, half of them where a deviation decides the descent."""
    measured = ["inter", "intra", "radius"] if draw.random() < 0.5 else None
    return loaded(draw, 10, draw.choice(["any", "any", "wide", "negative"]), measured)


def near(draw):
    """Means on a few steps and equal variances, so that distances differ by a rounding; a rebuild
    that merges a row back and reinserts."""
    h = settings(draw, 10, 2)
    h.leaf_cap, h.most = draw.randint(1, 4), draw.randint(3, 10)
    h.dist, h.abs = draw.choice(["inter", "inter", "intra", "increase", "radius"]), "inter"
    tree = passing(draw, h, 0.0, "grid")
    step, variance = draw.choice([0.1, 0.2, 0.3, 0.7, 1.1]), draw.choice([0.1, 0.2, 0.3, 0.7])
    for entry in tree.entries:
        entry[0] = float(draw.randint(1, 9))
        means = [draw.choice([-3, -1, 0, 1, 3]) * step for _ in range(h.dim)]
        entry[1] = means + [variance * entry[0]] * h.devs
    if tree.entries:
        tree.sum_weights()
    tree.merged = h.most - 1
    source = own_means(draw, tree)
    out = [Command(tree.text(), "ok")]
    for _ in range(2):
        part = [draw.choice(source) for _ in range(draw.randint(1, 4))]
        out += [Command("batch" + words(flat(part)), "ok"), state()]
    rows_ = words(flat(source))
    return out + [Command("route" + rows_, "ok"), Command("refit" + rows_, "ok"), state()]


def loaded_large(draw):
    """M up to 256 from a loaded tree: one rebuild over long lists, refit, reinsert."""
    h = settings(draw, 256, 2)
    h.most = draw.choice([100, 200, 256, draw.randint(30, 256)])
    tree = passing(draw, h, 0.0, draw.choice(["grid", "ordinary"]))
    total = sum(int(w) for w, _ in tree.entries)
    count = draw.randint(1, 40)
    numbers = words(flat(rows(draw, h.dim, count, draw.choice(["ties", "uniform"]))))
    over = total + count > TOP
    out = [Command(tree.text(), "ok"), Command(f"batch{numbers}", "refused 6" if over else "ok"), state()]
    part = words(flat(rows(draw, h.dim, 40, draw.choice(["ties", "uniform"]))))
    begun = bool(tree.entries) or not over
    return out + [Command(f"route{part}", "ok" if begun else "refused 5"),
                  Command(f"refit{part}", "ok"), state(), Command("validate", "ok")]
