"""Cases that start from an empty tree."""
from .draw import Command, FLAVOURS, flat, rows, settings, threshold, word, words


def create(h, limit):
    return Command(f"create {h.text()} {word(limit)}", "ok")


def state():
    return Command("state")


def call(draw, h, flavour, most_rows, begun, source=None):
    """One drawn call with its state; `begun` says whether the tree has entries. Rows are drawn, or
    chosen from a source."""
    kind = draw.choice(["batch", "batch", "batch", "insert", "refit", "route", "spread", "validate",
                        "listing"])
    count = draw.choice([0, 1, 2, most_rows, draw.randint(1, max(most_rows, 1))])
    count = 1 if kind == "insert" else count
    chosen = [draw.choice(source) for _ in range(count)] if source else rows(draw, h.dim, count, flavour)
    numbers = words(flat(chosen))
    if kind == "route":
        refused = count > 0 and not begun
        return [Command(f"route{numbers}", "refused 5" if refused else "ok")], begun
    if kind in ("spread", "validate"):
        return [Command(kind, "ok")], begun
    if kind == "listing":
        return [Command(kind)], begun
    begins = kind in ("insert", "batch") and count > 0
    return [Command(f"{kind}{numbers}", "ok"), state()], begun or begins


def history(draw, most=24, calls=7, most_rows=14, flavour=None):
    """Many calls on one tree, its whole state after each that changes it."""
    h = settings(draw, most)
    flavour = flavour or draw.choice(FLAVOURS)
    out, begun = [create(h, threshold(draw)), state()], False
    for _ in range(draw.randint(2, calls)):
        more, begun = call(draw, h, flavour, most_rows, begun)
        out += more
    if begun:
        out += [Command("route" + words(flat(rows(draw, h.dim, 6, flavour))), "ok")]
    return out + [Command("listing")]


def listing(draw):
    """Rows and a listing, as the listing program has them."""
    h = settings(draw, 24)
    count = draw.randint(0, 60)
    numbers = words(flat(rows(draw, h.dim, count)))
    limit = 0.0 if draw.random() < 0.5 else threshold(draw)
    return [create(h, limit), Command(f"batch{numbers}", "ok"), Command("listing")]


def edges(draw):
    """Rows of NaN, infinities, zeros of both signs and values that overflow."""
    return history(draw, 12, 6, 8, draw.choice(["edges", "overflow", "mixed", "subnormal"]))


def stream(draw):
    """Enough rows for many rebuilds and reinserts, then refit and routing."""
    h = settings(draw, 40, 3)
    flavour = draw.choice(["sensor", "lattice", "blobs", "ties", "uniform"])
    source = rows(draw, h.dim, draw.randint(60, 160), flavour)
    out = [create(h, draw.choice([0.0, 0.0, 1e-12, 0.01]))]
    at = 0
    while at < len(source):
        step = draw.randint(1, 60)
        out += [Command("batch" + words(flat(source[at : at + step])), "ok"), state()]
        at += step
    out += [Command("route" + words(flat(source[:20])), "ok")]
    part = draw.sample(source, draw.randint(1, len(source)))
    out += [Command("refit" + words(flat(part)), "ok"), state()]
    out += [Command("route" + words(flat(source[-20:])), "ok"), Command("spread", "ok")]
    return out + [Command("validate", "ok")]


def refits(draw):
    """Several refits with parts of the rows, routing before and after: drops, emptied leaves."""
    h = settings(draw, 30, 3)
    flavour = draw.choice(["blobs", "lattice", "uniform", "ties"])
    source = rows(draw, h.dim, draw.randint(5, 60), flavour)
    out = [create(h, 0.0), Command("batch" + words(flat(source)), "ok"), state()]
    for _ in range(draw.randint(1, 3)):
        pool = source if draw.random() < 0.6 else rows(draw, h.dim, 20, flavour)
        part = draw.sample(pool, draw.randint(1, len(pool)))
        out += [Command("refit" + words(flat(part)), "ok"), state(),
                Command("route" + words(flat(source[:15])), "ok")]
    out += [Command("batch" + words(flat(rows(draw, h.dim, 9, flavour))), "ok"), state()]
    return out + [Command("validate", "ok")]


def large(draw):
    """M up to 256, whole points with many equal costs: the sort's stability and its long lists."""
    h = settings(draw, 256, 3)
    h.most = draw.choice([64, 100, 128, 200, 255, 256, draw.randint(25, 256)])
    count = h.most + draw.choice([1, 2, h.most // 10 + 2, h.most // 2])
    source = rows(draw, h.dim, count, draw.choice(["lattice", "lattice", "uniform", "ties", "sensor"]))
    out = [create(h, 0.0), Command("batch" + words(flat(source)), "ok"), state()]
    part = draw.sample(source, count // 2)
    out += [Command("route" + words(flat(part[:30])), "ok")]
    out += [Command("refit" + words(flat(part)), "ok"), state(), Command("validate", "ok")]
    return out
