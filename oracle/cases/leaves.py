"""Cases of the leaf functions: `op feature dim a b`, every token 16 lowercase hex digits."""
import random

from .draw import LARGEST, SMALLEST, word

INF, NAN = float("inf"), float("nan")

WHOLE = [0.0, 1.0, 2.0, 3.0, 7.0, 1000.0, 2.0**32, 2.0**53 - 1, 2.0**53]
ODD = [-0.0, 0.25, 0.5, 0.999, 1.5, -1.0, -0.5, -3.0, SMALLEST, 1e-200, 1e200, LARGEST, INF, -INF, NAN]
EDGES = [0.0, -0.0, SMALLEST, -SMALLEST, 2.2250738585072014e-308, 1e-200, -1e-200, 1e200, -1e200,
         LARGEST, -LARGEST, INF, -INF, NAN]
# pairs of weights whose sum sits at a zero answer: at or below 0, at or below 1
SMALL = [(0.0, 0.0), (0.0, 1.0), (1.0, 0.0), (0.5, 0.5), (0.5, 0.25), (-1.0, 1.0), (2.0, -1.0),
         (-2.0, 1.0), (-0.0, 0.0), (0.0, 5.0), (5.0, 0.0), (1.0, SMALLEST)]


def weight(draw):
    return draw.choice(WHOLE) if draw.random() < 0.7 else draw.choice(ODD)


def value(draw, kind):
    """A mean or a deviation: ordinary, a small grid that ties, or an edge."""
    if kind == "ordinary":
        return draw.uniform(-100, 100)
    if kind == "ties":
        return float(draw.randint(-2, 2))
    if kind == "edges":
        return draw.choice(EDGES)
    return value(draw, draw.choice(["ordinary", "ties", "edges"]))


def summary(draw, feature, dim, w, kind):
    means = [value(draw, kind) for _ in range(dim)]
    count = dim if feature else 1
    devs = [value(draw, kind) for _ in range(count)]
    if kind in ("ordinary", "ties"):
        devs = [abs(v) for v in devs]
    return [w] + means + devs + [0.0] * (dim - count)


def case(draw, turn):
    """Goes through all dims, features and ops in order; the rest is drawn."""
    op = turn % 15
    feature = turn // 15 % 2
    dim = turn // 30 % 8 + 1
    kind = draw.choice(["ordinary", "ordinary", "ties", "edges", "mixed"])
    wa, wb = (weight(draw), weight(draw)) if draw.random() < 0.7 else draw.choice(SMALL)
    a, b = summary(draw, feature, dim, wa, kind), summary(draw, feature, dim, wb, kind)
    if draw.random() < 0.1:
        b[1 : dim + 1] = a[1 : dim + 1]
    return [op, feature, dim], a + b


def lines(seed, count):
    draw = random.Random(seed)
    out = []
    for turn in range(count):
        head, floats = case(draw, turn)
        out.append(" ".join(["%016x" % n for n in head] + [word(x) for x in floats]))
    return "\n".join(out) + "\n"
