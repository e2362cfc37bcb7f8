"""Document 01, Distances: the formulas of src/distance.rs, left to right, with their zero answers."""
import math

from .floats import div
from .wrong import wrong

NAMES = ["euclidean", "manhattan", "inter", "intra", "increase", "radius"]


def start():
    return -0.0 if wrong("sums_from_minus_zero") else 0.0


def channels(a, b):
    if wrong("distance_x_minus_mean"):
        a, b = b, a
    if wrong("sums_backwards"):
        return zip(reversed(a), reversed(b))
    return zip(a, b)


def square(a, b):
    """The sum of (a − b)·(a − b), from 0, first channel to last."""
    total = start()
    for x, y in channels(a, b):
        d = x - y
        total = total + d * d
    return total


def manhattan(a, b):
    total = start()
    for x, y in channels(a, b):
        total = total + abs(x - y)
    return total


def deviation(h, s):
    """A summary's whole squared deviation: Diagonal's channels summed from 0."""
    if not h.diagonal:
        return s.devs[0]
    total = start()
    for v in s.devs:
        total = total + v
    return total


def zero(weight, bound=0.0):
    """Whether a weight is small enough for a zero answer."""
    return weight <= bound and not wrong("no_zero_answers")


def point(h, name, s, row):
    """The distance of a row from a summary."""
    if name == "euclidean":
        sq = square(s.means, row)
        return math.sqrt(sq) if wrong("euclidean_rooted") else sq
    if name == "manhattan":
        return manhattan(s.means, row)
    n = s.weight
    if zero(n):
        return 0.0
    sq = square(s.means, row)
    if name == "inter":
        return sq + div(deviation(h, s), n)
    if name == "intra":
        return div(2.0 * (deviation(h, s) + div(sq * n, n + 1.0)), n)
    if name == "increase":
        return increase(sq, n, 1.0, n + 1.0)
    m = n + 1.0
    if wrong("radius_square_first"):
        return div(div(sq * n, m) + deviation(h, s), m)
    return div(n * sq + m * deviation(h, s), m * m)


def increase(sq, na, nb, nab):
    if wrong("increase_ratio_first"):
        return sq * div(na * nb, nab)
    return div((sq * na) * nb, nab)


def between(h, name, a, b):
    """The distance between two summaries."""
    if name == "euclidean":
        sq = square(a.means, b.means)
        return math.sqrt(sq) if wrong("euclidean_rooted") else sq
    if name == "manhattan":
        return manhattan(a.means, b.means)
    na, nb = a.weight, b.weight
    nab = na + nb
    sq = square(a.means, b.means)
    if name == "inter":
        if zero(na) or zero(nb):
            return 0.0
        if wrong("inter_deviations_first"):
            return sq + (div(deviation(h, a), na) + div(deviation(h, b), nb))
        return (sq + div(deviation(h, a), na)) + div(deviation(h, b), nb)
    if name == "intra":
        if zero(nab, 0.0 if wrong("intra_zero_at_zero") else 1.0):
            return 0.0
        inner = (deviation(h, a) + deviation(h, b)) + div((sq * na) * nb, nab)
        return div(2.0 * inner, nab - 1.0)
    if zero(nab):
        return 0.0
    if name == "increase":
        return increase(sq, na, nb, nab)
    if wrong("radius_square_first"):
        return div(div((sq * na) * nb, nab) + (deviation(h, a) + deviation(h, b)), nab)
    return div((na * nb) * sq + nab * (deviation(h, a) + deviation(h, b)), nab * nab)


def merge_cost(a, b):
    """((sq·na)·nb)/nab with the squared Euclidean sum, whatever `abs` is."""
    na, nb = a.weight, b.weight
    nab = na + nb
    if zero(nab):
        return 0.0
    return increase(square(a.means, b.means), na, nb, nab)
