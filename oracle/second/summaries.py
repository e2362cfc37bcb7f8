"""Document 01, Feature steps and Spread: a summary is one value of weight, means, deviations."""
from .floats import div
from .wrong import wrong


class Summary:
    """Never changed once made. Spherical has one deviation, Diagonal one a channel."""

    __slots__ = ("weight", "means", "devs")

    def __init__(self, weight, means, devs):
        self.weight = weight
        self.means = means
        self.devs = devs

    def numbers(self):
        return [self.weight] + self.means + self.devs


def devs_of(settings):
    return settings.dim if settings.diagonal else 1


def empty(settings):
    return Summary(0.0, [0.0] * settings.dim, [0.0] * devs_of(settings))


def push(settings, s, row):
    """Push of weight 1: w' = w + 1, factor = 1/w', coef = 1 − 1/w'; d = x − mean."""
    w = s.weight + 1.0
    factor = div(1.0, w)
    coef = 1.0 - div(1.0, w)
    ds = [x - m for x, m in zip(row, s.means)]
    means = [m + factor * d for m, d in zip(s.means, ds)]
    if wrong("push_mean_minus_x"):
        means = [m - factor * (m - x) for m, x in zip(s.means, row)]
    if wrong("push_divides"):
        means = [m + div(d, w) for m, d in zip(s.means, ds)]
    if wrong("push_new_deviation"):
        terms = [d * (x - m) for d, x, m in zip(ds, row, means)]
        if settings.diagonal:
            return Summary(w, means, [v + t for v, t in zip(s.devs, terms)])
        return Summary(w, means, [s.devs[0] + sum(terms)])
    if settings.diagonal:
        if wrong("coef_times_square"):
            return Summary(w, means, [v + coef * (d * d) for v, d in zip(s.devs, ds)])
        return Summary(w, means, [v + (coef * d) * d for v, d in zip(s.devs, ds)])
    if wrong("spherical_by_channel"):
        dev = s.devs[0]
        for d in ds:
            dev = dev + (coef * d) * d
        return Summary(w, means, [dev])
    total = 0.0
    for d in ds:
        total = total + d * d
    return Summary(w, means, [s.devs[0] + coef * total])


def merge(settings, s, o):
    """Nothing if the other's weight is ≤ 0; a copy of it if one's own is ≤ 0; else both."""
    if o.weight <= 0.0:
        return s
    if s.weight <= 0.0 and not wrong("merge_computes_empty"):
        return o
    w = s.weight + o.weight
    factor = div(o.weight, w)
    c = div(s.weight * o.weight, w)
    ds = [b - a for a, b in zip(s.means, o.means)]
    means = [a + factor * d for a, d in zip(s.means, ds)]
    if settings.diagonal:
        terms = [(c * d) * d for d in ds]
        if wrong("merge_times_square"):
            terms = [c * (d * d) for d in ds]
    else:
        total = 0.0
        for d in ds:
            total = total + d * d
        terms = [c * total]
    if wrong("merge_deviations_last"):
        return Summary(w, means, [a + (b + t) for a, b, t in zip(s.devs, o.devs, terms)])
    return Summary(w, means, [(a + b) + t for a, b, t in zip(s.devs, o.devs, terms)])


def merged_in_order(settings, summaries):
    """A list merged in order into an empty one."""
    out = empty(settings)
    for s in summaries:
        out = merge(settings, out, s)
    return out


def folded(settings, summaries):
    """A list of one is copied; a longer one folds its front half and its back half and merges."""
    if len(summaries) == 1:
        return summaries[0]
    if wrong("refold_in_order"):
        return merged_in_order(settings, summaries)
    half = len(summaries) // 2
    if wrong("front_half_up"):
        half = (len(summaries) + 1) // 2
    front, back = folded(settings, summaries[:half]), folded(settings, summaries[half:])
    return merge(settings, front, back)


def spread(settings, s):
    """Squared deviation over weight; Spherical also divides by dim, and repeats."""
    if settings.diagonal:
        return [div(v, s.weight) for v in s.devs]
    one = div(div(s.devs[0], s.weight), float(settings.dim))
    if wrong("spread_no_dim"):
        one = div(s.devs[0], s.weight)
    if wrong("spread_by_product"):
        one = div(s.devs[0], s.weight * float(settings.dim))
    return [one] * settings.dim
