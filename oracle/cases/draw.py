"""Draws of settings, thresholds and rows."""
import math
import struct

LARGEST = 1.7976931348623157e308
SMALLEST = 5e-324
TOP = 2**53
DISTANCES = ["euclidean", "manhattan", "inter", "intra", "increase", "radius"]
FEATURES = ["spherical", "diagonal"]
THRESHOLDS = [0.0, -0.0, SMALLEST, 3e-310, 1e-12, 0.01, 0.5, 1.0, 4.0, 100.0, 1e200, LARGEST]
EDGES = [0.0, -0.0, SMALLEST, -SMALLEST, 2.2250738585072014e-308, -1e-310, 1e-200, 1e200, -1e200,
         1e154, LARGEST, -LARGEST, math.inf, -math.inf, math.nan, 1.0, -1.0, 2.0]


class Command:
    """A command with, where the generator knows it, the answer's beginning."""

    __slots__ = ("text", "expect")

    def __init__(self, text, expect=None):
        self.text = text
        self.expect = expect


def word(x):
    return "7ff8000000000000" if x != x else struct.pack(">d", x).hex()


def nan_word(draw):
    """A NaN of either sign, quiet or signalling, with any payload."""
    payload = draw.choice([1, 2**50, draw.randrange(1, 2**51)])
    return "%016x" % (draw.getrandbits(1) << 63 | 0x7FF << 52 | draw.getrandbits(1) << 51 | payload)


def words(numbers):
    return "".join(" " + word(x) for x in numbers)


class Settings:
    def __init__(self, dim, branching, leaf_cap, most, feature, dist, absorb):
        self.dim, self.branching, self.leaf_cap, self.most = dim, branching, leaf_cap, most
        self.feature, self.dist, self.abs = feature, dist, absorb

    @property
    def node_room(self):
        return (self.most + 1) * (self.most + 2) // 2

    @property
    def places(self):
        return max(self.branching, self.leaf_cap) + 1

    @property
    def devs(self):
        return self.dim if self.feature == "diagonal" else 1

    def text(self):
        return (f"{self.dim} {self.branching} {self.leaf_cap} {self.most} "
                f"{self.feature} {self.dist} {self.abs}")


def ends(draw, low, high, likely):
    """A number of the range, its ends and the small ones likely."""
    pick = draw.random()
    if pick < 0.15:
        return low
    if pick < 0.25:
        return high
    if pick < 0.75:
        return draw.randint(low, min(likely, high))
    return draw.randint(low, high)


def settings(draw, most=24, dims=8):
    """Any settings with M up to `most`."""
    return Settings(ends(draw, 1, dims, 2), ends(draw, 2, 16, 4), ends(draw, 1, 16, 4),
                    ends(draw, 1, most, 8), draw.choice(FEATURES), draw.choice(DISTANCES),
                    draw.choice(DISTANCES))


def threshold(draw):
    return draw.choice(THRESHOLDS[:8]) if draw.random() < 0.8 else draw.choice(THRESHOLDS)


def blob(draw, dim):
    centre = draw.randint(-3, 3) * 10.0
    return [centre + draw.gauss(0, 1) for _ in range(dim)]


def sensor(draw, dim, count):
    """Slow curves in steps of a sixteenth, the channels out of phase."""
    start, pace = draw.uniform(0, 6), draw.uniform(0.02, 0.3)
    return [[round(16 * math.sin(start + i * pace + k)) / 16 + draw.choice([0, 0, 0, 1 / 16])
             for k in range(dim)] for i in range(count)]


def lattice(draw, dim, count):
    """Distinct whole points, in order or shuffled: many merge costs are equal."""
    side = max(2, math.ceil(count ** (1 / dim)))
    points = []
    for i in range(count):
        point = []
        for _ in range(dim):
            point.append(float(i % side))
            i //= side
        points.append(point)
    if draw.random() < 0.6:
        draw.shuffle(points)
    return points


FLAVOURS = ["ties", "blobs", "sensor", "constant", "uniform", "edges", "overflow", "subnormal",
            "lattice", "mixed"]


def rows(draw, dim, count, flavour=None):
    """Rows of one flavour, or of any."""
    flavour = flavour or draw.choice(FLAVOURS)
    if flavour == "mixed":
        out = [rows(draw, dim, 1, draw.choice(FLAVOURS[:-1]))[0] for _ in range(count)]
        return out
    if flavour == "sensor":
        return sensor(draw, dim, count)
    if flavour == "lattice":
        return lattice(draw, dim, count)
    constant = [draw.choice(EDGES) for _ in range(dim)]
    one = {
        "ties": lambda: [float(draw.randint(-2, 2)) for _ in range(dim)],
        "blobs": lambda: blob(draw, dim),
        "constant": lambda: list(constant),
        "uniform": lambda: [draw.uniform(-100, 100) for _ in range(dim)],
        "edges": lambda: [draw.choice(EDGES) for _ in range(dim)],
        "overflow": lambda: [draw.choice([-1, 1]) * 10.0 ** draw.randint(150, 308) for _ in range(dim)],
        "subnormal": lambda: [draw.randint(-9, 9) * SMALLEST for _ in range(dim)],
    }[flavour]
    return [one() for _ in range(count)]


def flat(rows_):
    return [x for row in rows_ for x in row]
