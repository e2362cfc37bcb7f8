"""Document 01, Sizes: the lent buffers, word by word.

The tree stands decoded beside them. A buffer's words are what the tree puts in the slots that are
read, and in all others what was lent there or what the last accepted changing call left: zero.
"""
from .floats import bits, one_nan
from .wrong import wrong

NONE = 2**32 - 1
SCRATCH = ["scratch_floats", "scratch_links"]
NAMES = ["floats", "links"] + SCRATCH + ["output", "spreads"]
FLOATS = ["floats", "scratch_floats", "spreads"]
MASK = 2**64 - 1


def filler(seed, at, is_float):
    """Word `at` of a buffer filled from a seed; seed 0 is zeros. A float with bit 53 is a NaN, of either
    sign, quiet or signalling; one without it is none."""
    if seed == 0:
        return 0
    x = (seed * 0x9E3779B97F4A7C15 + at * 0xBF58476D1CE4E5B9) & MASK
    x ^= x >> 31
    if not is_float:
        return x & 0xFFFFFFFF
    return x | 0x7FF0000000000000 if x >> 53 & 1 else x & 0xFFEFFFFFFFFFFFFF


def needed(h):
    """Words needed of the two buffers that hold the tree."""
    return {
        "floats": (h.node_room + h.most + 1) * (1 + 2 * h.dim),
        "links": h.node_room * (2 + h.places),
    }


def scratch(h, call):
    """Scratch that a call needs, by the published formulas: a summary and three numbers for each of the
    M + 1 entries."""
    if call not in ("insert", "refit"):
        return {name: 0 for name in SCRATCH}
    return {
        "scratch_floats": (h.most + 1) * (1 + 2 * h.dim),
        "scratch_links": 3 * (h.most + 1),
    }


class Buffer:
    def __init__(self, name):
        self.name = name
        self.offset = 0        # how many words more than needed are lent
        self.exact = None      # or how many words in all
        self.seed = 0          # fills what is lent anew
        self.words = []

    def length(self, need):
        return max(need + self.offset, 0) if self.exact is None else self.exact

    def resize(self, need):
        """Cut off at the new length, or filled up to it."""
        length = self.length(need)
        del self.words[length:]
        for at in range(len(self.words), length):
            self.words.append(filler(self.seed, at, self.name in FLOATS))


def overlay(tree, buffers):
    """Writes the tree into the slots that calls read, as far as the buffers reach."""
    h = tree.settings
    stride, step = 1 + 2 * h.dim, 2 + h.places
    floats, links = buffers["floats"].words, buffers["links"].words

    def put(words, at, values):
        for k, value in enumerate(values):
            if at + k < len(words):
                words[at + k] = value

    for i, node in enumerate(tree.nodes[: h.node_room]):
        put(floats, i * stride, map(bits, node.summary.numbers()))
        parent = NONE if node.parent is None else node.parent
        kind = 2 * node.length + (1 if node.leaf else 0)
        put(links, i * step, [parent, kind] + node.list)
    for j, entry in enumerate(tree.entries):
        put(floats, (h.node_room + j) * stride, map(bits, entry.numbers()))


def clear(tree, buffers, need):
    """An accepted changing call: needed slots that hold no tree, and scratch, are zero."""
    for name, count in need.items():
        if wrong("scratch_left" if name in SCRATCH else "spare_left"):
            continue
        words = buffers[name].words
        end = len(words) if wrong("surplus_cleared") else min(count, len(words))
        words[:end] = [0] * end
        if wrong("surplus_one_nan") and name in FLOATS:
            words[end:] = map(one_nan, words[end:])
    overlay(tree, buffers)


def spoil(tree, buffers, seed, need):
    """Fills what no call may read from a seed."""
    for name, count in need.items():
        words = buffers[name].words
        for at in range(min(count, len(words))):
            words[at] = filler(seed, at, name in FLOATS)
    overlay(tree, buffers)


def packed(words, is_float):
    """Words as text, a run of equal ones as WORD*COUNT."""
    out, at = [], 0
    while at < len(words):
        end = at
        while end < len(words) and words[end] == words[at]:
            end += 1
        text = "%016x" % words[at] if is_float else str(words[at])
        out.append(text if end == at + 1 else f"{text}*{end - at}")
        at = end
    return out


def raw_text(buffers, need):
    lines = []
    for name in NAMES:
        words = buffers[name].words
        lines.append(" ".join([name, str(len(words)), str(need.get(name, 0))]
                              + packed(words, name in FLOATS)))
    return lines
