"""The head and the slices that a caller lends."""
from svg import ENTRY, FRAME, GREY, LINE, SURPLUS, USED, ZERO, Picture


def strip(p, x, y, cells, high=30):
    """Cells side by side: their words, their width and their fill. The x behind the last."""
    for words, wide, fill in cells:
        p.rect(x, y, wide, high, fill, LINE, 0, "3 3" if fill == ZERO else "")
        p.text(x + wide / 2, y + high / 2 + 4, words, 11, "middle")
        x += wide
    return x


def brace(p, left, right, y, words):
    """What a stretch of a strip is, above it."""
    p.line((left + 1, y), (left + 1, y - 5), (right - 1, y - 5), (right - 1, y))
    p.text((left + right) / 2, y - 10, words, 11, "middle", fill=GREY)


def blown_up(p, small, large, y, below):
    """From a cell of a strip to its parts."""
    for one, other in zip(small, large):
        p.line((one, y), (other, below), dash="2 3")


def heading(p, y, name, length, what):
    p.text(24, y, name, 14, bold=True, mono=True)
    p.text(164, y, length, 12, mono=True)
    p.text(470, y, what, 12, fill=GREY)


def head_part(p, y):
    heading(p, y, "head", "by value", "choices of the caller, and counters that creation sets and changing calls keep")
    settings = ["dim", "branching", "leaf_cap", "max_leaves", "feature", "dist", "abs"]
    counters = ["nodes", "entries", "root", "threshold", "rebuilds", "merged"]
    right = strip(p, 24, y + 34, [(name, 80, FRAME) for name in settings])
    brace(p, 24, right, y + 32, "settings; M is max_leaves")
    brace(p, right, strip(p, right, y + 34, [(name, 80, USED) for name in counters]), y + 32, "counters")


def floats_part(p, y):
    heading(p, y, "floats", "(N + M + 1)(1 + 2·dim) f64", "the summaries of the nodes, then those of the entries")
    nodes = strip(p, 24, y + 34, [("node 0", 70, USED), ("node 1", 70, USED), ("..", 40, USED), ("nodes − 1", 80, USED), ("..", 50, ZERO),
                                  ("N − 1", 60, ZERO)])
    entries = strip(p, nodes, y + 34, [("entry 0", 70, ENTRY), ("entry 1", 70, ENTRY), ("..", 40, ENTRY), ("entries − 1", 90, ENTRY),
                                       ("..", 50, ZERO), ("entry M", 70, ZERO)])
    end = strip(p, entries, y + 34, [("surplus", 120, SURPLUS)])
    brace(p, 24, nodes, y + 32, "N node slots")
    brace(p, nodes, entries, y + 32, "M + 1 entry slots")
    brace(p, entries, end, y + 32, "if lent longer")
    right = strip(p, 150, y + 96, [("weight", 80, USED), ("mean 1", 80, USED), ("..", 40, USED), ("mean dim", 90, USED), ("deviation 1", 90, USED),
                                   ("..", 40, USED), ("deviation dim", 110, USED)])
    blown_up(p, (94, 164), (150, right), y + 64, y + 96)
    p.text(150, y + 146, "A slot. Spherical uses deviation 1 alone, and the others are zero.", 12, fill=GREY)


def links_part(p, y):
    heading(p, y, "links", "N(3 + max(branching, leaf_cap)) u32", "the nodes' places in the tree")
    nodes = strip(p, 24, y + 34, [("node 0", 70, USED), ("node 1", 70, USED), ("..", 40, USED), ("nodes − 1", 80, USED), ("..", 50, ZERO),
                                  ("N − 1", 60, ZERO)])
    end = strip(p, nodes, y + 34, [("surplus", 120, SURPLUS)])
    brace(p, 24, nodes, y + 32, "N blocks")
    brace(p, nodes, end, y + 32, "if lent longer")
    right = strip(p, 150, y + 96, [("parent", 80, USED), ("kind", 80, USED), ("list, first", 90, USED), ("..", 40, USED), ("list, last", 90, USED),
                                   ("..", 40, ZERO), ("spare", 80, ZERO)])
    blown_up(p, (94, 164), (150, right), y + 64, y + 96)
    for k, words in enumerate(["A block. parent: a node's number, or 4294967295 for the root. kind: twice the list's length, and one more for a leaf.",
                               "list: entry numbers in a leaf, node numbers elsewhere; as many places as the larger cap, and one to spare within a call."]):
        p.text(150, y + 146 + 17 * k, words, 12, fill=GREY)


def scratch_part(p, y):
    heading(p, y, "scratch floats", "(M + 1)(1 + 2·dim) f64", "a slot for each entry; for insert and refit alone")
    right = strip(p, 24, y + 16, [("slot 0", 70, ZERO), ("slot 1", 70, ZERO), ("..", 130, ZERO), ("slot M", 70, ZERO)])
    strip(p, right, y + 16, [("surplus", 120, SURPLUS)])
    heading(p, y + 82, "scratch links", "3(M + 1) u32", "three numbers for each entry; for insert and refit alone")
    right = strip(p, 24, y + 98, [("0, 1, 2", 70, ZERO), ("3, 4, 5", 70, ZERO), ("..", 130, ZERO), ("last three", 70, ZERO)])
    strip(p, right, y + 98, [("surplus", 120, SURPLUS)])


def legend(p, y):
    for x, fill, words in (24, USED, "of a node, or a counter"), (234, ENTRY, "of an entry"), (374, ZERO, "zero after an accepted changing call"), \
                          (664, SURPLUS, "past the needed words: never touched"):
        p.rect(x, y - 12, 22, 15, fill, LINE, 0, "3 3" if fill == ZERO else "")
        p.text(x + 30, y, words, 12)


def picture():
    p = Picture(1100, 812, "What a caller lends", "A head by value and four slices. Floats: N node slots, then M + 1 entry slots; a slot is a weight, "
                "dim means and dim deviations. Links: N blocks; a block is a parent, a kind word, a list and a spare place. Scratch floats: M + 1 slots. "
                "Scratch links: 3(M + 1) numbers. What holds nothing of the tree is zero after an accepted changing call; a surplus is never touched.")
    p.text(24, 56, "N = (M + 1)(M + 2)/2 nodes have room, and M + 1 entries: one more than M, until the rebuild. "
           "A refused call leaves every word as lent.", 12, fill=GREY)
    head_part(p, 92)
    floats_part(p, 204)
    links_part(p, 396)
    scratch_part(p, 608)
    legend(p, 788)
    return p
