"""Cases that follow every lent word: surplus, slots past the counts, scratch, outputs, NaN's bits."""
import math
import re

from .damaged import damaged
from .draw import Command, TOP, flat, nan_word, rows, settings, threshold, word, words
from .fresh import state
from .plain import passing
from .refused import refused

BUFFERS = ["floats", "links", "scratch_floats", "scratch_links", "output", "spreads"]
CALLS = ["insert", "batch", "refit", "route", "spread", "validate"]


def looked(command):
    """A call between two looks at all words."""
    return [Command("raw"), state(), command, Command("raw"), state()]


def lend_all(draw):
    return [Command(f"lend {name} +{draw.choice([0, 0, 1, 5])} {draw.randint(0, 99)}") for name in BUFFERS]


def calls(draw, h, count):
    """Accepted and refused calls, each between two looks."""
    out = []
    for _ in range(count):
        name = draw.choice(["insert", "batch", "batch", "refit", "route", "spread", "validate", "shape"])
        n = {"insert": 1, "spread": 0, "validate": 0}.get(name, draw.choice([0, 0, 1, 2, 4]))
        text = name + words(flat(rows(draw, h.dim, n, draw.choice(["ties", "uniform", "edges"]))))
        if name == "shape":
            text = "insert" + words([1.0] * (h.dim + 1))
        if draw.random() < 0.5:
            out.append(Command(f"spoil {draw.randint(0, 99)}"))
        out += looked(Command(text))
    return out


def spoilt_head(draw, h):
    """Calls on a head out of its limits, or on a tree that fails the check."""
    name, value, good = draw.choice([("leaf_cap", 0, h.leaf_cap), ("branching", 17, h.branching),
                                     ("merged", h.most, 0), ("root", 2**32 - 1, None),
                                     ("threshold", word(math.nan), None)])
    call = draw.choice(["insert", "batch", "refit", "route"]) + words([1.0] * h.dim)
    out = [Command(f"set {name} {value}")] + looked(Command(call))
    return out + ([Command(f"set {name} {good}"), Command("validate", "ok")] if good is not None else [])


def roomy_tree(draw, h):
    """A passing tree that has room for more rows; half of them with many NaNs."""
    tree = passing(draw, h, threshold(draw), "grid")
    if sum(int(w) for w, _ in tree.entries) > TOP - 100:
        for entry in tree.entries:
            entry[0] = 1.0
        tree.sum_weights()
    if draw.random() < 0.5:
        for numbers in [n.numbers for n in tree.nodes] + [numbers for _, numbers in tree.entries]:
            numbers[:] = [math.nan if draw.random() < 0.3 else x for x in numbers]
    return tree


def followed(draw):
    """A created or a loaded tree in buffers that hold anything where nothing is read."""
    h = settings(draw, 5, 3)
    out = lend_all(draw)
    if draw.random() < 0.5:
        out.append(Command(f"create {h.text()} {word(threshold(draw))}", "ok"))
    else:
        out.append(Command(roomy_tree(draw, h).text(), "ok"))
    out += [Command("raw"), state()] + calls(draw, h, draw.randint(2, 5))
    if draw.random() < 0.3:
        out += spoilt_head(draw, h)
    if draw.random() < 0.5:
        name = draw.choice(["output", "spreads"])
        out.append(Command(f"lend {name} =0 {draw.randint(0, 99)}"))
        out += looked(Command("route" + words([0.0] * h.dim) if name == "output" else "spread"))
    return out


def watched(draw, case):
    """A case of another kind, each call between two looks, in buffers that hold anything."""
    out = lend_all(draw)
    for command in case:
        name = command.text.split(" ")[0]
        if name == "lend":
            out.append(Command(f"{command.text} {draw.randint(1, 99)}"))
        elif name in CALLS:
            out += looked(command)
        else:
            out.append(command)
    return out


def with_bits(draw, command):
    """Every NaN of a command with bits of its own."""
    text = re.sub("7ff8000000000000", lambda _: nan_word(draw), command.text)
    return Command(text, command.expect)


def lent(draw):
    """Half of them accepted calls and a few refused; then every refusal, and damaged trees."""
    pick = draw.random()
    if pick < 0.5:
        case = followed(draw)
    else:
        case = watched(draw, refused(draw) if pick < 0.75 else damaged(draw))
    return [with_bits(draw, command) for command in case]
