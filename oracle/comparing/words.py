"""Every lent word before and after a call: what document 01's Sizes says of them.

Words that a call leaves alone are compared by their bits. Where a call has worked floats out, NaN is one value.
"""

CHANGING = ("create", "insert", "batch", "refit")
CALLS = CHANGING + ("route", "spread", "validate")
SCRATCH = ["scratch_floats", "scratch_links"]
FLOATS = ["floats", "scratch_floats", "spreads"]
NAN = "7ff8000000000000"


class Looked:
    """A `raw` answer and the `state` after it."""

    def __init__(self, raw, state):
        self.buffers = {}
        for line in raw.split("\n")[1:-1]:
            name, length, needed, *words = line.split(" ")
            self.buffers[name] = (int(needed), unpacked(words))
            if len(self.buffers[name][1]) != int(length):
                raise ValueError(f"raw {name} has not the length it says")
        self.state = state


def unpacked(words):
    out = []
    for text in words:
        text, _, count = text.partition("*")
        out += [text] * (int(count) if count else 1)
    return out


def tree_words(state):
    """The needed floats and links that a state asks for; None where the encoding decides."""
    lines = state.split("\n")
    dim, branching, leaf_cap, most = map(int, lines[1].split(" ")[1:5])
    stride, step = 1 + 2 * dim, 3 + max(branching, leaf_cap)
    room = (most + 1) * (most + 2) // 2
    floats, links = ["0" * 16] * ((room + most + 1) * stride), ["0"] * (room * step)
    for line in lines[3:-1]:
        words = line.split(" ")
        at = int(words[1])
        if words[0] == "entry":
            numbers, slot = words[2:], (room + at) * stride
        else:
            colon = words.index(":")
            numbers, slot = words[colon + 1 :], at * stride
            links[at * step] = None if words[2] == "-" else words[2]
            links[at * step + 1] = None
            items = words[5:colon]
            links[at * step + 2 : at * step + 2 + len(items)] = items
        floats[slot : slot + len(numbers)] = numbers
    return {"floats": floats, "links": links}


def values(words):
    """Floats with every NaN the same."""
    return [NAN if int(w, 16) & (2**63 - 1) > 0x7FF << 52 else w for w in words]


def agree(asked, words):
    return len(asked) == len(words) and all(a is None or a == w for a, w in zip(asked, words))


def idle(command, before):
    """Whether a changing call has nothing to do: no rows, or a refit of a tree with no entries."""
    name, *numbers = command.split(" ")
    entries = before.state.split("\n")[2].split(" ")[5] if before else None
    return (name in ("batch", "refit") and not numbers) or (name == "refit" and entries == "0")


def after_change(command, before, after, seeds):
    """An accepted changing call: the tree and zeros in the needed slots, surplus untouched."""
    for name, want in tree_words(after.state).items():
        needed, words = after.buffers[name]
        if not agree(want, values(words[:needed]) if name == "floats" else words[:needed]):
            return f"{name}: a needed word is neither the tree's nor zero"
        if idle(command, before):
            old = [b if w is None or int(w, 16) else w for w, b in zip(want, before.buffers[name][1])]
            if before.state != after.state or words[:needed] != old:
                return f"{name}: the tree changed in a call with nothing to do"
        lent = before.buffers[name][1] if before else lent_words(name, seeds, len(words))
        if words[needed:] != lent[needed:]:
            return f"{name}: the surplus was touched"
    for name in SCRATCH:
        needed, words = after.buffers[name]
        if words != lent_words(name, {}, needed) + lent_words(name, seeds, len(words))[needed:]:
            return f"{name}: not zeros and then the lent words"
    return None


def filler(seed, at, is_float):
    """Word `at` of a buffer lent with a seed, as README.md defines it."""
    x = 0 if seed == 0 else (seed * 0x9E3779B97F4A7C15 + at * 0xBF58476D1CE4E5B9) % 2**64
    x ^= x >> 31
    if not is_float:
        return str(x & 0xFFFFFFFF)
    return "%016x" % (x | 0x7FF << 52 if x >> 53 & 1 else x & 0xFFEFFFFFFFFFFFFF)


def lent_words(name, seeds, count):
    return [filler(seeds.get(name, 0), at, name in FLOATS) for at in range(count)]


def after_reading(command, answer, before, after, seeds):
    """Routing and spread write to the front of their output; refusals and the rest nothing."""
    for buffer in ("floats", "links"):
        if before.buffers[buffer][1] != after.buffers[buffer][1]:
            return f"{buffer}: touched by a call that changes nothing"
    if before.state != after.state:
        return "the tree changed in a call that changes nothing"
    for buffer in SCRATCH:
        words = after.buffers[buffer][1]
        if words != lent_words(buffer, seeds, len(words)):
            return f"{buffer}: touched by a call that changes nothing"
    name = {"route": "output", "spread": "spreads"}.get(command.split(" ")[0])
    if name is None:
        return None
    written = answer.split(" ")[1:] if answer.startswith("ok") else []
    words = after.buffers[name][1]
    front = words[: len(written)]
    front = values(front) if name == "spreads" else front
    if front + words[len(written) :] != written + lent_words(name, seeds, len(words))[len(written) :]:
        return f"{name}: not the answer at the front and the lent words after it"
    return None


def seeds_at(commands, at):
    """The seeds that the outputs were lent with, before a command."""
    out = {}
    for command in commands[:at]:
        words = command.text.split(" ")
        if words[0] == "lend":
            out[words[1]] = int(words[3]) if len(words) > 3 else 0
    return out


def looked_at(commands, answers, at):
    """The look at all words that begins with a command, or None."""
    around = [c.text for c in commands[at : at + 2]] if at >= 0 else []
    if around != ["raw", "state"] or not answers[at + 1].startswith("state"):
        return None
    return Looked(answers[at], answers[at + 1])


def broken(commands, answers):
    """The first call of a case between two looks that breaks a rule on lent words, or None.
    A creation needs no look before it."""
    for at, (command, answer) in enumerate(zip(commands, answers)):
        name = command.text.split(" ")[0]
        after = looked_at(commands, answers, at + 1)
        before = looked_at(commands, answers, at - 2)
        if name not in CALLS or not after or not (before or name == "create"):
            continue
        seeds = seeds_at(commands, at)
        if name in CHANGING and answer.startswith("ok"):
            found = after_change(command.text, None if name == "create" else before, after, seeds)
        else:
            found = after_reading(command.text, answer, before, after, seeds)
        if found:
            return f"`{command.text[:60]}` ({answer[:30]}): {found}"
    return None
