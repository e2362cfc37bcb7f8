"""Speaks the protocol of oracle/README.md over the second reading."""
from . import lent
from .calls import HEAD, Library, Refused
from .floats import unword
from .text import decimal, listing_lines, settings_from, state_lines
from .wrong import ON

COUNTERS = ["rebuilds", "merged", "nodes", "entries", "root"]


def field(name, text):
    """A value for `set`."""
    if name == "threshold":
        return unword(text)
    if name in COUNTERS or name in ("dim", "branching", "leaf_cap", "max_leaves"):
        return decimal(text)
    if name in HEAD:
        return decimal(text) if text.isdigit() else text
    raise ValueError(f"no such field: {name}")


def refusable(library, call):
    """`ok` and the answer's values, or `refused` with its number and values."""
    try:
        values = call() or []
    except Refused as refusal:
        library.refused()
        return ["refused " + " ".join(map(str, refusal.numbers))]
    return [" ".join(["ok"] + [str(v) for v in values])]


class Speaker:
    def __init__(self):
        self.library = Library()

    def lend(self, words):
        name, amount = words[0], words[1]
        if name not in lent.NAMES or amount[0] not in "+-=" or len(words) not in (2, 3):
            raise ValueError("lend BUFFER +K|-K|=K [SEED]")
        size = decimal(amount[1:])
        size = ("=", size) if amount[0] == "=" else ("+", -size if amount[0] == "-" else size)
        self.library.lend(name, size, decimal(words[2]) if len(words) == 3 else 0)
        return ["ok"]

    def answer(self, line, block):
        lib = self.library
        words = line.split(" ")
        name, rest = words[0], words[1:]
        if name == "create":
            settings, threshold = settings_from(rest[:-1]), unword(rest[-1])
            return refusable(lib, lambda: lib.create(settings, threshold))
        if name == "reset":
            self.library = Library()
            return ["ok"]
        if name == "load":
            lib.load(block)
            return ["ok"]
        if name == "lend":
            return self.lend(rest)
        if name not in ("insert", "batch", "refit", "route", "spread", "validate", "listing",
                        "state", "set", "spoil", "raw"):
            raise ValueError(f"no such command: {name}")
        if name == "raw":
            lib.track()
            return ["raw"] + lent.raw_text(lib.buffers, {**lib.need(), **lib.last_need}) + ["end"]
        if lib.tree is None:
            return ["none"]
        if name == "listing":
            return ["listing"] + listing_lines(lib.tree) + ["end"]
        if name == "state":
            return ["state"] + state_lines(lib.tree) + ["end"]
        if name == "spoil":
            lib.spoil(decimal(rest[0]))
            return ["ok"]
        if name == "set":
            lib.set(rest[0], field(rest[0], rest[1]))
            return ["ok"]
        return refusable(lib, lambda: self.call(name, [unword(w) for w in rest]))

    def call(self, name, numbers):
        lib = self.library
        if name in ("insert", "batch"):
            return lib.insert(numbers, name == "insert")
        if name == "refit":
            return lib.refit(numbers)
        if name == "route":
            return lib.route(numbers)
        return lib.spread() if name == "spread" else lib.validate()


def commands(lines):
    """Pairs of a command's line and its block, with the number of the line."""
    lines = enumerate(lines, 1)
    for number, line in lines:
        line = line.rstrip("\n")
        if not line or line.startswith("#"):
            continue
        block = []
        if line == "load":
            for _, inner in lines:
                inner = inner.rstrip("\n")
                if inner == "end":
                    break
                block.append(inner)
            else:
                raise ValueError(f"line {number}: load without end")
        yield number, line, block


def speak(source, out):
    speaker = Speaker()
    for number, line, block in commands(source):
        try:
            lines = speaker.answer(line, block)
        except Exception as why:
            if not ON:
                raise ValueError(f"line {number}: {why}") from why
            lines = ["broken"]      # a wrong reading can end in any way
        out.write("\n".join(lines) + "\n")
