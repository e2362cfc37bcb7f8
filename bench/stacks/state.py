"""The stack at one place of a function, and the ways in which reading it ends."""
import re


class Unknown(Exception):
    """Something that is not counted, since it can't be followed: better no figure than a wrong one."""


class State:
    """How many bytes the stack is below the caller's, and what registers that may move it hold."""

    def __init__(self, depth, known=()):
        self.depth = depth
        self.known = dict(known)   # register: ("sp", its depth) or ("number", its value)

    def with_depth(self, depth):
        return State(depth, self.known)

    def knowing(self, register, what):
        return State(self.depth, {**self.known, register: what})

    def forgetting(self, registers):
        if not any(r in self.known for r in registers):
            return self
        return State(self.depth, {r: what for r, what in self.known.items() if r not in registers})

    def met(self, other):
        """What holds by either way; None where the depths differ."""
        if self.depth != other.depth:
            return None
        return State(self.depth, set(self.known.items()) & set(other.known.items()))

    def same(self, other):
        return self.depth == other.depth and self.known == other.known


def number(text):
    """An immediate, with or without `#`: -16, 0x1f; None if it is none."""
    found = re.fullmatch(r"#?(-?)(0x[0-9a-f]+|\d+)", text)
    return int(found[2], 0) * (-1 if found[1] else 1) if found else None


def place(text):
    """The address of `0xaa <name+0xaa>`, or None."""
    found = re.match(r"#?(0x[0-9a-f]+)(?: <|$)", text)
    return int(found[1], 16) if found else None


def split(words):
    """Operands, not split within brackets and braces."""
    return [part.strip() for part in re.split(r",(?![^\[{]*[\]}])", words)] if words else []
