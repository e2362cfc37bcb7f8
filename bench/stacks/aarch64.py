"""AArch64: how an instruction moves the stack, and where it goes on."""
import re

from .state import Unknown, number, place

RETURN = 0          # a call leaves its way back in x30
FRAME = "x29"
BEFORE = re.compile(r"\[sp, #(-?\d+)\]!$")
AFTER = re.compile(r"\[sp\], #(-?\d+)$")
NO_WRITE = ("cmp", "cmn", "tst", "ccmp", "ccmn")


def goes(ins):
    """What comes after: ("plain" | "call" | "tail" | "jump" | "branch" | "table" | "return" | "trap", where to)."""
    target = ins.callee or (place(ins.operands[-1]) if ins.operands else None)
    if ins.op == "bl":
        return "call", target
    if ins.op.startswith("blr"):
        raise Unknown(f"calls by an address: {ins.op} {ins.words}")
    if ins.op == "b":
        return ("tail" if ins.callee else "jump"), target
    if ins.op == "br":
        return "table", ins.operands[0]
    if re.match(r"b\.|cbn?z$|tbn?z$", ins.op):
        return "branch", target
    if ins.op.startswith("ret"):
        return "return", None
    return ("trap" if ins.op in ("brk", "udf", "hlt") else "plain"), None


def shifted(words):
    """An immediate with its shift: `#1, lsl #12`; None if it is none."""
    n = number(words[0])
    if n is None or not words[1:]:
        return n
    by = re.fullmatch(r"lsl #(\d+)", words[1])
    return n << int(by[1]) if by else None


def moved(ins, state):
    """The stack after an instruction."""
    op, a = ins.op, ins.operands
    if found := BEFORE.search(ins.words) or AFTER.search(ins.words):
        return state.with_depth(state.depth - int(found[1])).forgetting(a[:-1])
    if a and a[0] in ("sp", "wsp") and op not in NO_WRITE:
        return by_value(ins, state)
    if a[1:2] == ["sp"] and a[0] == FRAME and op in ("mov", "add"):
        return state.knowing(FRAME, ("sp", state.depth - (shifted(a[2:]) or 0 if a[2:] else 0)))
    if op in ("mov", "movz") and len(a) == 2 and number(a[1]) is not None:
        return state.knowing(a[0].replace("w", "x"), ("number", number(a[1])))
    if re.search(r"\[sp.*\]!|\[sp\],", ins.words):
        raise Unknown(f"moves the stack in a way that is not followed: {op} {ins.words}")
    bare = re.sub(r"\[[^\]]*\](?!!|,)", "", ins.words)
    return state.forgetting([r.replace("w", "x") for r in re.findall(r"\b[xw]\d+\b", bare)])


def by_value(ins, state):
    """The stack after an instruction that writes sp."""
    op, a = ins.op, ins.operands
    base = ("sp", state.depth) if a[1] == "sp" else state.known.get(a[1])
    if op == "mov" and base and base[0] == "sp":
        return state.with_depth(base[1])
    if op in ("sub", "add") and base and base[0] == "sp":
        by = shifted(a[2:])
        if by is None and state.known.get(a[2], ("",))[0] == "number" and len(a) == 3:
            by = state.known[a[2]][1]
        if by is not None:
            return state.with_depth(base[1] + by * (1 if op == "sub" else -1))
    raise Unknown(f"moves the stack in a way that is not followed: {op} {ins.words}")


def beneath(ins):
    """Bytes used below the stack without moving it."""
    return max([int(n) for n in re.findall(r"\[sp, #-(\d+)\](?!!)", ins.words)] or [0])


def kept(state):
    """What a call leaves in the registers."""
    return state.forgetting([r for r in state.known if int(r[1:]) < 19 or r == "x30"])
