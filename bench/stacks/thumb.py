"""Arm's Thumb: how an instruction moves the stack, and where it goes on."""
import re

from .state import Unknown, number, place

RETURN = 0          # a call leaves its way back in lr
BEFORE = re.compile(r"\[sp, #(-?\d+)\]!$")
AFTER = re.compile(r"\[sp\], #(-?\d+)$")
AFTER_PC = re.compile(r"pc, \[sp\],")
CONDITIONS = "eq ne hs lo cs cc mi pl vs vc hi ls ge lt gt le".split()
OTHER = dict(zip(CONDITIONS, "ne eq lo hs cc cs pl mi vc vs ls hi lt ge le gt".split()))
NO_WRITE = ("cmp", "cmn", "tst", "teq", "str")
AT_STACK = ("stm", "ldm", "vstmia", "vldmia")   # from sp on upwards; with `sp!` they move it


def block(ins):
    """Of an `it`: for the instructions that follow, which run if it holds and which if not; None of another."""
    if not re.fullmatch(r"it[te]{0,3}", ins.op):
        return None
    each = ["t", *ins.op[2:]]
    holds = tuple(ins.words if e == "t" else None for e in each)
    return holds, tuple(None if e == "t" else OTHER[ins.words] for e in each)


def bare(ins, condition=None):
    """The instruction's name without its width and, within a block, its condition."""
    op = re.sub(rf"{condition}(?=\.|$)", "", ins.op, count=1) if condition else ins.op
    return re.sub(r"\.[wn]$", "", op)


def registers(ins):
    """How many registers stand in braces."""
    names = re.search(r"\{(.*)\}", ins.words)[1].split(",")
    if any("-" in n for n in names):
        raise Unknown(f"a range of registers is not followed: {ins.op} {ins.words}")
    return len(names)


def goes(ins, condition=None):
    """What comes after: ("plain" | "call" | "tail" | "jump" | "branch" | "table" | "return" | "trap", where to)."""
    op = bare(ins, condition)
    target = ins.callee or (place(ins.operands[-1]) if ins.operands else None)
    if op == "bl":
        return "call", target
    if op == "blx" or op == "bx" and ins.words != "lr":
        raise Unknown(f"goes to an address: {ins.op} {ins.words}")
    if op == "b":
        return ("tail" if ins.callee else "jump"), target
    if op in ("tbb", "tbh"):
        return "table", None
    if op in ("cbz", "cbnz") or op[:1] == "b" and op[1:] in CONDITIONS:
        return "branch", target
    if op == "bx" or op in ("pop", "ldm") and re.search(r"\bpc\b", ins.words) or op == "ldr" and AFTER_PC.match(ins.words):
        return "return", None
    if ins.operands[:1] == ["pc"]:
        raise Unknown(f"goes to an address: {ins.op} {ins.words}")
    return ("trap" if op in ("trap", "udf", "bkpt") else "plain"), None


def moved(ins, state, condition=None):
    """The stack after an instruction."""
    op, a = bare(ins, condition), ins.operands
    if op in ("push", "pop", "vpush", "vpop") or op in ("stmdb", "ldm") and a[0] == "sp!":
        size = (8 if "{d" in ins.words else 4) * registers(ins)
        after = state.with_depth(state.depth + size * (1 if op in ("push", "vpush", "stmdb") else -1))
        return after if after.depth > state.depth else after.forgetting(re.findall(r"\br\d+\b", ins.words))
    if found := BEFORE.search(ins.words) or AFTER.search(ins.words):
        return state.with_depth(state.depth - int(found[1])).forgetting(a[:-1])
    if a and a[0] in ("sp", "sp!") and op not in NO_WRITE and not (a[0] == "sp" and op in AT_STACK):
        return by_value(ins, op, state)
    if re.search(r"\[sp.*\]!|\[sp\],|\bsp!", ins.words):
        raise Unknown(f"moves the stack in a way that is not followed: {ins.op} {ins.words}")
    return remembered(ins, op, state)


def remembered(ins, op, state):
    """What is known of registers after an instruction that leaves the stack alone."""
    a = ins.operands
    base = ("sp", state.depth) if a[1:2] == ["sp"] else state.known.get(a[1], ("",)) if a[1:] else ("",)
    by = number(a[2]) if len(a) == 3 else 0 if len(a) == 2 and op == "mov" else None
    if op in ("mov", "add", "addw", "sub", "subw") and base[0] == "sp" and by is not None:
        return state.knowing(a[0], ("sp", base[1] + by * (1 if op.startswith("sub") else -1)))
    if op in ("mov", "movs", "movw") and len(a) == 2 and number(a[1]) is not None:
        return state.knowing(a[0], ("number", number(a[1])))
    if op == "movt" and state.known.get(a[0], ("",))[0] == "number":
        return state.knowing(a[0], ("number", number(a[1]) << 16 | state.known[a[0]][1]))
    rest = re.sub(r"\[[^\]]*\](?!!|,)", "", ins.words)
    return state.forgetting(re.findall(r"\b(?:r\d+|lr)\b", rest))


def by_value(ins, op, state):
    """The stack after an instruction that writes sp."""
    a = ins.operands if len(ins.operands) == 3 else [ins.operands[0], "sp", ins.operands[-1]]
    if op == "mov" and state.known.get(a[2], ("",))[0] == "sp":
        return state.with_depth(state.known[a[2]][1])
    base = ("sp", state.depth) if a[1] == "sp" else state.known.get(a[1], ("",))
    by = number(a[2]) if number(a[2]) is not None else dict([state.known.get(a[2], ("", 0))]).get("number")
    if op in ("sub", "subw", "add", "addw") and base[0] == "sp" and by is not None:
        return state.with_depth(base[1] + by * (1 if op.startswith("sub") else -1))
    raise Unknown(f"moves the stack in a way that is not followed: {ins.op} {ins.words}")


def beneath(ins):
    """Bytes used below the stack without moving it."""
    return max([int(n) for n in re.findall(r"\[sp, #-(\d+)\](?!!)", ins.words)] or [0])


def kept(state):
    """What a call leaves in the registers."""
    return state.forgetting([r for r in state.known if r == "lr" or int(r[1:]) not in range(4, 12)])
