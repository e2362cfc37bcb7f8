"""x86-64: how an instruction moves the stack, and where it goes on. Intel's order: what is written stands first."""
import re

from .state import Unknown, number, place

RETURN = 8          # bytes that a call pushes
FRAME = "rbp"
WRITTEN = re.compile(r"(r|e)?bpl?$")
TRAPS = ("ud2", "int3", "hlt")


def goes(ins):
    """What comes after: ("plain" | "call" | "tail" | "jump" | "branch" | "table" | "return" | "trap", where to)."""
    target = ins.callee or (place(ins.words) if ins.op == "call" or ins.op.startswith("j") else None)
    if ins.op == "call":
        if target is None:
            raise Unknown(f"calls by an address: call {ins.words}")
        return "call", target
    if ins.op in ("jmp", "notrack"):
        if target is None:
            return "table", ins.operands[0].split()[-1]
        return ("tail" if ins.callee else "jump"), target
    if ins.op.startswith("j"):
        return "branch", target
    if ins.op.startswith("ret"):
        return "return", None
    return ("trap" if ins.op in TRAPS else "plain"), None


def address(text, state):
    """The depth of `[rsp + 16]` or `[rbp - 40]`, or None."""
    found = re.fullmatch(r"\[(rsp|rbp)(?: ([-+]) (\d+))?\]", text)
    if not found:
        return None
    base = ("sp", state.depth) if found[1] == "rsp" else state.known.get(FRAME)
    if base is None:
        return None
    return base[1] - int(found[3] or 0) * (-1 if found[2] == "-" else 1)


def moved(ins, state):
    """The stack after an instruction."""
    op, a = ins.op, ins.operands
    if op == "push":
        return state.with_depth(state.depth + 8)
    if op == "pop" and a != ["rsp"]:
        return state.with_depth(state.depth - 8).forgetting([FRAME] if a == [FRAME] else [])
    if op == "leave" and FRAME in state.known:
        return state.with_depth(state.known[FRAME][1] - 8).forgetting([FRAME])
    if op == "mov" and a == [FRAME, "rsp"]:
        return state.knowing(FRAME, ("sp", state.depth))
    if a and WRITTEN.match(a[0]) and op not in ("cmp", "test"):
        return state.forgetting([FRAME])
    if (a and a[0] in ("rsp", "esp", "sp", "spl") and op not in ("cmp", "test")) or op in ("leave", "enter", "pushfq", "popfq"):
        return by_value(ins, state)
    return state


def by_value(ins, state):
    """The stack after an instruction that writes rsp."""
    op, a = ins.op, ins.operands
    if op in ("sub", "add") and number(a[1]) is not None:
        return state.with_depth(state.depth + number(a[1]) * (1 if op == "sub" else -1))
    if op == "lea" and (depth := address(a[1], state)) is not None:
        return state.with_depth(depth)
    if op == "mov" and a == ["rsp", FRAME] and FRAME in state.known:
        return state.with_depth(state.known[FRAME][1])
    raise Unknown(f"moves the stack in a way that is not followed: {op} {ins.words}")


def beneath(ins):
    """Bytes used below the stack, in what the convention calls the red zone."""
    return max([int(n) for n in re.findall(r"\[rsp[^\]]* - (\d+)\]", ins.words) if ins.op != "lea"] or [0])


def kept(state):
    """What a call leaves in the registers: all that is followed here."""
    return state
