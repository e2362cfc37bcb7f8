"""The frame of a function: how deep the stack is at each of its instructions, by every way through it."""
from . import aarch64, thumb, x86_64
from .state import State, Unknown

MACHINES = {"elf64-x86-64": x86_64, "elf64-littleaarch64": aarch64, "elf32-littlearm": thumb}


class Call:
    def __init__(self, callee, depth, marks):
        self.callee, self.depth, self.marks = callee, depth, marks


class Frame:
    """What a function takes by itself, in bytes below its caller's stack, its return address among them."""

    def __init__(self, name):
        self.name, self.calls, self.depths = name, [], {}   # depths: address to (deepest there, marks)

    def deepest(self, without=frozenset()):
        """Its own deepest place; what has one of these marks does not count."""
        return max((depth for depth, marks in self.depths.values() if not marks & without), default=0)

    def same(self, other):
        """Whether it is as deep, and calls the same functions from the same depths."""
        mine, its = ([(c.callee, c.depth) for c in each.calls] for each in (self, other))
        return self.deepest() == other.deepest() and mine == its


class Walk:
    """One function's instructions, each reached with its stack."""

    def __init__(self, function, machine):
        self.function, self.machine, self.frame = function, machine, Frame(function.name)
        self.at = {each.address: i for i, each in enumerate(function.code)}
        self.seen, self.work, self.table = {}, [], None
        self.calls = {}

    def fail(self, i, why):
        where = f"+{self.function.code[i].address:#x}" if i < len(self.function.code) else ""
        raise Unknown(f"{self.function.name}{where}: {why}")

    def reach(self, i, block, state):
        """Instruction i is reached; `block` has the conditions of a block of Thumb's that it is in."""
        if i >= len(self.function.code):
            self.fail(i, "runs past its end")
        before = self.seen.get((i, block))
        met = before.met(state) if before else state
        if met is None:
            self.fail(i, f"the stack is at {before.depth} or {state.depth} bytes, by the way that leads here")
        if before is None or not met.same(before):
            self.seen[i, block] = met
            self.work.append((i, block))

    def run(self):
        self.reach(0, (), State(self.machine.RETURN))
        while True:
            while self.work:
                self.step(*self.work.pop())
            rest = self.unreached()
            if rest is None:
                break
            if self.table is None:
                self.fail(rest, "nothing leads here")
            self.reach(rest, (), self.table)
        self.frame.calls = [self.calls[key] for key in sorted(self.calls)]
        return self.frame

    def unreached(self):
        """The first instruction that no way has led to: where there is a table of jumps, one of its places."""
        reached = {i for i, _ in self.seen}
        for i, each in enumerate(self.function.code):
            if i not in reached and each.op not in ("nop", "xchg") and self.goes(i, None)[0] != "trap":
                return i
        return None

    def goes(self, i, condition):
        each = self.function.code[i]
        try:
            return self.machine.goes(each, condition) if condition else self.machine.goes(each)
        except Unknown as why:
            self.fail(i, why)

    def moved(self, i, condition, state):
        each = self.function.code[i]
        try:
            return self.machine.moved(each, state, condition) if condition else self.machine.moved(each, state)
        except Unknown as why:
            self.fail(i, why)

    def step(self, i, block):
        """What comes after instruction i."""
        state, each = self.seen[i, block], self.function.code[i]
        if self.machine is thumb and (ways := thumb.block(each)):
            for way in ways:
                self.reach(i + 1, way, state)
            return
        condition, rest = (block[0], block[1:]) if block else (None, ())
        if block and condition is None:
            self.reach(i + 1, rest, state)
            return
        after = self.moved(i, condition, state)
        deep = max(state.depth, after.depth, state.depth + self.machine.beneath(each))
        self.frame.depths[each.address] = (max(deep, self.frame.depths.get(each.address, (0,))[0]), each.marks)
        self.follow(i, rest, self.goes(i, condition), state, after)

    def follow(self, i, rest, way, before, after):
        kind, target = way
        if kind in ("call", "tail") or kind == "branch" and isinstance(target, str):
            self.call(i, kind, target, before)   # a branch to another function is a jump as a last act, made or not
            after = self.machine.kept(after)
        elif kind in ("jump", "branch"):
            if target not in self.at:
                self.fail(i, "jumps out of the function")
            self.reach(self.at[target], (), after)
        elif kind == "table":
            self.jump_by_table(i, target, after)
        elif kind == "return" and after.depth != self.machine.RETURN:
            self.fail(i, f"returns with {after.depth} bytes on the stack")
        if kind in ("plain", "call", "branch"):
            self.reach(i + 1, rest, after)

    def call(self, i, kind, target, state):
        """A call; the last act of a function may be a jump, whose callee returns to the function's own caller."""
        if not isinstance(target, str):
            if target != self.function.code[0].address:
                self.fail(i, "calls into the middle of a function")
            target = self.function.name
        if kind != "call" and state.depth != self.machine.RETURN:
            self.fail(i, f"jumps to {target} with {state.depth} bytes on the stack")
        self.calls[i] = Call(target, state.depth if kind == "call" else 0, self.function.code[i].marks)

    def jump_by_table(self, i, register, state):
        """A jump to one of the function's own places: by an address that is a sum, not by one that was handed over."""
        if register:
            last = next((each for each in reversed(self.function.code[:i]) if each.operands[:1] == [register]), None)
            if last is None or last.op != "add":
                self.fail(i, f"jumps to an address in {register} that is not worked out from a table")
        if self.table and self.table.depth != state.depth:
            self.fail(i, "two tables of jumps at different depths of the stack")
        self.table = state.forgetting(list(state.known))


def frames(kind, functions):
    """The frame of every function, by name."""
    if kind not in MACHINES:
        raise Unknown(f"{kind}: no machine whose instructions are known here")
    return {name: Walk(each, MACHINES[kind]).run() for name, each in functions.items()}
