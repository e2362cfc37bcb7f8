"""The deepest paths through the calls of an archive."""
from .helpers import allowance
from .lines import part
from .state import Unknown

# The one function that calls itself: the fold of a list by halves. A list of one is copied, a longer one is halved, the back
# half the larger where they differ: a list of 16 takes 5 activations at most, of 16, 8, 4, 2 and 1, and one of 17 would take 6.
# None of 17 is folded, though refold's own contract does not say so: both callers, a rebuild (`merged-standing`) and a refit
# (`rounds_standing`), hand over a tree with right `Links` and nothing over, whose `caps` keep each list within its cap, 16 at most.
# It joins two summaries only where the list has two or more, and that is the fourth activation at most.
FOLD, ACTIVATIONS, JOINING = "refold::fold::fold_balanced", 5, 4


class Path:
    def __init__(self, total, steps):
        self.total, self.steps = total, steps   # steps: (bytes, function, times)


class Calls:
    """Every function's frame and whom it calls. What has a mark of `without` is not followed."""

    def __init__(self, kind, frames, without=()):
        self.kind, self.frames, self.without = kind, frames, frozenset(without)
        self.deep, self.summed, self.under_way = {}, {}, []

    def again(self, frame):
        """How deep a function calls itself, 0 if it does not."""
        own = max((c.depth for c in frame.calls if c.callee == frame.name), default=0)
        if own and frame.name != FOLD:
            raise Unknown(f"{frame.name} calls itself, and only of {FOLD} it is known how often")
        return own

    def followed(self, frame):
        """The calls that are followed, those of itself apart."""
        for call in frame.calls:
            if call.callee != frame.name and not (call.marks | {part(call.callee)}) & self.without:
                yield call

    def deepest(self, name):
        """The deepest path from a function's entry."""
        if name not in self.frames:
            n = allowance(self.kind, name)
            return Path(n, [(n, name, 1)])
        if name in self.under_way:
            raise Unknown("a circle of calls: " + ", ".join(self.under_way[self.under_way.index(name):] + [name]))
        if name not in self.deep:
            self.under_way.append(name)
            self.deep[name] = self.best(name, self.frames[name].depths.values(), self.deepest)
            self.under_way.pop()
        return self.deep[name]

    def to_sum(self, name):
        """The deepest path to a distance sum; None where there is no way to one. `deepest` has seen to circles."""
        if name not in self.frames:
            return None
        if name not in self.summed:
            sums = [(depth, marks) for depth, marks in self.frames[name].depths.values() if "sum" in marks]
            self.summed[name] = self.best(name, sums, self.to_sum)
        return self.summed[name]

    def best(self, name, places, of):
        """The deepest path that ends in one of the function's own places, or goes on by one of its calls."""
        again, best = self.again(self.frames[name]), None
        ways = [(depth, marks, None) for depth, marks in places if not marks & self.without]
        ways += [(c.depth, c.marks | {part(c.callee)}, c.callee) for c in self.followed(self.frames[name])]
        for depth, marks, callee in ways:
            below = of(callee) if callee else Path(0, [])
            times = 1 if not again else JOINING if "join" in marks else ACTIVATIONS
            if below and (best is None or (times - 1) * again + depth + below.total > best.total):
                best = Path((times - 1) * again + depth + below.total, [(depth, name, times)] + below.steps)
        return best
