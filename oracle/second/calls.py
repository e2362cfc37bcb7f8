"""Document 01, Seven refusals: the public calls, each refused or done whole."""
from . import lent
from .check import failing, settings_hold
from .floats import TOP, bits, one_nan, word
from .rebuild import rebuild, refold
from .refit import refit, route
from .summaries import spread
from .text import state_from
from .tree import Settings, Tree, insert
from .wrong import wrong

SETTINGS, ROOM, TREE, SHAPE, EMPTY, FULL, OUTPUT = 1, 2, 3, 4, 5, 6, 7
HEAD = {"dim": "dim", "branching": "branching", "leaf_cap": "leaf_cap", "max_leaves": "most",
        "feature": "feature", "dist": "dist", "abs": "abs"}


class Refused(Exception):
    """A refusal's number and the values that come with it."""

    def __init__(self, *numbers):
        super().__init__(*numbers)
        self.numbers = numbers


class Library:
    """A head and its lent buffers. A refused call leaves all of it as it was."""

    def __init__(self):
        self.tree = None
        self.buffers = {name: lent.Buffer(name) for name in lent.NAMES}
        self.tracked = False      # whether the buffers' words are followed
        self.last_need = {}       # of scratch and outputs, by the last call

    # what is not a call: lending, loading, setting

    def need(self):
        return lent.needed(self.tree.settings) if self.tree else {}

    def resize(self):
        if self.tracked:
            for name, count in self.need().items():
                self.buffers[name].resize(count)

    def lend_afresh(self, name, count):
        """Scratch and outputs are lent anew for each call, `count` being what it needs; with
        settings outside their limits none is."""
        count = count if settings_hold(self.tree.settings, self.tree.threshold) else 0
        self.last_need[name] = count
        if self.tracked:
            self.buffers[name].words = []
            self.buffers[name].resize(count)

    def track(self):
        """From here on the buffers' words are followed."""
        if not self.tracked:
            self.tracked = True
            self.resize()
            if self.tree:
                lent.overlay(self.tree, self.buffers)

    def lend(self, name, amount, seed):
        buffer = self.buffers[name]
        buffer.offset, buffer.exact = (0, amount[1]) if amount[0] == "=" else (amount[1], None)
        buffer.seed = seed
        self.track()
        self.resize()

    def spoil(self, seed):
        self.track()
        lent.spoil(self.tree, self.buffers, seed, self.need())

    def load(self, lines):
        self.tree = state_from(lines)
        if self.tracked:
            self.lend_tree_afresh()
            lent.overlay(self.tree, self.buffers)

    def lend_tree_afresh(self):
        for name in ("floats", "links"):
            self.buffers[name].words = []
        self.resize()

    def set(self, name, value):
        """Any value for a field of the head."""
        if name in HEAD:
            old = self.tree.settings
            fields = {k: getattr(old, k) for k in HEAD.values()}
            fields[HEAD[name]] = value
            fields["absorb"] = fields.pop("abs")
            self.tree.settings = Settings(**fields)
        else:
            setattr(self.tree, {"nodes": "node_count", "entries": "entry_count"}.get(name, name), value)

    # the refusals, in order of checking

    def check_settings(self):
        if not settings_hold(self.tree.settings, self.tree.threshold):
            raise Refused(SETTINGS)

    def check_room(self):
        """A lent buffer is shorter than needed."""
        for name, count in self.need().items():
            if (len(self.buffers[name].words) if self.tracked else count) < count:
                raise Refused(ROOM)
        for name in lent.SCRATCH:
            count = self.last_need[name]
            if self.buffers[name].length(count) < count:
                raise Refused(ROOM)

    def check_tree(self):
        condition = failing(self.tree)
        if condition:
            raise Refused(TREE, condition)

    def cut(self):
        """What stands past the counts is not looked at, and goes."""
        t = self.tree
        t.nodes, t.entries = t.nodes[: t.node_count], t.entries[: t.entry_count]

    def check_shape(self, numbers, one_row):
        dim = self.tree.settings.dim
        if one_row and len(numbers) != dim:
            raise Refused(SHAPE, dim, len(numbers) % dim if wrong("shape_remainder") else len(numbers))
        if len(numbers) % dim:
            raise Refused(SHAPE, dim, len(numbers) if wrong("shape_rows") else len(numbers) % dim)

    def check_output(self, name, count):
        length = self.buffers[name].length(count)
        if length < count or (wrong("output_exact") and length != count):
            raise Refused(OUTPUT)

    def begin(self, call, numbers=None, one_row=False):
        """Refusals 1 to 4, and the rows."""
        dim = self.tree.settings.dim
        for name, need in lent.scratch(self.tree.settings, call).items():
            self.lend_afresh(name, need)
        if numbers is not None and wrong("shape_before_settings") and dim:
            self.check_shape(numbers, one_row)
        self.check_settings()
        self.check_room()
        if numbers is not None and wrong("shape_before_tree"):
            self.check_shape(numbers, one_row)
        if numbers is not None and wrong("empty_before_shape") and call == "route":
            self.check_empty(numbers)
        self.check_tree()
        if call not in ("insert", "refit"):
            self.loses_bits("look_one_nan")
        if numbers is None:
            return []
        self.check_shape(numbers, one_row)
        return [numbers[at : at + dim] for at in range(0, len(numbers), dim)]

    def check_empty(self, rows):
        if (rows or wrong("empty_for_no_rows")) and self.tree.entry_count == 0:
            raise Refused(EMPTY)

    def loses_bits(self, reading):
        """For a wrong reading: every lent NaN becomes the one that is printed."""
        if wrong(reading) and self.tracked:
            for name in lent.FLOATS:
                self.buffers[name].words = list(map(one_nan, self.buffers[name].words))

    def refused(self):
        """For a wrong reading: a refusal that touches what is lent."""
        self.loses_bits("refusal_one_nan")
        if wrong("refusal_clears") and self.tracked:
            for name in lent.SCRATCH:
                words = self.buffers[name].words
                words[:] = [0] * len(words)

    def changed(self, call):
        self.tree.count()
        if self.tracked:
            need = {**self.need(), **lent.scratch(self.tree.settings, call)}
            lent.clear(self.tree, self.buffers, need)

    # the calls

    def create(self, settings, threshold):
        if not settings_hold(settings, threshold):
            raise Refused(SETTINGS)
        if wrong("minus_zero_threshold"):
            threshold = threshold + 0.0
        before, self.tree = self.tree, Tree(settings, threshold)
        if self.tracked:
            self.lend_tree_afresh()
        for name in lent.SCRATCH:
            self.lend_afresh(name, 0)
        try:
            self.check_room()
        except Refused:
            self.tree = before
            raise
        self.changed("create")

    def insert(self, numbers, one_row):
        rows = self.begin("insert", numbers, one_row)
        total = int(self.tree.nodes[self.tree.root].summary.weight)
        if total + len(rows) > (TOP - 1 if wrong("full_at_top") and rows else TOP):
            if not wrong("full_by_row"):
                raise Refused(FULL)
        self.cut()
        count = self.tree.rebuilds
        for row in rows:
            if wrong("full_by_row") and self.tree.nodes[self.tree.root].summary.weight >= TOP:
                raise Refused(FULL)
            insert(self.tree, row)
            limit = self.tree.settings.most - (1 if wrong("rebuild_at_m") else 0)
            if len(self.tree.entries) > max(limit, 1):
                rebuild(self.tree)
        if wrong("count_by_call"):
            self.tree.rebuilds = min(self.tree.rebuilds, count + 1)
        if wrong("zero_rows_rebuild") and not rows and self.tree.entries:
            refold(self.tree)
        self.changed("insert")
        if not rows:
            self.loses_bits("zero_rows_one_nan")

    def refit(self, numbers):
        rows = self.begin("refit", numbers)
        if self.tree.entry_count and len(rows) > TOP:
            raise Refused(FULL)
        self.cut()
        refit(self.tree, rows)
        self.changed("refit")

    def route(self, numbers):
        self.lend_afresh("output", len(numbers) // max(self.tree.settings.dim, 1))
        rows = self.begin("route", numbers)
        if wrong("output_before_empty"):
            self.check_output("output", len(rows))
        self.check_empty(rows)
        self.check_output("output", len(rows))
        return self.written("output", [route(self.tree, row) for row in rows])

    def spread(self):
        h = self.tree.settings
        self.lend_afresh("spreads", min(self.tree.entry_count, h.most + 1) * h.dim)
        self.begin("spread")
        self.check_output("spreads", self.tree.entry_count * h.dim)
        entries = self.tree.entries[: self.tree.entry_count]
        return self.written("spreads", [x for e in entries for x in spread(h, e)])

    def written(self, name, values):
        """To the front of the output."""
        if self.tracked:
            words = self.buffers[name].words
            words[: len(values)] = [bits(x) for x in values] if name == "spreads" else values
            if wrong("route_clears"):
                words[len(values) :] = [0] * (len(words) - len(values))
        return [word(x) for x in values] if name == "spreads" else values

    def validate(self):
        self.begin("validate")
