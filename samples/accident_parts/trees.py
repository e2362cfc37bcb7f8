"""A tree as the protocol's `state` prints it: what is read from it, and the word that the uplink changes."""
import math
import struct

BIT = 8      # of the word that names the dip's entry


def number(word):
    return struct.unpack(">d", bytes.fromhex(word))[0]


class Tree:
    """The leaves' lists by node number, and the entries' words: weight, means (the pressure first), deviation."""

    def __init__(self, state):
        self.lines = state.split("\n")[1:-1]
        head = self.lines[1].split(" ")
        self.rebuilds, self.merged, root = int(head[2]), int(head[3]), int(head[6])
        parts = [line.split(" ") for line in self.lines[2:]]
        nodes = [part for part in parts if part[0] == "node"]
        self.leaves = {at: [int(e) for e in node[5:node.index(":")]] for at, node in enumerate(nodes) if node[3] == "leaf"}
        self.entries = [part[2:] for part in parts if part[0] == "entry"]
        self.total = round(number(nodes[root][nodes[root].index(":") + 1]))

    def rows(self, entry):
        return round(number(self.entries[entry][0]))

    def pressure(self, entry):
        return number(self.entries[entry][1])

    def mean(self):
        """The mean pressure that the entries give, each by its rows: what an officer reads."""
        every = range(len(self.entries))
        return math.fsum(self.rows(e) * self.pressure(e) for e in every) / sum(map(self.rows, every))

    def twins(self):
        """The entries that stand there a second time, word for word."""
        return [at for at, entry in enumerate(self.entries) if entry in self.entries[:at]]

    def load(self):
        """The command that a speaker takes this tree by."""
        return "\n".join(["load", *self.lines, "end"])


class Damaged(Tree):
    """The same tree with one bit flipped in the word that names the dip's entry, the one of the lowest pressure: the word
    then names an entry of another leaf."""

    def __init__(self, sent):
        super().__init__("\n".join(["state", *sent.lines, "end"]))
        self.lost = min(range(len(sent.entries)), key=sent.pressure)
        self.twice = self.lost ^ BIT
        self.leaf = next(at for at, entries in sent.leaves.items() if self.lost in entries)
        place = sent.leaves[self.leaf].index(self.lost)
        words = self.lines[2 + self.leaf].split(" ")
        words[5 + place] = str(self.twice)
        self.lines[2 + self.leaf] = " ".join(words)
        self.leaves[self.leaf][place] = self.twice
