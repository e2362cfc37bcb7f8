"""One target's figures: how deep each exported call goes."""
import os

from .compiled import OWN, Code, compiled
from .listing import code_bytes
from .paths import Calls
from .state import Unknown

INSERTS = ("cftree_insert_row", "cftree_insert_batch")
# One function does the work of inserts and of refits: a call of one kind does nothing of the other.
NEVER = {"cftree_insert_row": {"refit"}, "cftree_insert_batch": {"refit"}, "cftree_refit": {"insert", "rebuild"}}


class Figures:
    """The walks through a target's archive, or through what other flags make of its module."""

    def __init__(self, target, folder, flags=None):
        if not os.path.exists(target.module):
            raise Unknown(f"{target.module} is missing: bin/library {target.name}")
        with open(target.module, encoding="utf-8") as file:
            text = file.read()
        archive = target.archive
        if flags is not None:
            target.flags = [f for f in target.flags if f.startswith(("-mcpu=", "-mfloat-abi="))] + flags
            archive = compiled(target, text, os.path.join(folder, "cftree.o"))
        self.bytes = code_bytes(archive)
        self.code = Code(target, archive, text, folder)
        self.walks = {}
        exported = [n for n in self.code.frames if n.startswith("cftree_") and n not in OWN.values()]
        self.calls = sorted(exported, key=lambda n: (-self.deepest(n).total, n))

    def walk(self, call, plain=False):
        """The walk for a call; `plain`: an insert that does not come to a rebuild."""
        without = frozenset(NEVER.get(call, ())) | ({"rebuild"} if plain else set())
        if without not in self.walks:
            self.walks[without] = Calls(self.code.kind, self.code.frames, without)
        return self.walks[without]

    def deepest(self, call, plain=False):
        return self.walk(call, plain).deepest(call)

    def to_sum(self, call, plain=False):
        """None where the call comes to no sum."""
        return self.walk(call, plain).to_sum(call)
