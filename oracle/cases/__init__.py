"""Generators of cases: lists of commands, the same for the same seed, kind and number."""
import random

from . import damaged, fresh, lent, loaded, refused, small

# name: (generator, share of a run over all kinds)
KINDS = {
    "small": (small.small, 10),
    "listing": (fresh.listing, 14),
    "history": (fresh.history, 18),
    "edges": (fresh.edges, 12),
    "stream": (fresh.stream, 5),
    "refits": (fresh.refits, 6),
    "large": (fresh.large, 2),
    "loaded": (loaded.loaded, 14),
    "loaded_any": (loaded.loaded_any, 8),
    "near": (loaded.near, 4),
    "loaded_large": (loaded.loaded_large, 2),
    "damaged": (damaged.damaged, 9),
    "refused": (refused.refused, 3),
    "lent": (lent.lent, 3),
}


def case(kind, seed, number):
    """The commands of one case."""
    return KINDS[kind][0](random.Random(f"{seed}/{kind}/{number}"))
