"""Inputs of the listing program: good ones, whose output the Rust gives, and bad ones."""
import random

from .draw import DISTANCES, rows, word

HEAD = b"1\t2\t4\t2\tspherical\teuclidean\teuclidean\t0000000000000000"
ZERO, ONE, TEN = b"0000000000000000", b"3ff0000000000000", b"4024000000000000"


def head(dim=1, branching=2, leaf_cap=4, most=24, feature="spherical", dist="euclidean",
         absorb="euclidean", limit=0.0):
    words = [str(dim), str(branching), str(leaf_cap), str(most), feature, dist, absorb, word(limit)]
    return "\t".join(words).encode()


def body(points):
    return b"".join(b"\n" + "\t".join(word(x) for x in row).encode() for row in points)


def drawn(seed, count, flavour, **settings):
    draw = random.Random(f"rowlist/{seed}")
    return head(**settings) + body(rows(draw, settings.get("dim", 1), count, flavour)) + b"\n"


def good():
    """Name and input."""
    out = {
        "example": b"\n".join([HEAD, ZERO, ONE, TEN]) + b"\n",
        "example-no-newline": b"\n".join([HEAD, ZERO, ONE, TEN]),
        "no-rows": HEAD + b"\n",
        "no-rows-no-newline": HEAD,
        "one-row": HEAD + b"\n" + ONE + b"\n",
        "odd-nan": HEAD + b"\nfff0000000000001\n" + ZERO + b"\n",
        "minus-zero-threshold": head(limit=-0.0) + body([[0.0], [-0.0], [0.0]]) + b"\n",
        "minus-zero-rows": head(feature="diagonal") + body([[-0.0], [-0.0]]) + b"\n",
        "one-entry": head(leaf_cap=1, most=1) + body([[0.0], [4.0]]) + b"\n",
        "overflow-spherical": head() + body([[1e200]]) + b"\n",
        "overflow-diagonal": head(feature="diagonal") + body([[1e200]]) + b"\n",
        "threshold-largest": head(limit=1.7976931348623157e308) + body([[0.0], [1e150], [-1e150]]) + b"\n",
        "within-threshold": head(limit=1.0) + body([[0.0], [1.0]]) + b"\n",
        "past-threshold": head(limit=1.0) + body([[0.0], [1.0000000000000002]]) + b"\n",
        "nan-rows": head(leaf_cap=2) + body([[float("nan")]] * 3) + b"\n",
        "infinite-rows": head(most=3) + body([[float("inf")], [0.0], [float("-inf")], [1.0], [2.0]]) + b"\n",
        "dim-8": drawn(1, 40, "blobs", dim=8, feature="diagonal", most=24, branching=16, leaf_cap=16),
        "sensor": drawn(2, 120, "sensor", dim=2, most=24, branching=3, leaf_cap=2),
        "ties": drawn(3, 60, "ties", dim=3, most=10, limit=0.5),
        "edges": drawn(4, 30, "edges", dim=2, most=6, feature="diagonal"),
    }
    for at, name in enumerate(DISTANCES):
        other = DISTANCES[(at + 2) % 6]
        out[f"dist-{name}"] = drawn(5 + at, 50, "blobs", dim=2, most=9, dist=name, absorb=other, limit=0.25)
    return out


def bad():
    """Name and input; document 01 decides the line."""
    fields = HEAD.split(b"\t")

    def first(at, value):
        return b"\t".join(fields[:at] + [value] + fields[at + 1 :]) + b"\n"

    row = HEAD + b"\n"
    return {
        "empty": b"", "newline-alone": b"\n", "blank-row": row + b"\n", "blank-end": row + ONE + b"\n\n",
        "dim-0": first(0, b"0"), "dim-9": first(0, b"9"), "dim-sign": first(0, b"+1"),
        "dim-zeros": first(0, b"01"), "dim-empty": first(0, b""), "dim-space": first(0, b" 1"),
        "dim-huge": first(0, b"18446744073709551617"), "branching-1": first(1, b"1"),
        "branching-17": first(1, b"17"), "leaf-cap-0": first(2, b"0"), "leaf-cap-17": first(2, b"17"),
        "most-0": first(3, b"0"), "most-25": first(3, b"25"), "most-256": first(3, b"256"),
        "feature-full": first(4, b"full"), "feature-case": first(4, b"Spherical"),
        "dist-unknown": first(5, b"lorentz"), "abs-empty": first(6, b""),
        "threshold-infinite": first(7, b"7ff0000000000000"), "threshold-nan": first(7, b"7ff8000000000000"),
        "threshold-negative": first(7, b"8000000000000001"), "threshold-case": first(7, b"3FF0000000000000"),
        "threshold-short": first(7, b"000000000000000"), "threshold-long": first(7, b"00000000000000000"),
        "field-missing": b"\t".join(fields[:7]) + b"\n", "field-surplus": HEAD + b"\t0\n",
        "spaces": HEAD.replace(b"\t", b" ") + b"\n", "carriage-return": HEAD + b"\r\n",
        "first-long": first(4, b"s" * 200), "row-empty-field": row + b"\t\n",
        "row-surplus": row + ONE + b"\t" + ONE + b"\n",
        "row-missing": head(dim=2) + b"\n" + ONE + b"\n", "row-tab-end": row + ONE + b"\t\n",
        "row-case": row + ZERO + b"\n3FF0000000000000\n", "row-letter": row + b"3ff000000000000g\n",
        "row-short": row + b"3ff000000000000\n", "row-space": row + ONE + b" \n",
        "row-long": row + ZERO + b"\n" + b"0" * 201 + b"\n", "row-nul": row + b"\0" * 16 + b"\n",
        "row-high-byte": row + b"\xff" * 16 + b"\n", "second-of-two": row + ONE + b"\nx\ny\n",
        "last-no-newline": row + ONE + b"\n" + b"3ff",
    }


def commands(data):
    """A good input as the protocol's commands."""
    lines = data.decode().strip("\n").split("\n")
    settings = lines[0].replace("\t", " ")
    numbers = " ".join(["batch"] + [w for line in lines[1:] for w in line.split("\t")])
    return [f"create {settings}", numbers, "listing"]


