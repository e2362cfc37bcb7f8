"""Document 01, Listing program: the whole input to the whole output, in bytes, and why an input is bad."""
from .calls import FULL, SHAPE, Library, Refused
from .check import FEATURES, LIMITS
from .distances import NAMES
from .floats import unword
from .text import decimal, listing_lines
from .tree import Settings

LONGEST, MOST = 200, 24
FLOAT = "expected a float of 16 lowercase hex digits"
SIZE = "expected a decimal from %d to %d, without sign or leading zeros"


class Bad(Exception):
    """Why a line is bad: the reason's name, and its text."""


def lines_of(data):
    """The input's lines; a missing last newline is allowed."""
    lines = data.split(b"\n")
    return lines[:-1] if lines[-1] == b"" else lines


def fields(line):
    if len(line) > LONGEST:
        raise Bad("long", "over 200 bytes")
    if line.endswith(b"\r"):
        raise Bad("return", "ends in a carriage return; lines end in a newline alone")
    return [field.decode("latin-1") for field in line.split(b"\t")]


def words(names):
    return "expected " + ", ".join(names[:-1]) + " or " + names[-1]


def sized(limits):
    """What a size's field has to be, and its reading."""
    def read(text):
        number = decimal(text)
        if not limits[0] <= number <= limits[1]:
            raise ValueError
        return number
    return SIZE % limits, read


def named(names):
    """The same of a word's field."""
    def read(text):
        if text not in names:
            raise ValueError
        return text
    return words(names), read


SETTINGS = {
    "dim": sized(LIMITS["dim"]), "branching": sized(LIMITS["branching"]), "leaf_cap": sized(LIMITS["leaf_cap"]),
    "M": sized((1, MOST)), "feature": named(list(FEATURES)), "dist": named(list(NAMES)), "abs": named(list(NAMES)),
    "threshold": (FLOAT, unword),
}
# every reason's name; FULL, which takes 2^53 rows, comes up in no test
REASONS = ["missing", "long", "return", "fields", *SETTINGS, "value", "float", "SHAPE", "FULL"]


def begun(line):
    """The library after line 1."""
    texts = fields(line)
    if len(texts) != len(SETTINGS):
        raise Bad("fields", f"fields parted by tabs: expected 8, found {len(texts)}")
    values = []
    for at, (name, text) in enumerate(zip(SETTINGS, texts), 1):
        expected, read = SETTINGS[name]
        try:
            values.append(read(text))
        except ValueError:
            raise Bad(name, f"field {at} ({name}): {expected}") from None
    library = Library()
    try:
        library.create(Settings(*values[:7]), values[7])
    except Refused:
        raise Bad("value", "field 8 (threshold): expected a finite float, not below 0") from None
    return library


def insert(library, line):
    """The row of a line into the tree."""
    row = []
    for at, text in enumerate(fields(line), 1):
        try:
            row.append(unword(text))
        except ValueError:
            raise Bad("float", f"field {at}: {FLOAT}") from None
    try:
        library.insert(row, True)
    except Refused as refused:
        if refused.numbers[0] == SHAPE:
            dim = library.tree.settings.dim
            raise Bad("SHAPE", f"SHAPE: floats parted by tabs: expected {dim}, found {len(row)}") from None
        assert refused.numbers[0] == FULL
        raise Bad("FULL", "FULL: the tree has 2^53 rows, the most that it takes") from None


def told(data):
    """What `rowlist` prints on standard output and on standard error, and the reason's name, "" if the input is good."""
    lines = lines_of(data)
    at = 1
    try:
        if not lines:
            raise Bad("missing", "missing, the input is empty")
        library = begun(lines[0])
        for at, line in enumerate(lines[1:], 2):
            insert(library, line)
    except Bad as bad:
        name, text = bad.args
        return b"bad\t%d\n" % at, f"rowlist: line {at}: {text}\n".encode(), name
    return "".join(line + "\n" for line in listing_lines(library.tree)).encode(), b"", ""


def listed(data):
    """What `rowlist` prints on standard output."""
    return told(data)[0]
