"""binary64: hex words, and the division that Python leaves to an exception."""
import math
import struct

LARGEST = 1.7976931348623157e308
INFINITY = math.inf
TOP = 2**53
NAN_WORD = "7ff8000000000000"


def word(x):
    """16 lowercase hex digits of the bits; a printed NaN is always the same."""
    if x != x:
        return NAN_WORD
    return struct.pack(">d", x).hex()


def unword(text):
    if len(text) != 16 or any(c not in "0123456789abcdef" for c in text):
        raise ValueError(f"not 16 lowercase hex digits: {text}")
    return struct.unpack(">d", bytes.fromhex(text))[0]


def bits(x):
    """The bits as a number, a NaN's own."""
    return struct.unpack(">Q", struct.pack(">d", x))[0]


def one_nan(number):
    """Bits with every NaN the same."""
    return int(NAN_WORD, 16) if number & (2**63 - 1) > 0x7FF << 52 else number


def div(a, b):
    """a / b, by IEEE 754 where b is a zero."""
    if b != 0.0:
        return a / b
    if a == 0.0 or a != a:
        return math.nan
    return math.copysign(INFINITY, a) * math.copysign(1.0, b)


def finite(x):
    return x - x == 0.0
