"""What every generator draws with: chances, numbers at the ends of 32 and 64 bits, numbers at and beyond a limit."""

from array import array
from collections import namedtuple

from document import COORDINATE_MOST

# A call by its name, with its arguments by theirs: arrays are lists, everything else whole numbers.
Call = namedtuple("Call", "name arguments")

WIDE = {"windows"}  # lent arrays of 64-bit numbers; the cells of all others have 32 bits


def as_array(name, values):
    return array("q" if name in WIDE else "i", values)


INT32 = (-(2**31), 2**31 - 1)
INT64 = (-(2**63), 2**63 - 1)
AROUND_32_BITS = 2**32  # what a number loses when it is cut down to 32 bits


def chance(r, parts, of=100):
    return r.randrange(of) < parts


def clamp(value, most=COORDINATE_MOST):
    return max(-most, min(most, value))


def near(r, values):
    return r.choice(values) + r.randint(-1, 1)


def clamp_64(value):
    return max(INT64[0], min(INT64[1], value))


def beyond_coordinate(r):
    """At the limit, beyond it, or right only when cut down to 32 bits."""
    return near(r, [COORDINATE_MOST, -COORDINATE_MOST, *INT64, AROUND_32_BITS, -AROUND_32_BITS, *INT32])
