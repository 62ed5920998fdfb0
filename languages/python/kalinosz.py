"""Kalinosz for Python, by ctypes: calls on arrays of 32-bit cells that are lent, not copied.

An array is array.array("i"), a numpy int32 array in one piece, or anything else that lends a writable buffer of 4-byte cells.
The shared object is looked for in the environment variable KALINOSZ, then as the system finds libkalinosz.so.
Limits and answer numbers: docs/CALLING.md.
"""

import ctypes
import os
from array import array
from typing import NamedTuple


class Reply(ctypes.Structure):
    """What every call returns: the answer number, and the count, visits and position that go with it."""

    _fields_ = [(name, ctypes.c_int64) for name in ("number", "count", "visits", "position")]


class Descriptor(NamedTuple):
    """Where a table's segments stand in its cells: coordinate j of position i in cell base + i * segment_stride + j * coordinate_stride."""

    kind: int
    base: int
    lower: int
    n: int
    segment_stride: int
    coordinate_stride: int


_library = ctypes.CDLL(os.environ.get("KALINOSZ", "libkalinosz.so"))
_lent = [ctypes.c_void_p, ctypes.c_size_t]
_whole = ctypes.c_int64


def _call(name, result, arguments):
    call = getattr(_library, name)
    call.restype, call.argtypes = result, arguments
    return call


_scan = _call("kalinosz_scan", Reply, _lent + 10 * [_whole] + _lent)
_build = _call("kalinosz_build", Reply, _lent + 6 * [_whole] + _lent)
_query = _call("kalinosz_query", Reply, _lent + 4 * [_whole] + _lent)

words = _call("kalinosz_words", _whole, [_whole])
words.__doc__ = "words(n): how many words the index of n segments takes, or -3."
meets = _call("kalinosz_meets", _whole, 8 * [_whole])
meets.__doc__ = "meets(x1, y1, x2, y2, a, b, c, d): 1 or 0, or -8, -5."


def _lend(cells):
    """The address and the length of an array's cells; the array itself stays where it is."""
    view = memoryview(cells)
    if view.itemsize != 4 or not view.c_contiguous or view.readonly:
        raise TypeError("cells must be 4 bytes each, lie one after another and be writable")
    count = view.nbytes // 4
    return (ctypes.addressof(ctypes.c_int32.from_buffer(view)) if count else None), count


def scan(table, at, window, numbers):
    """The numbers of all segments that meet the window (a, b, c, d), ascending, into the first `count` cells of numbers."""
    return _scan(*_lend(table), *at, *window, *_lend(numbers))


def build(table, at, index):
    """The index of a table of horizontal and vertical segments into the first words(n) words of index."""
    return _build(*_lend(table), *at, *_lend(index))


def query(index, window, numbers):
    """The numbers of the segments that meet the window (a, b, c, d), each once, into the first `count` cells of numbers."""
    return _query(*_lend(index), *window, *_lend(numbers))


def cells(count):
    """A new array of that many cells, for an index or for numbers."""
    return array("i", bytes(4 * count))
