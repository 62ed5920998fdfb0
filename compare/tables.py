"""Tables, descriptors, windows and good calls on them: plain ones and the nasty ones that labs hand over."""

import math
from array import array

import document
from document import COORDINATE_MOST, LOWER_MOST, SEGMENTS_MOST, STRIDE_MOST, Window
from draw import INT32, INT64, Call, chance, clamp

# ---------------------------------------------------------------- Segments

SIZES = [0, 1, 1, 2, 2, 3, 3, 4, 5, 6, 7, 8, 9, 12, 15, 16, 17, 31, 32, 33]


def a_size(r):
    if chance(r, 2):
        return r.choice([63, 64, 65, 100, 127, 128, 129, 200, 255, 256, 257, 300])
    return r.choice(SIZES) if chance(r, 60) else r.randrange(41)


def a_coordinate(r, scale):
    """Scales: 3 gives ties, 10 and 1,000 give room, the limit gives the ends."""
    if scale == COORDINATE_MOST:
        return r.choice([1, -1]) * (COORDINATE_MOST - r.choice([0, 0, 1, 2, r.randrange(COORDINATE_MOST)]))
    return r.randint(-scale, scale)


def a_scale(r):
    return r.choice([1, 3, 3, 10, 10, 1_000, COORDINATE_MOST])


def upright_or_level(r, x, y, reach):
    return (x, y, clamp(x + reach), y) if chance(r, 50) else (x, y, x, clamp(y + reach))


def mixed(r, n):
    scale = a_scale(r)
    longest = r.choice([1, scale, 2 * scale])
    return [
        upright_or_level(r, a_coordinate(r, scale), a_coordinate(r, scale), r.randint(0, longest)) for _ in range(n)
    ]


def points(r, n):
    scale = a_scale(r)
    return [(x, y, x, y) for x, y in ((a_coordinate(r, scale), a_coordinate(r, scale)) for _ in range(n))]


def on_one_row(r, n):
    scale, row = a_scale(r), r.randint(-3, 3)
    return [(a_coordinate(r, scale), row, a_coordinate(r, scale), row) for _ in range(n)]


def crossing_one_line(r, n):
    """All reach over one line: the whole table in one block."""
    scale = a_scale(r)
    return [(-r.randint(0, scale), y, r.randint(0, scale), y) for y in (a_coordinate(r, scale) for _ in range(n))]


def comb(r, n):
    """Teeth side by side, of any length, and a back through their feet."""
    gap = r.randint(1, 4)
    teeth = [(gap * i, 0, gap * i, r.randint(0, 2 * gap)) for i in range(n - 1)]
    return (teeth + [(0, 0, gap * n, 0)])[:n]


def end_to_end(r, n):
    gap = r.randint(1, 5)
    return [(gap * i, i % r.randint(1, 3), gap * (i + 1) - r.randint(0, 1), 0) for i in range(n)]


def straightened(segments):
    return [(x1, y1, x2, y1) if x1 != x2 else (x1, y1, x2, y2) for x1, y1, x2, y2 in segments]


def nested(r, n):
    level = r.randint(0, 2)
    return [(-i, level * i, i, level * i) for i in range(n)]


def duplicates(r, n):
    few = mixed(r, r.randint(1, 3))
    return [r.choice(few) for _ in range(n)]


def staircase(r, n):
    step = r.choice([1, -1])
    return [(i, step * i, i + 1, step * i) if i % 2 else (i, step * i, i, step * i + 2) for i in range(n)]


def turned(segment):
    x1, y1, x2, y2 = segment
    return y1, x1, y2, x2


def back_to_front(segment):
    x1, y1, x2, y2 = segment
    return x2, y2, x1, y1


FAMILIES = [mixed, mixed, mixed, points, on_one_row, crossing_one_line, comb, end_to_end, nested, duplicates, staircase]


def straight_segments(r, n, family=None):
    """Horizontal and vertical segments of one family, perhaps turned, shuffled, and with ends exchanged."""
    segments = straightened((family or r.choice(FAMILIES))(r, n))
    if chance(r, 40):
        segments = [turned(segment) for segment in segments]
    if chance(r, 50):
        r.shuffle(segments)
    if chance(r, 60):
        segments = [back_to_front(segment) if chance(r, 50) else segment for segment in segments]
    return [tuple(clamp(coordinate) for coordinate in segment) for segment in segments]


def any_segments(r, n):
    if chance(r, 30):
        return straight_segments(r, n)
    scale = a_scale(r)
    return [tuple(a_coordinate(r, scale) for _ in range(4)) for _ in range(n)]


# ---------------------------------------------------------------- Windows


def an_edge(r, pool):
    return clamp(r.choice(pool) + r.choice([-1, 0, 0, 0, 0, 1]))


def two_edges(r, pool):
    way = r.randrange(10)
    if way < 6:
        return sorted([an_edge(r, pool), an_edge(r, pool)])
    if way == 6:
        return [an_edge(r, pool)] * 2
    if way == 7:
        return [-COORDINATE_MOST, COORDINATE_MOST]
    return sorted([an_edge(r, pool), r.choice([-1, 1]) * (COORDINATE_MOST - r.randint(0, 1))])


def a_window(r, segments):
    """Edges at, or one beside, coordinates that are there: where answers change."""
    xs = [x for x1, _, x2, _ in segments for x in (x1, x2)] or [0]
    ys = [y for _, y1, _, y2 in segments for y in (y1, y2)] or [0]
    return Window(*two_edges(r, xs), *two_edges(r, ys))


def touching_pair(r):
    """A segment whose line passes a window's corner exactly, or as closely as whole coordinates can."""
    most = r.choice([5, 50, 1_000, COORDINATE_MOST // 4, COORDINATE_MOST // 4])
    a, b = sorted([r.randint(-most, most), r.randint(-most, most)])
    c, d = sorted([r.randint(-most, most), r.randint(-most, most)])
    dx, dy = r.randint(-most, most), r.randint(1, most)
    x, y = r.choice([(a, d), (b, c)] if dx > 0 else [(a, c), (b, d)])  # where a line of this slope can just touch
    if chance(r, 50) and math.gcd(dx, dy) == 1:
        # The line through the corner moved by the least cross product there is: u * dy - v * dx = 1 or -1.
        v = -pow(dx, -1, dy) if dy > 1 else 0
        u = (1 + v * dx) // dy
        side = r.choice([1, -1])
        x, y = x + side * u, y + side * v
    else:
        x, y = x + r.choice([0, 0, 1, -1]), y + r.choice([0, 0, 1, -1])
    before, after = r.choice([(0, 1), (1, 1), (1, 0), (2, 1)])
    segment = (x - before * dx, y - before * dy, x + after * dx, y + after * dy)
    segment = tuple(clamp(coordinate) for coordinate in segment)
    return segment, Window(a, b, c, d)


# ---------------------------------------------------------------- Tables and descriptors


def plain_strides(r, n):
    """Strides under which no two coordinates share a cell."""
    n = max(n, 1)
    gap = r.choice([0, 0, 0, 1, 3])
    between, across = r.choice([(4 + gap, 1), (1, n + gap), (4 * (1 + gap), 1 + gap), (2, 2 * n + 1)])
    return r.choice([1, -1]) * between, r.choice([1, -1]) * across


def shared_strides(r):
    """Strides under which coordinates share cells: a chain of corners, one segment over and over, single cells."""
    return r.choice([(2, 1), (-2, 1), (2, -1), (0, 1), (0, -1), (4, 0), (-1, 0), (0, 0), (1, 1), (1, 2), (3, 1), (-1, 2)])


def lowest_and_highest(n, segment_stride, coordinate_stride):
    ends = [i * segment_stride + j * coordinate_stride for i in (0, n - 1) for j in (0, 3)]
    return (min(ends), max(ends)) if n else (0, -1)


def junk(r, cells):
    """What stands between the coordinates: often beyond the limits, so that reading it shows."""
    few = [r.randint(*INT32), r.randint(*INT32), r.randint(-3, 3), 0, *INT32]
    return r.choices(few, k=cells)


def laid_out(r, segments, strides):
    """Table and base for these segments under these strides, with no cell to spare or some."""
    segment_stride, coordinate_stride = strides
    low, high = lowest_and_highest(len(segments), *strides)
    before, after = r.choice([(0, 0), (0, 0), (r.randrange(4), r.randrange(4))])
    base = before - low
    table = junk(r, before + high - low + 1 + after)
    for i, segment in enumerate(segments):
        for j, coordinate in enumerate(segment):
            table[document.cell_of(base, segment_stride, coordinate_stride, i, j)] = coordinate
    return table, base


def corners_of_a_chain(r, n):
    """Segments that each begin where the last one ended: they survive sharing cells."""
    scale, corner, segments = r.choice([3, 20]), (0, 0), []
    for i in range(n):
        x, y = corner
        corner = (r.randint(-scale, scale), y) if i % 2 else (x, r.randint(-scale, scale))
        segments.append((x, y, *corner))
    return segments


def a_base(r, base, n):
    """With no segment the base may be anything."""
    return base if n else r.choice([0, -1, *INT64, r.randint(*INT64)])


def a_lower(r, kind):
    if kind == document.OTHER:
        return 0
    return r.choice([0, 1, 1, -1, LOWER_MOST, -LOWER_MOST, r.randint(-LOWER_MOST, LOWER_MOST)])


def table_arguments(r, segments, strides):
    n = len(segments)
    table, base = laid_out(r, segments, strides)
    kind = r.choice(document.KINDS)
    if n <= 1 and chance(r, 30):  # one segment never uses its stride: the limits can be had without a large table
        strides = (r.choice([1, -1]) * (STRIDE_MOST - r.randint(0, 1)), strides[1])
    return {
        "table": table,
        "kind": kind,
        "base": a_base(r, base, n),
        "lower": a_lower(r, kind),
        "n": n,
        "segment_stride": strides[0],
        "coordinate_stride": strides[1],
    }


def a_table(r, n, segments_of=straight_segments):
    if chance(r, 15) and n:
        chain = corners_of_a_chain(r, n)
        return table_arguments(r, chain, shared_strides(r))
    return table_arguments(r, segments_of(r, n), plain_strides(r, n))


def descriptor_of(arguments):
    names = ("kind", "base", "lower", "n", "segment_stride", "coordinate_stride")
    return document.Descriptor(*(arguments[name] for name in names))


def window_of(arguments):
    return Window(*(arguments[edge] for edge in "abcd"))


def segments_in(arguments):
    return document.segments_of(arguments["table"], descriptor_of(arguments))


def some_cells(r, count):
    """A buffer with what stood in it before: anything."""
    cells = array("i")
    cells.frombytes(r.randbytes(cells.itemsize * count))
    return cells.tolist()


def old_cells(r, need):
    """A buffer that suffices."""
    return some_cells(r, need + r.choice([0, 0, 1, 5]))


# ---------------------------------------------------------------- Good calls


def a_room(r, n):
    """How many number cells are lent: n of them hold any answer, fewer may do or not."""
    return r.choice([n, n, n + r.randint(0, 2), r.randint(0, max(0, n)), r.randint(0, max(0, min(n, 3)))])


def scan_call(r, arguments, window=None):
    window = window or a_window(r, segments_in(arguments))
    return Call("scan", {**arguments, **window._asdict(), "numbers": old_cells(r, a_room(r, arguments["n"]))})


def build_call(r, arguments):
    return Call("build", {**arguments, "index": old_cells(r, document.words_for(arguments["n"]))})


def numbers_most(index):
    """How many numbers one query of these words can list: the n of their header, if they have one."""
    return max(0, min(index[0], SEGMENTS_MOST)) if index else 0


def query_call(r, index, window):
    return Call("query", {"index": index, **window._asdict(), "numbers": old_cells(r, a_room(r, numbers_most(index)))})


def many_call(r, index, windows, spare=None):
    """Windows in one slice. Count cells and number cells are mostly as many as are needed, one fewer, or one more."""
    edges = [edge for window in windows for edge in window]
    due = document.query_many(index, edges, [0] * len(windows), [])[0].count
    count_cells = len(windows) + r.choice([0, 0, 0, 0, 0, 1, 1, 5, -1 if chance(r, 20) else 2])
    spare = r.choice([0, 0, 0, 1, 7, -1, -1, -due, -r.randint(0, due)]) if spare is None else spare
    counts, numbers = some_cells(r, max(0, count_cells)), some_cells(r, max(0, due + spare))
    return Call("query_many", {"index": index, "windows": edges, "counts": counts, "numbers": numbers})


def an_index(r, segments):
    words = document.index_words(a_lower(r, r.choice(document.KINDS)), segments)
    return words + junk(r, r.choice([0, 0, 1, 9]))
