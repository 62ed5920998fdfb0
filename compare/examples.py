"""Document 01's examples, starred or not, as the later requests have them, typed in by hand: (call, what it gives). Both the product and
document.py are held against these, so that a slip shared by the two would still show."""

from document import Reply
from draw import Call, as_array

FULL = 536_870_912


def meets(a, b, c, d, x1, y1, x2, y2, result):
    names = ("x1", "y1", "x2", "y2", "a", "b", "c", "d")
    return Call("meets", dict(zip(names, (x1, y1, x2, y2, a, b, c, d)))), {"result": result}


def words(n, result):
    return Call("words", {"n": n}), {"result": result}


def cell(length, base, n, segment_stride, coordinate_stride, position, coordinate, result):
    names = ("length", "base", "n", "segment_stride", "coordinate_stride", "position", "coordinate")
    numbers = (length, base, n, segment_stride, coordinate_stride, position, coordinate)
    return Call("cell", dict(zip(names, numbers))), {"result": result}


def on_table(name, table, descriptor, more, reply, **after):
    names = ("kind", "base", "lower", "n", "segment_stride", "coordinate_stride")
    arguments = {"table": table, **dict(zip(names, descriptor)), **more}
    return lent_example(name, arguments, reply, table=table, **after)


def lent_example(name, arguments, reply, **after):
    expected = {"reply": Reply(*reply)}
    for array_name, cells in after.items():
        expected[array_name] = as_array(array_name, cells)
        expected["beside " + array_name] = True
    return Call(name, arguments), expected


def program(text, output):
    """Tabs shown as spaces, as in the document."""
    as_bytes = lambda shown: shown.replace(" ", "\t").encode()
    return Call("program", {"text": as_bytes(text)}), {"output": as_bytes(output), "errors": b"", "ended": "normally"}


TWELVE = [4, 0, 4, 5, 0, 2, 6, 2, 9, 9, 9, 9]
AROUND = dict(a=-FULL, b=FULL, c=-FULL, d=FULL)
ONE_SEGMENT = [1, 1, 1, 0, 0, 2, 6, 2, 0, 0, 0, 1, 0, 0, 0, 0, 0, 0]
HEADER_OF_NONE = [0, -5, 0, 0]


def many(windows, counts, numbers, reply, counts_after, numbers_after, index=ONE_SEGMENT):
    """Request E5, worked out by hand on the one segment (0,2)-(6,2), whose number is 1."""
    arguments = dict(index=index, windows=windows, counts=counts, numbers=numbers)
    return lent_example("query_many", arguments, reply, index=index, windows=windows, counts=counts_after, numbers=numbers_after)


MET, BESIDE, TURNED, FAR = [1, 2, 2, 2], [3, 5, 3, 3], [2, 1, 2, 2], [2**32, 2**32 + 1, 2, 2]
# The centre moved to -5: a window that holds the low end lists the one segment twice, and only then is a word spoiled.
TWICE = ONE_SEGMENT[:10] + [-5] + ONE_SEGMENT[11:]
INSIDE = [0, 5, 1, 3]

EXAMPLES = [
    meets(0, 4, 0, 4, -2, 2, 2, 6, 1),
    meets(0, 4, 0, 4, -2, 3, 2, 7, 0),
    meets(0, 4, 0, 4, 4, 4, 9, 9, 1),
    meets(0, 4, 0, 4, 5, 0, 5, 4, 0),
    meets(0, 4, 0, 4, -1, 2, 7, 2, 1),
    meets(0, 4, 0, 4, 4, 5, 4, 5, 0),
    meets(1, 1, 0, 4, 0, 0, 2, 1, 1),
    meets(3, 3, 3, 3, 0, 0, 6, 6, 1),
    meets(3, 3, 3, 3, 0, 0, 6, 5, 0),
    words(0, 4),
    words(1, 18),
    words(2, 36),
    words(3, 58),
    words(4, 76),
    words(4_096, 155_652),  # 4 + 12 * 4,096 + 2 * 4,096 * 13
    words(4_097, -3),
    words(-1, -3),
    cell(12, 8, 3, -4, 1, 0, 0, 8),
    cell(12, 8, 3, -4, 1, 2, 3, 3),
    cell(12, 7, 3, -4, 1, 0, 0, -12),
    cell(12, 8, 3, -4, 1, 3, 0, -11),
    cell(12, 8, 3, -4, 1, 0, 4, -11),
    cell(-1, 0, 0, 0, 0, 0, 0, -11),  # no segment, no cell needed, and no position 0 either
    # Base 8 going down: positions 0, 1, 2 are the third, second and first four cells.
    on_table("scan", TWELVE, (2, 8, 1, 3, -4, 1), {**AROUND, "numbers": [7] * 4}, (0, 3, 0, 0), numbers=[1, 2, 3, 7]),
    on_table("scan", TWELVE, (2, 8, 1, 3, -4, 1), dict(a=3, b=5, c=1, d=3, numbers=[7] * 4), (0, 2, 0, 0), numbers=[2, 3, 7, 7]),
    on_table("scan", TWELVE, (2, 7, 1, 3, -4, 1), {**AROUND, "numbers": [7] * 4}, (12, 0, 0, 2), numbers=[7] * 4),
    on_table("build", [0, 2, 6, 2], (2, 0, 1, 1, 4, 1), {"index": [8] * 20}, (0, 18, 0, 0), index=ONE_SEGMENT + [8, 8]),
    on_table("build", [], (1, -(2**63), -5, 0, 0, 0), {"index": [8] * 5}, (0, 4, 0, 0), index=HEADER_OF_NONE + [8]),
    lent_example("query", dict(index=ONE_SEGMENT, a=1, b=2, c=2, d=2, numbers=[7, 7]), (0, 1, 4, 0), index=ONE_SEGMENT, numbers=[1, 7]),
    lent_example("query", dict(index=ONE_SEGMENT, a=2, b=1, c=2, d=2, numbers=[7, 7]), (8, 0, 0, 0), index=ONE_SEGMENT, numbers=[7, 7]),
    many(MET + BESIDE + MET, [7] * 4, [7] * 3, (0, 2, 12, 0), [1, 0, 1, 7], [1, 1, 7]),
    many([], [7], [7], (0, 0, 0, 0), [7], [7]),
    many(MET * 64, [7] * 65, [7] * 64, (0, 64, 256, 0), [1] * 64 + [7], [1] * 64),
    # 7 counts all the numbers due; one cell more holds them
    many(MET + BESIDE + MET, [7] * 3, [7], (7, 2, 0, 0), [7] * 3, [7]),
    many(MET + BESIDE + MET, [7] * 3, [7] * 2, (0, 2, 12, 0), [1, 0, 1], [1] * 2),
    # 10: the first window whose walk is spoiled, before 7; an 8 comes before it, wherever it stands
    many(MET + INSIDE + INSIDE, [7] * 3, [], (10, 0, 0, 1), [7] * 3, [], TWICE),
    many(INSIDE + MET + TURNED + TURNED, [7] * 4, [], (8, 0, 0, 2), [7] * 4, [], TWICE),
    many(MET + FAR, [7] * 2, [7] * 2, (8, 0, 0, 1), [7] * 2, [7] * 2),
    # 14: a rest, 65 windows, a count cell too few; before 8, and after 9
    many(TURNED + [0], [7] * 2, [], (14, 0, 0, 0), [7] * 2, []),
    many(TURNED * 65, [7] * 65, [], (14, 0, 0, 0), [7] * 65, []),
    many(TURNED * 2, [7], [], (14, 0, 0, 0), [7], []),
    many(TURNED * 2, [7], [], (9, 0, 0, 0), [7], [], ONE_SEGMENT[:17]),
    many([], [], [], (9, 0, 0, 0), [], [], ONE_SEGMENT[:3]),
    # n = 4,096 fits, 4,097 gives 3: one cell is enough for any number of points when both strides are 0.
    on_table("scan", [5], (1, 0, 0, 4_096, 0, 0), dict(a=6, b=6, c=6, d=6, numbers=[7] * 4_096), (0, 0, 0, 0), numbers=[7] * 4_096),
    on_table("scan", [5], (1, 0, 0, 4_097, 0, 0), dict(a=6, b=6, c=6, d=6, numbers=[7] * 4_097), (3, 0, 0, 0), numbers=[7] * 4_097),
    on_table("build", [5], (1, 0, 0, 4_097, 0, 0), {"index": [8] * 9}, (3, 0, 0, 0), index=[8] * 9),
    program("T 2 1\nS 0 2 6 2\nS 4 0 4 5\nS 9 9 9 9\nW 3 5 1 3\n", "A 2 13 1 2\n"),
    program("", ""),
]  # fmt: skip
