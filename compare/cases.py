"""Cases from a seed: each kind in KINDS turns a random source and the case's index into a list of calls.
The parts are made in tables.py, faults.py, damage.py and inputs.py."""

import random
from collections import namedtuple

import document
from damage import damaged, forged
from document import COORDINATE_MOST, SEGMENTS_MOST, STRIDE_MOST, WINDOWS_MOST, Window
from draw import AROUND_32_BITS, INT64, Call, beyond_coordinate, chance, clamp_64, near
from faults import BUILD_FAULTS, MANY_FAULTS, QUERY_FAULTS, SCAN_FAULTS, fault_windows, some_faults
from inputs import a_text
from tables import (
    a_size, a_table, a_window, an_index, any_segments, build_call, comb, crossing_one_line, duplicates, end_to_end,
    lowest_and_highest, many_call, mixed, nested, on_one_row, plain_strides, points, query_call, scan_call, staircase,
    straight_segments, table_arguments, touching_pair, turned,
)  # fmt: skip


def source(seed, kind, index):
    return random.Random(f"{seed}/{kind}/{index}")


# ---------------------------------------------------------------- Good calls


def scan_case(r, index):
    if index % 3 == 0:
        segment, window = touching_pair(r)
        return [scan_call(r, table_arguments(r, [segment], plain_strides(r, 1)), window)]
    return [scan_call(r, a_table(r, a_size(r), any_segments))]


def words_case(r, index):
    return [build_call(r, a_table(r, a_size(r)))]


def query_case(r, index):
    segments = straight_segments(r, a_size(r))
    words = an_index(r, segments)
    return [query_call(r, words, a_window(r, segments)) for _ in range(3)]


def demands_case(r, index):
    """The product builds, the product asks, and Meeting alone judges: no word of the reading is used."""
    segments = straight_segments(r, a_size(r))
    arguments = table_arguments(r, segments, plain_strides(r, len(segments)))
    return [Call("demands", {**arguments, **a_window(r, segments)._asdict()}) for _ in range(3)]


# ---------------------------------------------------------------- Numbers for C hosts


def cell_case(r, index):
    n = r.choice([0, 1, 2, 3, 5, 30, r.randint(-2, 40), r.randint(-2, 40)])
    if chance(r, 4):
        n = near(r, [0, SEGMENTS_MOST, *INT64, AROUND_32_BITS])
    strides = [r.choice([0, 1, -1, 4, -4, r.randint(-9, 9)]) for _ in range(2)]
    if chance(r, 25):
        strides[r.randrange(2)] = near(r, [STRIDE_MOST, -STRIDE_MOST, *INT64, AROUND_32_BITS])
    low, high = lowest_and_highest(n if 0 < n <= SEGMENTS_MOST else 0, *strides)
    length = high - low + 1 + r.randint(-1, 2)
    base = -low + r.randint(-1, 1)
    if chance(r, 20):
        # The greatest table there can be, addressed at its upper end: sums that a machine word cannot hold.
        base += INT64[1] - length
        length = INT64[1] - r.randint(0, 1)
    if chance(r, 10):
        base = r.choice([*INT64, base + AROUND_32_BITS, base - AROUND_32_BITS, r.randint(*INT64)])
    if chance(r, 10):
        length = r.choice([*INT64, -1, 0, 1, length + AROUND_32_BITS, r.randint(*INT64)])
    position = r.choice([0, n - 1, r.randint(-1, max(n, 0)), near(r, [0, n, *INT64, AROUND_32_BITS])])
    coordinate = r.choice([0, 1, 2, 3, 0, 1, 2, 3, -1, 4, near(r, [*INT64, AROUND_32_BITS])])
    arguments = (length, base, n, *strides, position, coordinate)
    names = ("length", "base", "n", "segment_stride", "coordinate_stride", "position", "coordinate")
    return [Call("cell", dict(zip(names, map(clamp_64, arguments))))]


def sizes_case(r, index):
    """Every n there is and some on both sides, then numbers from all over."""
    n = index - 2 if index < SEGMENTS_MOST + 5 else clamp_64(near(r, [*INT64, AROUND_32_BITS, r.randint(*INT64)]))
    return [Call("words", {"n": n})]


def meets_case(r, index):
    if index % 2:
        segment, window = touching_pair(r)
    else:
        segment = any_segments(r, 1)[0]
        window = a_window(r, [segment, *any_segments(r, 1)])
    numbers = [*segment, *window]
    if chance(r, 10):
        for _ in range(r.randint(1, 3)):
            numbers[r.randrange(8)] = clamp_64(beyond_coordinate(r))
    return [Call("meets", dict(zip(("x1", "y1", "x2", "y2", "a", "b", "c", "d"), numbers)))]


# ---------------------------------------------------------------- Bad calls, damaged words, texts


def refusals_case(r, index):
    turn = index // 4
    which = (index + turn) % 4  # each in turn, and not always at the same side of its memory
    n = r.choice([0, 1, 2, 3, 5, 8, 20])
    if which == 3:
        segments = straight_segments(r, n)
        m = WINDOWS_MOST if chance(r, 3) else r.choice([0, 1, 1, 2, 2, 3, 5])
        call, faults = many_call(r, an_index(r, segments), [a_window(r, segments) for _ in range(m)]), MANY_FAULTS
    elif which == 2:
        segments = straight_segments(r, n)
        call, faults = query_call(r, an_index(r, segments), a_window(r, segments)), QUERY_FAULTS
    elif which == 1:
        call, faults = build_call(r, a_table(r, n)), BUILD_FAULTS
    else:
        call, faults = scan_call(r, a_table(r, n, any_segments)), SCAN_FAULTS
    for fault in some_faults(r, faults, turn):
        fault(r, call.arguments)
    return [call]


def damaged_words(r, index):
    """Words that no builder wrote, and segments by which to choose windows: where answers change."""
    if index % 3 == 0:
        n = r.choice([1, 2, 3, 4, 5, 8, 9, 17, 30])
        words, scale = forged(r, n)
        return words, [(-reach, -reach, reach, reach) for reach in range(scale + 1)]
    segments = straight_segments(r, max(1, a_size(r)))
    return damaged(r, an_index(r, segments)), segments


def damaged_case(r, index):
    words, segments = damaged_words(r, index)
    return [query_call(r, words, a_window(r, segments)) for _ in range(3)]


# ---------------------------------------------------------------- Many windows in one call

HOW_MANY = [0, 1, 1, 2, 2, 2, 3, 3, 3, 4, 4, 5, 5, 8, 12, WINDOWS_MOST - 1, WINDOWS_MOST, WINDOWS_MOST + 1]


def words_and_windows(r, index, m):
    """Built words, or words that no builder wrote; of those the windows whose walk ends often stand first."""
    if chance(r, 50):
        segments = straight_segments(r, a_size(r))
        return an_index(r, segments), [a_window(r, segments) for _ in range(m)]
    words, segments = damaged_words(r, index)
    windows = [a_window(r, segments) for _ in range(m)]
    if chance(r, 70) and document.bad_index(words) is None:
        windows.sort(key=lambda window: not document.Walk(words, window).ends())
    return words, windows


def many_case(r, index):
    return [many_call(r, *words_and_windows(r, index, r.choice(HOW_MANY)))]


def joined_case(r, index):
    """The product in one call against the product window by window. The slice is good; its windows need not be."""
    words, windows = words_and_windows(r, index, r.choice([1, 2, 3, 8, WINDOWS_MOST]))
    call = many_call(r, words, windows)
    if chance(r, 15):
        fault_windows(r, call.arguments)
    return [Call("joined", {**call.arguments, "counts": [7] * (len(windows) + r.randint(0, 1))})]


def program_case(r, index):
    return [Call("program", {"text": a_text(r)})]


def pipe_case(r, index):
    """The same texts, handed over line by line with a wait for each answer, byte by byte, or with the output closed."""
    way = ("line by line", "byte by byte", "output closed")[index % 3]
    return [Call("pipe", {"text": a_text(r), "way": way})]


# ---------------------------------------------------------------- Whole tables of 4,096


LARGE_FAMILIES = [mixed, on_one_row, crossing_one_line, points, nested, comb, end_to_end, duplicates, staircase]


def large_case(r, index):
    """Scan, words and queries at the limit of n, on each family in turn, then long chains and far strides."""
    way = index % (len(LARGE_FAMILIES) + 4)
    if way == len(LARGE_FAMILIES):
        return long_chain_calls(r)
    if way == len(LARGE_FAMILIES) + 1:
        return far_stride_calls(r)
    if way == len(LARGE_FAMILIES) + 2:
        return most_numbers_calls(r)
    n = r.choice([SEGMENTS_MOST, SEGMENTS_MOST, SEGMENTS_MOST - 1, 2_049])
    if way > len(LARGE_FAMILIES):
        return [scan_call(r, a_table(r, n, any_segments)) for _ in range(2)]
    segments = straight_segments(r, n, LARGE_FAMILIES[way])
    arguments = table_arguments(r, segments, plain_strides(r, n))
    words = an_index(r, segments)
    windows = [a_window(r, segments) for _ in range(8)]
    calls = [build_call(r, arguments), scan_call(r, arguments)]
    calls += [query_call(r, words, window) for window in windows]
    calls += [query_call(r, damaged(r, words), window) for window in windows[:4]]
    calls += [many_call(r, words, windows), many_call(r, damaged(r, words), windows)]
    return calls + [Call("demands", {**arguments, **windows[0]._asdict()})]


def long_chain_calls(r):
    """Each block keeps one and hands all the others on to the side that the first window takes, 4,096 times."""
    n, edge = SEGMENTS_MOST, r.randint(-2, 2)
    segments = [turned(segment) for segment in on_one_row(r, n)] if chance(r, 50) else on_one_row(r, n)
    words = document.index_words(0, segments)
    start = len(words) - 8 * n
    words[2:4] = r.choice([(n, 0), (0, n)])  # the chain may be one of horizontals or of verticals
    for step in range(n):
        centre, rest = r.randint(-4, 4), n - step - 1
        left, right = (rest, 0) if edge <= centre else (0, rest)
        words[start + 8 * step : start + 8 * step + 4] = [centre, 1, left, right]
        words[start + 8 * step + 4 : start + 8 * step + 8] = [r.randrange(n), 0, r.randrange(n), 0]
    along = Window(edge, edge, edge, edge)
    return [query_call(r, words, window) for window in (along, a_window(r, segments), a_window(r, segments))]


def far_stride_calls(r):
    """Strides at their limit that are really walked: a table of three million cells."""
    segments = straight_segments(r, 2)
    strides = (r.choice([4, -4, 1]), r.choice([1, -1]) * STRIDE_MOST)
    low, high = lowest_and_highest(2, *strides)
    table = [0] * (high - low + 1)
    for i, segment in enumerate(segments):
        for j, coordinate in enumerate(segment):
            table[document.cell_of(-low, *strides, i, j)] = coordinate
    names = ("table", "kind", "base", "lower", "n", "segment_stride", "coordinate_stride")
    arguments = dict(zip(names, (table, 2, -low, 1, 2, *strides)))
    return [scan_call(r, arguments), build_call(r, arguments)]


def most_numbers_calls(r):
    """As many windows and as many numbers as there can be, 64 times 4,096, in just as many cells and in one fewer."""
    words = an_index(r, straight_segments(r, SEGMENTS_MOST, points))
    whole = Window(-COORDINATE_MOST, COORDINATE_MOST, -COORDINATE_MOST, COORDINATE_MOST)
    return [many_call(r, words, [whole] * WINDOWS_MOST, spare) for spare in (0, -1)]


# ---------------------------------------------------------------- All kinds: how many cases a run makes

Kind = namedtuple("Kind", "case cases")
KINDS = {
    "cell": Kind(cell_case, 20_000),
    "sizes": Kind(sizes_case, 5_000),
    "meets": Kind(meets_case, 20_000),
    "scan": Kind(scan_case, 5_000),
    "words": Kind(words_case, 4_000),
    "query": Kind(query_case, 4_000),
    "damaged": Kind(damaged_case, 8_000),
    "demands": Kind(demands_case, 2_000),
    "many": Kind(many_case, 1_500),
    "joined": Kind(joined_case, 500),
    "refusals": Kind(refusals_case, 16_000),
    "program": Kind(program_case, 3_000),
    "pipe": Kind(pipe_case, 150),
    "large": Kind(large_case, 13),
}


def calls_of(seed, kind, index):
    return KINDS[kind].case(source(seed, kind, index), index)
