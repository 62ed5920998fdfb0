"""Faults in a call, and which of them to make together: every order of refusals is tried in pairs."""

import document
from document import COORDINATE_MOST, LOWER_MOST, SEGMENTS_MOST, STRIDE_MOST, WINDOWS_MOST
from draw import AROUND_32_BITS, INT32, INT64, beyond_coordinate, chance, clamp_64

def fault_kind(r, call):
    call["kind"] = r.choice([0, 4, -1, AROUND_32_BITS + 1, *INT64])


def fault_lower(r, call):
    call["lower"] = r.choice([LOWER_MOST + 1, -LOWER_MOST - 1, AROUND_32_BITS, *INT64])


def fault_lower_of_other(r, call):
    call["kind"], call["lower"] = document.OTHER, r.choice([1, -1, LOWER_MOST])


def fault_extent(r, call):
    call["n"] = r.choice([-1, SEGMENTS_MOST + 1, call["n"] + AROUND_32_BITS, *INT64])


def fault_stride(r, call):
    name = r.choice(["segment_stride", "coordinate_stride"])
    call[name] = r.choice([STRIDE_MOST + 1, -STRIDE_MOST - 1, call[name] + AROUND_32_BITS, *INT64])


def fault_base(r, call):
    call["base"] = clamp_64(
        call["base"] + r.choice([1, -1, 7, -7, len(call["table"]), -len(call["table"]), AROUND_32_BITS, *INT64])
    )


def fault_table(r, call):
    call["table"] = r.choice([call["table"][:-1], call["table"][: len(call["table"]) // 2], []])


def fault_coordinate(r, call):
    """One or two coordinates beyond the limits: the first position is to be returned."""
    values = [COORDINATE_MOST + 1, -COORDINATE_MOST - 1, *INT32]
    for _ in range(r.randint(1, 2)):
        put_coordinate(r, call, r.choice(values))


def fault_slant(r, call):
    for _ in range(r.randint(1, 2)):
        put_coordinate(r, call, r.randint(-50, 50))


def put_coordinate(r, call, value):
    if call["n"]:
        i, j = r.randrange(call["n"]), r.randrange(4)
        cell = document.cell_of(call["base"], call["segment_stride"], call["coordinate_stride"], i, j)
        call["table"] = call["table"][:cell] + [value] + call["table"][cell + 1 :]


def fault_window(r, call):
    low, high = r.choice(["ab", "cd"])
    if chance(r, 50):
        call[low] = clamp_64(call[high] + r.choice([1, 2]))
    else:
        call[r.choice([low, high])] = clamp_64(beyond_coordinate(r))


def fault_windows(r, call):
    """One or two windows of a slice bad: the first is to be returned."""
    edges = list(call["windows"])
    for _ in range(r.randint(1, 2) if len(edges) >= 4 else 0):
        at = 4 * r.randrange(len(edges) // 4)
        window = dict(zip("abcd", edges[at : at + 4]))
        fault_window(r, window)
        edges[at : at + 4] = window.values()
    call["windows"] = edges


def fault_slice_rest(r, call):
    """A window cut short, or one begun after the last."""
    rest, edges = r.randint(1, 3), call["windows"]
    call["windows"] = edges[:-rest] if edges and chance(r, 50) else edges + [r.randint(-3, 3) for _ in range(rest)]


def fault_slice_long(r, call):
    """Over 64 windows, with a count cell for each: the same ones again and again."""
    m = WINDOWS_MOST + r.choice([1, 1, 2, WINDOWS_MOST])
    call["windows"] = ((call["windows"] or [0]) * 4 * m)[: 4 * m]
    call["counts"] = (call["counts"] or [0]) * m


def fault_count_cells(r, call):
    m = len(call["windows"]) // 4
    call["counts"] = call["counts"][: r.choice([0, max(0, m - 1), m // 2])]


def fault_numbers(r, call):
    n = len(call["numbers"])
    call["numbers"] = call["numbers"][: r.choice([0, max(0, n - 1), max(0, n - 6)])]


def fault_index_room(r, call):
    need = document.words_for(call["n"]) if 0 <= call["n"] <= SEGMENTS_MOST else 4
    call["index"] = call["index"][: r.choice([0, 3, need - 1])]


def fault_index_head(r, call):
    call["index"] = call["index"][: r.choice([0, 1, 2, 3])]


def fault_index_cut(r, call):
    if len(call["index"]) >= 4:
        n = call["index"][0]
        whole = document.words_for(n) if 0 <= n <= SEGMENTS_MOST else 4
        call["index"] = call["index"][: r.choice([4, whole - 1, whole // 2])]


def put_word(call, place, value):
    if place < len(call["index"]):
        call["index"] = call["index"][:place] + [value] + call["index"][place + 1 :]


def fault_index_extent(r, call):
    put_word(call, 0, r.choice([-1, SEGMENTS_MOST + 1, -2, *INT32]))


def fault_index_lower(r, call):
    put_word(call, 1, r.choice([LOWER_MOST + 1, -LOWER_MOST - 1, *INT32]))


def fault_index_counts(r, call):
    """One count off, or one negative while the two still add up, or a sum that only fits a machine word by wrapping."""
    if len(call["index"]) < 4:
        return
    n, _, horizontals, verticals = call["index"][:4]
    pairs = [(horizontals + 1, verticals), (horizontals, verticals - 1), (-1, n + 1), (n + 1, -1), (INT32[1], INT32[1])]
    horizontals, verticals = r.choice(pairs)
    put_word(call, 2, max(INT32[0], min(INT32[1], horizontals)))
    put_word(call, 3, max(INT32[0], min(INT32[1], verticals)))


def fault_index_spoiled(r, call):
    """A spoiled position that the first node always reads."""
    if len(call["index"]) < 4 or not 0 < call["index"][0] <= SEGMENTS_MOST:
        return
    n = call["index"][0]
    place = document.HEADER + document.RECORD * n + 2 * n * (document.levels_for(n) - 1)
    put_word(call, place + r.choice([0, n - 1]), r.choice([-1, n, *INT32]))


# Each list in the order in which the document judges.
TABLE_FAULTS = [
    fault_kind, fault_lower, fault_lower_of_other, fault_extent, fault_stride, fault_base, fault_table,
]  # fmt: skip
SCAN_FAULTS = TABLE_FAULTS + [fault_window, fault_coordinate, fault_numbers]
BUILD_FAULTS = TABLE_FAULTS + [fault_index_room, fault_coordinate, fault_slant]
INDEX_FAULTS = [fault_index_head, fault_index_extent, fault_index_lower, fault_index_counts, fault_index_cut]
QUERY_FAULTS = INDEX_FAULTS + [fault_window, fault_index_spoiled, fault_numbers]
MANY_FAULTS = INDEX_FAULTS + [
    fault_slice_rest, fault_slice_long, fault_count_cells, fault_windows, fault_index_spoiled, fault_numbers,
]  # fmt: skip


def some_faults(r, faults, turn):
    """Every pair in turn, a fault with itself too (that is one alone), or any from a late part of the order."""
    if turn % 2:
        late = faults[r.randrange(len(faults)) :]
        chosen = {r.choice(late) for _ in range(r.randint(1, 3))}
    else:
        first, second = divmod(turn // 2 % len(faults) ** 2, len(faults))
        chosen = {faults[first], faults[second]}
    # The last to be judged is made first: it needs a call that is good so far.
    return [fault for fault in reversed(faults) if fault in chosen]
