"""Document 01 read a second time: table, meeting, refusals, words, walk, program, in its order and words, with the requests that came after it.
Hold it beside the document. Nothing here was taken from the product, and nothing is meant to be fast."""

import re
import sys
from collections import namedtuple
from fractions import Fraction

sys.setrecursionlimit(20_000)  # spoiled words can make a chain of 4,096 blocks

# ---------------------------------------------------------------- Descriptor and numbers

SEGMENTS_MOST = 4_096
LOWER_MOST = 1_000_000
STRIDE_MOST = 1_048_576
COORDINATE_MOST = 536_870_912  # window edges too
WINDOWS_MOST = 64  # of one call, request E5
KINDS = (1, 2, 3)  # pointer, allocatable, other
OTHER = 3  # the kind that carries lower bound 0

Descriptor = namedtuple("Descriptor", "kind base lower n segment_stride coordinate_stride")
Window = namedtuple("Window", "a b c d")
Reply = namedtuple("Reply", "number count visits position")


def within(value, most):
    return -most <= value <= most


def cell_of(base, segment_stride, coordinate_stride, i, j):
    return base + i * segment_stride + j * coordinate_stride


def first_outside(length, base, n, segment_stride, coordinate_stride):
    """Position and coordinate of the first addressed cell that the table does not hold, or None."""
    for i in range(n):
        for j in range(4):
            if not 0 <= cell_of(base, segment_stride, coordinate_stride, i, j) < length:
                return i, j
    return None


def segments_of(table, descriptor):
    _, base, _, n, segment_stride, coordinate_stride = descriptor
    return [
        tuple(table[cell_of(base, segment_stride, coordinate_stride, i, j)] for j in range(4))
        for i in range(n)
    ]


def first_number(kind, lower):
    """Request E4: kind 3 carries lower bound 0 and numbers from 1. Document 01 said lower bound for every kind."""
    return 1 if kind == OTHER else lower


def number_of(first, i):
    return first + i


# ---------------------------------------------------------------- Meeting


def fractions_between(start, stop, low, high):
    """First and last fraction t with low <= start + t * (stop - start) <= high, or None if there is none."""
    if start == stop:
        return (Fraction(0), Fraction(1)) if low <= start <= high else None
    ends = Fraction(low - start, stop - start), Fraction(high - start, stop - start)
    return min(ends), max(ends)


def meeting(segment, window):
    """Is there a fraction p/q from 0 to 1 at which the segment's point lies in the window?"""
    x1, y1, x2, y2 = segment
    in_x = fractions_between(x1, x2, window.a, window.b)
    in_y = fractions_between(y1, y2, window.c, window.d)
    if in_x is None or in_y is None:
        return False
    return max(0, in_x[0], in_y[0]) <= min(1, in_x[1], in_y[1])


# ---------------------------------------------------------------- Answer numbers

# Request E1 has put 12 directly after 4, request E2 has put 7 last in scan and query, and request E5 has the order of many windows.
BUILDER_ORDER = [1, 2, 3, 4, 12, 7, 5, 6]
SCAN_ORDER = [1, 2, 3, 4, 12, 8, 5, 7]
QUERY_ORDER = [9, 8, 10, 7]
MANY_ORDER = [9, 14, 8, 10, 7]
CELL_ORDER = [3, 4, 12, 11]
WORDS_ORDER = [3]
MEETS_ORDER = [8, 5]

# A judge answers None when there is nothing to refuse, else the position and the count to return (0 unless the document names one).
Place = namedtuple("Place", "position count")
UNNAMED = Place(0, 0)


def refused_if(fault):
    return UNNAMED if fault else None


def first_refusal(order, judges):
    """The first refusal in that order. Judges are asked one by one: a later one may need what an earlier one showed."""
    for number in order:
        place = judges[number]()
        if place is not None:
            return Reply(number, place.count, 0, place.position)
    return None


def bad_kind(kind):
    return refused_if(kind not in KINDS)


def bad_lower(kind, lower):
    return refused_if(not within(lower, LOWER_MOST) or (kind == OTHER and lower != 0))


def bad_extent(n):
    return refused_if(not 0 <= n <= SEGMENTS_MOST)


def bad_strides(segment_stride, coordinate_stride):
    return refused_if(not (within(segment_stride, STRIDE_MOST) and within(coordinate_stride, STRIDE_MOST)))


def bad_cells(length, base, n, segment_stride, coordinate_stride):
    outside = first_outside(length, base, n, segment_stride, coordinate_stride)
    return outside and Place(position=outside[0], count=outside[1])


def first_where(fault, items):
    return next((Place(i, 0) for i, item in enumerate(items) if fault(item)), None)


def beyond(segment):
    return not all(within(coordinate, COORDINATE_MOST) for coordinate in segment)


def slanted(segment):
    x1, y1, x2, y2 = segment
    return x1 != x2 and y1 != y2


def short(have, need):
    return refused_if(have < need)


def short_of_numbers(have, due):
    """Request E2: the buffer is judged by the numbers due, and they are counted."""
    return Place(0, due) if have < due else None


def bad_window(window):
    a, b, c, d = window
    return refused_if(a > b or c > d or not all(within(edge, COORDINATE_MOST) for edge in window))


def bad_slice(edges, count_cells):
    """Request E5: not of whole windows, over 64 of them, or fewer count cells than windows."""
    windows, rest = divmod(len(edges), 4)
    return refused_if(rest or windows > WINDOWS_MOST or count_cells < windows)


def bad_index(words):
    if len(words) < HEADER:
        return UNNAMED
    n, lower, horizontals, verticals = words[:HEADER]
    if bad_extent(n) is not None or not within(lower, LOWER_MOST):
        return UNNAMED
    if horizontals < 0 or verticals < 0 or horizontals + verticals != n:
        return UNNAMED
    return refused_if(len(words) < words_for(n))


def table_judges(table, descriptor):
    kind, base, lower, n, segment_stride, coordinate_stride = descriptor
    return {
        1: lambda: bad_kind(kind),
        2: lambda: bad_lower(kind, lower),
        3: lambda: bad_extent(n),
        4: lambda: bad_strides(segment_stride, coordinate_stride),
        12: lambda: bad_cells(len(table), base, n, segment_stride, coordinate_stride),
        5: lambda: first_where(beyond, segments_of(table, descriptor)),
        6: lambda: first_where(slanted, segments_of(table, descriptor)),
    }


# The calls: each gives the Reply and the lent buffers afterwards.


def scan(table, descriptor, window, numbers):
    judges = table_judges(table, descriptor)
    met = []

    def too_many():
        for i, segment in enumerate(segments_of(table, descriptor)):
            if meeting(segment, window):
                met.append(number_of(first_number(descriptor.kind, descriptor.lower), i))
        return short_of_numbers(len(numbers), len(met))

    judges[8] = lambda: bad_window(window)
    judges[7] = too_many
    refusal = first_refusal(SCAN_ORDER, judges)
    if refusal:
        return refusal, numbers
    return Reply(0, len(met), 0, 0), met + numbers[len(met) :]


def build(table, descriptor, index):
    judges = table_judges(table, descriptor)
    judges[7] = lambda: short(len(index), words_for(descriptor.n))
    refusal = first_refusal(BUILDER_ORDER, judges)
    if refusal:
        return refusal, index
    words = index_words(first_number(descriptor.kind, descriptor.lower), segments_of(table, descriptor))
    return Reply(0, len(words), 0, 0), words + index[len(words) :]


def query(index, window, numbers):
    walk = None

    def spoiled():
        nonlocal walk
        walk = Walk(index, window)
        return refused_if(not walk.ends())

    judges = {
        9: lambda: bad_index(index),
        8: lambda: bad_window(window),
        10: spoiled,
        7: lambda: short_of_numbers(len(numbers), len(walk.numbers)),
    }
    refusal = first_refusal(QUERY_ORDER, judges)
    if refusal:
        return refusal, numbers
    count = len(walk.numbers)
    return Reply(0, count, walk.visits, 0), walk.numbers + numbers[count:]


def windows_in(edges):
    """The windows of a slice, four numbers each; what is left over is none."""
    return [Window(*edges[i : i + 4]) for i in range(0, len(edges) // 4 * 4, 4)]


def query_many(index, edges, counts, numbers):
    """Request E5: the single queries in order, joined. The Reply, and both lent buffers afterwards."""
    walks = []

    def spoiled():
        walks.extend(Walk(index, window) for window in windows_in(edges))
        return first_where(lambda walk: not walk.ends(), walks)

    def joined():
        return [number for walk in walks for number in walk.numbers]

    judges = {
        9: lambda: bad_index(index),
        14: lambda: bad_slice(edges, len(counts)),
        8: lambda: first_where(bad_window, windows_in(edges)),
        10: spoiled,
        7: lambda: short_of_numbers(len(numbers), len(joined())),
    }
    refusal = first_refusal(MANY_ORDER, judges)
    if refusal:
        return refusal, counts, numbers
    each, listed = [len(walk.numbers) for walk in walks], joined()
    reply = Reply(0, len(listed), sum(walk.visits for walk in walks), 0)
    return reply, each + counts[len(each) :], listed + numbers[len(listed) :]


# The three answers for C hosts: a plain number, a refusal as its negative.


def host_cell(length, base, n, segment_stride, coordinate_stride, position, coordinate):
    judges = {
        3: lambda: bad_extent(n),
        4: lambda: bad_strides(segment_stride, coordinate_stride),
        12: lambda: bad_cells(length, base, n, segment_stride, coordinate_stride),
        11: lambda: refused_if(not 0 <= position < n or not 0 <= coordinate <= 3),
    }
    refusal = first_refusal(CELL_ORDER, judges)
    if refusal:
        return -refusal.number
    return cell_of(base, segment_stride, coordinate_stride, position, coordinate)


def host_words(n):
    refusal = first_refusal(WORDS_ORDER, {3: lambda: bad_extent(n)})
    return -refusal.number if refusal else words_for(n)


def host_meets(x1, y1, x2, y2, a, b, c, d):
    segment, window = (x1, y1, x2, y2), Window(a, b, c, d)
    judges = {8: lambda: bad_window(window), 5: lambda: refused_if(beyond(segment))}
    refusal = first_refusal(MEETS_ORDER, judges)
    return -refusal.number if refusal else int(meeting(segment, window))


# ---------------------------------------------------------------- Words of the index

HEADER = 4
RECORD = 4


def digits(n):
    """L(n)"""
    return len(format(n, "b")) if n > 0 else 0


def levels_for(n):
    """D, for n >= 1"""
    return digits(n - 1) + 1


def words_for(n):
    """W(n)"""
    return 4 + 12 * n + 2 * n * levels_for(n) if n >= 1 else 4


def upper_half(size):
    return -(-size // 2)


def record_of(segment):
    x1, y1, x2, y2 = segment
    low_end, high_end = sorted([(x1, y1), (x2, y2)])
    return low_end + high_end


def is_horizontal(record):
    """A point counts as horizontal."""
    return record[1] == record[3]


def index_words(lower, segments):
    records = [record_of(segment) for segment in segments]
    horizontals = [i for i, record in enumerate(records) if is_horizontal(record)]
    verticals = [i for i, record in enumerate(records) if not is_horizontal(record)]
    words = [len(records), lower, len(horizontals), len(verticals)]
    for record in records:
        words += record
    words += level_words(records)
    words += block_words([as_horizontal(records[i], i) for i in horizontals])
    words += block_words([as_vertical(records[i], i) for i in verticals])
    return words


def level_words(records):
    words = []
    x_order = sorted(range(len(records)), key=lambda i: (records[i][0], records[i][1], i))
    nodes = [x_order]
    for _ in range(levels_for(len(records)) if records else 0):
        positions, counts = [], []
        for node in nodes:
            by_y = sorted(node, key=lambda i: (records[i][1], i))
            positions += by_y
            counts += counts_in(node, by_y)
        words += positions + counts
        nodes = [child for node in nodes for child in children_of(node)]
    return words


def children_of(node):
    if len(node) == 1:
        return [node]
    half = upper_half(len(node))
    return [node[:half], node[half:]]


def counts_in(node, by_y):
    """At each slot, how many earlier slots of the node go left."""
    if len(node) == 1:
        return [0]
    going_left = set(node[: upper_half(len(node))])
    counts, count = [], 0
    for i in by_y:
        counts.append(count)
        count += i in going_left
    return counts


# A segment as its block sees it: horizontals and verticals differ in nothing else.
Reach = namedtuple("Reach", "near far level position")


def as_horizontal(record, position):
    x1, y1, x2, _ = record
    return Reach(near=x1, far=x2, level=y1, position=position)


def as_vertical(record, position):
    x1, y1, _, y2 = record
    return Reach(near=y1, far=y2, level=x1, position=position)


def block_words(reaches):
    if not reaches:
        return []
    by_near = sorted(reaches, key=lambda r: (r.near, r.position))
    centre = by_near[len(reaches) // 2].near
    stay = [r for r in reaches if r.near <= centre <= r.far]
    left = [r for r in reaches if r.far < centre]
    right = [r for r in reaches if r.near > centre]
    words = [centre, len(stay), len(left), len(right)]
    words += queue_words(stay, lambda r: (r.near, r.level, r.position))
    words += queue_words(stay, lambda r: (-r.far, r.level, r.position))
    words += [0] * (4 * len(stay) - 4)
    return words + block_words(left) + block_words(right)


def queue_words(reaches, first):
    if not reaches:
        return []
    taken = min(reaches, key=first)
    others = sorted((r for r in reaches if r is not taken), key=lambda r: (r.level, r.position))
    half = upper_half(len(others))
    left, right = others[:half], others[half:]
    split = left[-1].level if left else 0
    return [taken.position, split] + queue_words(left, first) + queue_words(right, first)


# ---------------------------------------------------------------- The walk and its visits


class Spoiled(Exception):
    """The walk read a spoiled word."""


class Walk:
    """The walk over any words that 9 let through. `ends` tells whether it met no spoiled word."""

    def __init__(self, words, window):
        self.words = words
        self.n, self.lower, self.horizontals, self.verticals = words[:HEADER]
        self.window = window
        self.numbers = []
        self.visits = 0

    def ends(self):
        try:
            self.whole()
        except Spoiled:
            return False
        return True

    def whole(self):
        n, (a, b, c, d) = self.n, self.window
        if n == 0:
            return
        self.node(0, 0, n, self.search())
        blocks = HEADER + RECORD * n + 2 * n * levels_for(n)
        self.block(blocks, self.horizontals, as_horizontal, a, (c, d))
        self.block(blocks + 8 * self.horizontals, self.verticals, as_vertical, c, (a, b))

    def position_at(self, place):
        position = self.words[place]
        if not 0 <= position < self.n:
            raise Spoiled
        return position

    def record(self, position):
        return self.words[HEADER + RECORD * position : HEADER + RECORD * (position + 1)]

    def list(self, position):
        if len(self.numbers) == self.n:
            raise Spoiled
        self.numbers.append(number_of(self.lower, position))

    def slot(self, level, slot):
        """Where the position word of a slot stands; its count word stands n further on."""
        return HEADER + RECORD * self.n + 2 * self.n * level + slot

    def search(self):
        low, high = 0, self.n
        while low != high:
            self.visits += 1
            middle = (low + high) // 2
            if self.record(self.position_at(self.slot(0, middle)))[1] >= self.window.c:
                high = middle
            else:
                low = middle + 1
        return low

    def x_at(self, slot):
        return self.record(self.position_at(self.slot(levels_for(self.n) - 1, slot)))[0]

    def node(self, level, start, size, p):
        self.visits += 1
        first, last = self.x_at(start), self.x_at(start + size - 1)
        if last < self.window.a or first > self.window.b:
            return
        if first >= self.window.a and last <= self.window.b:
            return self.slots(level, start, size, p)
        left = upper_half(size)
        left_p = left if p == size else self.count_at(level, start, p, left, size - left)
        self.node(level + 1, start, left, left_p)
        self.node(level + 1, start + left, size - left, p - left_p)

    def slots(self, level, start, size, p):
        for slot in range(start + p, start + size):
            self.visits += 1
            position = self.position_at(self.slot(level, slot))
            if self.record(position)[1] > self.window.d:
                return
            self.list(position)

    def count_at(self, level, start, p, left, right):
        count = self.words[self.slot(level, start + p) + self.n]
        if count < 0 or count > p or count > left or p - count > right:
            raise Spoiled
        return count

    def block(self, place, m, reach_of, edge, band):
        if m < 1:
            return
        self.visits += 1
        centre, s, ml, mr = self.words[place : place + 4]
        if s < 1 or ml < 0 or mr < 0 or s + ml + mr != m:
            raise Spoiled
        low_queue, high_queue, left_block = place + 4, place + 4 + 2 * s, place + 8 * s
        if edge <= centre:
            self.queue(low_queue, s, reach_of, lambda reach: reach.near < edge, band)
            self.block(left_block, ml, reach_of, edge, band)
        else:
            self.queue(high_queue, s, reach_of, lambda reach: reach.far >= edge, band)
            self.block(left_block + 8 * ml, mr, reach_of, edge, band)

    def queue(self, place, size, reach_of, holds, band):
        self.visits += 1
        position, split = self.position_at(place), self.words[place + 1]
        reach = reach_of(self.record(position), position)
        if not holds(reach):
            return
        low, high = band
        if low <= reach.level <= high:
            self.list(position)
        left = upper_half(size - 1)
        right = size - 1 - left
        if left and low <= split:
            self.queue(place + 2, left, reach_of, holds, band)
        if right and high >= split:
            self.queue(place + 2 + 2 * left, right, reach_of, holds, band)


# ---------------------------------------------------------------- What built words promise


def broken_promise(segments, lower, window, reply, numbers):
    """Demands 2 and 3 of the walk over built words; says which one fails, or None."""
    due = [number_of(lower, i) for i, segment in enumerate(segments) if meeting(segment, window)]
    if sorted(numbers[: reply.count]) != due:
        return "the walk's numbers are not those of the segments that meet"
    length = digits(len(segments))
    if reply.visits > 4 * length**2 + 15 * length + 2 + 2 * reply.count:
        return "more visits than demand 3 allows"
    return None


# ---------------------------------------------------------------- The program

PROGRAM_SEGMENTS_MOST = 256
LINE_BYTES_MOST = 80
PROGRAM_ORDER = [0, 1, 2, 3, 5, 6, 8]
NUMBER = re.compile(rb"0|-?[1-9][0-9]{0,9}")
NUMBERS_AFTER = {b"T": 2, b"S": 4, b"W": 4}


def lines_of(text):
    """The last line feed may be missing; one that is there opens no further line."""
    lines = text.split(b"\n")
    return lines if lines[-1] else lines[:-1]


def parsed(line):
    """Letter and numbers, or None for another form."""
    letter, *fields = line.split(b"\t")
    if len(line) > LINE_BYTES_MOST or len(fields) != NUMBERS_AFTER.get(letter):
        return None
    if not all(NUMBER.fullmatch(field) for field in fields):
        return None
    return letter, [int(field) for field in fields]


def in_place(letter, number, windows):
    """T is the first line and no other; no S stands after a W."""
    return (letter == b"T") == (number == 1) and not (letter == b"S" and windows)


def line_judges(letter, numbers, segments):
    """What can be wrong with a line of that letter besides form and place."""
    if letter == b"T":
        return {1: lambda: bad_kind(numbers[0]), 2: lambda: bad_lower(*numbers)}
    if letter == b"S":
        return {
            3: lambda: refused_if(len(segments) == PROGRAM_SEGMENTS_MOST),
            5: lambda: refused_if(beyond(numbers)),
            6: lambda: refused_if(slanted(numbers)),
        }
    return {8: lambda: bad_window(Window(*numbers))}


def line_fault(line, number, segments, windows):
    """The answer number that this line's R carries, or None."""
    form = parsed(line)
    if form is None or not in_place(form[0], number, windows):
        return 0
    judges = line_judges(*form, segments)
    refusal = first_refusal([each for each in PROGRAM_ORDER if each in judges], judges)
    return refusal.number if refusal else None


def printed(letter, *numbers):
    return b"\t".join([letter] + [b"%d" % number for number in numbers]) + b"\n"


def answers(text):
    """What the program prints on each line that it reads, line by line; a fault is the last."""
    segments, words, windows, lower = [], None, 0, 0
    for number, line in enumerate(lines_of(text), 1):
        fault = line_fault(line, number, segments, windows)
        if fault is not None:
            yield printed(b"R", fault, number)
            return
        letter, numbers = parsed(line)
        if letter == b"T":
            lower = first_number(*numbers)
        elif letter == b"S":
            segments.append(tuple(numbers))
        else:
            windows += 1
            words = words or index_words(lower, segments)
            reply, cells = query(words, Window(*numbers), [0] * len(segments))
            yield printed(b"A", reply.count, reply.visits, *cells[: reply.count])
            continue
        yield b""


def program(text):
    """Everything the program prints for that input."""
    return b"".join(answers(text))
