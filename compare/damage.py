"""Damaged words: a built index with a few words changed, and words that no builder writes but a walk gets through."""

import document
from draw import AROUND_32_BITS, INT32, chance

def level_places(words):
    """Where position words and count words of the levels stand."""
    n = words[0]
    start = document.HEADER + document.RECORD * n
    places = range(start, start + 2 * n * document.levels_for(n))
    return [p for p in places if (p - start) % (2 * n) < n], [p for p in places if (p - start) % (2 * n) >= n]


def block_places(words):
    """Where the blocks of built words stand, and where their queues' entries do."""
    n, _, horizontals, verticals = words[:4]
    start = document.HEADER + document.RECORD * n + 2 * n * document.levels_for(n)
    blocks, entries, left = [], [], [(start, horizontals), (start + 8 * horizontals, verticals)]
    while left:
        place, m = left.pop()
        if m:
            s, ml, mr = words[place + 1 : place + 4]
            blocks.append(place)
            entries += range(place + 4, place + 4 + 4 * s, 2)
            left += [(place + 8 * s, ml), (place + 8 * (s + ml), mr)]
    return blocks, entries


def any_place(r, words):
    return r.randrange(4 if chance(r, 10) else min(4, len(words) - 1), len(words))


def near_value(r, words, place):
    n = words[0]
    return r.choice([words[place] + 1, words[place] - 1, 0, -1, n, n - 1, r.randrange(n), -words[place], *INT32])


def damage_flip(r, words):
    place = any_place(r, words)
    flipped = (words[place] & 0xFFFFFFFF) ^ (1 << r.choice([0, 0, 1, 2, 3, 31, r.randrange(32)]))
    words[place] = flipped - AROUND_32_BITS if flipped >= 2**31 else flipped


def damage_exchange(r, words):
    first, second = any_place(r, words), any_place(r, words)
    words[first], words[second] = words[second], words[first]


def damage_neighbours(r, words):
    place = r.randrange(4, len(words) - 1)
    words[place], words[place + 1] = words[place + 1], words[place]


def damage_cut(r, words):
    """Cut short, or with the rest of another length: only words below W(n) count."""
    del words[r.randrange(len(words)) :]


def damage_any_word(r, words):
    place = any_place(r, words)
    words[place] = near_value(r, words, place)


def damage_position(r, words):
    place = r.choice(level_places(words)[0])
    words[place] = near_value(r, words, place) if chance(r, 40) else r.randrange(words[0])


def damage_x_order(r, words):
    """The last level, where nodes read their ends: both count, even where one would decide."""
    n = words[0]
    place = level_places(words)[0][-n:][r.randrange(n)]
    words[place] = r.choice([-1, n, r.randrange(n), *INT32])


def damage_count(r, words):
    place = r.choice(level_places(words)[1])
    words[place] = near_value(r, words, place) if chance(r, 40) else words[place] + r.choice([1, -1])


def sizes_of_nodes(n, level):
    nodes = [n]
    for _ in range(level):
        nodes = [part for size in nodes for part in ([size] if size == 1 else [-(-size // 2), size // 2])]
    return nodes


def count_at_an_edge(r, size, p):
    """The least or greatest count that is not spoiled at slot p, or one that fails just one of the four tests."""
    left, right = -(-size // 2), size // 2
    failed_by = lambda count: (count < 0) + (count > p) + (count > left) + (p - count > right)
    beyond = [count for count in (-1, p + 1, left + 1, p - right - 1) if failed_by(count) == 1]
    return r.choice([r.choice([max(0, p - right), min(left, p)]), *beyond])


def damage_counts(r, words):
    """All counts of one level, each at an edge: whichever is read, it is near to being spoiled."""
    n = words[0]
    level = min(r.choice([0, 0, 1, 2]), document.levels_for(n) - 1)  # a walk is likelier to pass the upper ones
    start = document.HEADER + document.RECORD * n + 2 * n * level + n
    counts = [count_at_an_edge(r, size, p) for size in sizes_of_nodes(n, level) for p in range(size)]
    words[start : start + n] = counts


def damage_entry(r, words):
    place = r.choice(block_places(words)[1])
    if chance(r, 50):
        words[place] = near_value(r, words, place) if chance(r, 30) else r.randrange(words[0])
    else:
        words[place + 1] = near_value(r, words, place + 1)


def damage_sizes(r, words):
    """One of s, ml, mr changed, or one taken from one and given to another so that the sum still fits."""
    place = r.choice(block_places(words)[0])
    giver, taker = r.sample([1, 2, 3], 2)
    words[place + taker] += 1
    if chance(r, 70):
        words[place + giver] -= 1


def damage_centre(r, words):
    place = r.choice(block_places(words)[0])
    words[place] = near_value(r, words, place)


def damage_record(r, words):
    place = r.randrange(4, 4 + 4 * words[0])
    other = r.randrange(4, 4 + 4 * words[0])
    words[place] = words[other] if chance(r, 60) else near_value(r, words, place)


def damage_header(r, words):
    """The two counts moved against each other, another lower bound, or another n."""
    way = r.randrange(4)
    if way < 2:
        step = r.choice([1, -1])
        words[2], words[3] = words[2] + step, words[3] - step
    elif way == 2:
        words[1] = near_value(r, words, 1)
    else:
        words[0] += r.choice([1, -1])
        words[2 + r.randrange(2)] += words[0] - words[2] - words[3]


DAMAGES = [
    damage_flip, damage_exchange, damage_neighbours, damage_any_word, damage_position, damage_position, damage_x_order,
    damage_x_order, damage_count, damage_count, damage_counts, damage_entry, damage_entry, damage_sizes, damage_centre,
    damage_record, damage_record, damage_header, damage_cut,
]  # fmt: skip
LEAVING_BLOCKS_IN_PLACE = [damage_position, damage_count, damage_counts, damage_entry, damage_centre, damage_record]


def within_32_bits(words):
    return [max(INT32[0], min(INT32[1], word)) for word in words]


def damaged(r, words):
    """One damage of any kind, or several that leave every block where it stood."""
    words = list(words)
    for _ in range(r.choice([0, 0, 0, 1, 2, 8])):
        r.choice(LEAVING_BLOCKS_IN_PLACE)(r, words)
    r.choice(DAMAGES)(r, words)
    return within_32_bits(words)


def split_of(r, m):
    """s, ml, mr that add up to m, often a long chain."""
    way = r.randrange(4)
    s = 1 if way < 2 else r.randint(1, m)
    ml = r.choice([0, m - s, (m - s) // 2, r.randint(0, m - s)])
    return s, ml, m - s - ml


def forged_block(r, m, position, value):
    words = []
    left = [m]
    while left:
        m = left.pop()
        if m:
            s, ml, mr = split_of(r, m)
            words += [value(), s, ml, mr]
            for _ in range(2 * s):
                words += [position(), value()]
            words += [value() for _ in range(4 * s - 4)]
            left += [mr, ml]
    return words


def forged(r, n):
    """Words that no builder writes but that a walk can get through: positions repeat, so more than n may be due."""
    scale = r.choice([1, 2, 5])
    few = [r.randrange(n) for _ in range(r.randint(1, 3))]
    position = r.choice([lambda: r.randrange(n), lambda: r.choice(few)])
    value = lambda: r.randint(-scale, scale)
    horizontals = r.choice([0, n, n // 2, r.randint(0, n)])
    words = [n, r.randint(-5, 5), horizontals, n - horizontals]
    words += [value() for _ in range(4 * n)]
    for level in range(document.levels_for(n)):
        words += [position() for _ in range(n)]
        words += forged_counts(r, n, level)
    words += forged_block(r, horizontals, position, value)
    words += forged_block(r, n - horizontals, position, value)
    if chance(r, 15):
        damage_any_word(r, words)
    return within_32_bits(words), scale


def forged_counts(r, n, level):
    """Counts that fit: half of the slots before this one went left, give or take. Now and then at the edges."""
    counts, at_edges = [], chance(r, 10)
    for size in sizes_of_nodes(n, level):
        left, right, give = -(-size // 2), size // 2, r.choice([0, 0, 0, 1])
        for p in range(size):
            fitting = max(p - right, min(left, p, (p + 1) // 2 + give)) if size > 1 else 0
            counts.append(count_at_an_edge(r, size, p) if at_edges else fitting)
    return counts
