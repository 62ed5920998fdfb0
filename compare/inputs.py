"""Texts for the program: a good table with windows, then lines, fields and bytes changed."""

import document
from draw import chance
from tables import a_lower, a_window, straight_segments

def line(letter, *numbers):
    return "\t".join([letter, *map(str, numbers)]).encode()


def text_lines(r):
    if chance(r, 5):
        return one_segment_too_many(r)
    n = r.choice([0, 1, 2, 3, 5, 9]) if chance(r, 95) else r.choice([40, 255, 256, 257])
    kind = r.choice(document.KINDS)
    segments = straight_segments(r, n)
    windows = [a_window(r, segments) for _ in range(r.choice([0, 1, 1, 2, 4]))]
    return (
        [line("T", kind, a_lower(r, kind))]
        + [line("S", *segment) for segment in segments]
        + [line("W", *window) for window in windows]
    )


def one_segment_too_many(r):
    """The 257th S, good or with one more fault: 0 comes before 3, and 5 and 6 come after."""
    full = [line("S", *segment) for segment in straight_segments(r, document.PROGRAM_SEGMENTS_MOST)]
    last = r.choice([b"S\t0\t0\t0\t0", b"S\t0\t1\t2\t3", b"S\t536870913\t0\t0\t0", b"S\t0\t0\t0", b"S\t0\t0\t0\t-0", b"T\t1\t0"])
    return [line("T", 1, 1), *full, last]


BAD_FIELDS = [
    b"", b"-", b"--1", b"-0", b"00", b"01", b"-01", b"+1", b"1 ", b" 1", b"1.0", b"1e3", b"0x1", b"a", b"\x00", b"1\r",
    b"12345678901", b"-12345678901", b"00000000001", b"\xff", b"\xd9\xa1", b"1" * 70, b"9" * 200, b"1-", b"-\t1",
]  # fmt: skip
ODD_FIELDS = [
    b"9999999999", b"-9999999999", b"4294967296", b"4294967297", b"-4294967295", b"2147483648", b"-2147483649",
    b"536870912", b"536870913", b"-536870912", b"-536870913", b"1000000", b"1000001", b"-1000001", b"0", b"4", b"-1",
]  # fmt: skip
ODD_LINES = [
    b"", b"\r", b"T", b"S", b"W", b"T\t1", b"T\t1\t0\t", b"\tT\t1\t0", b"T\t1\t0", b"T\t0\t0", b"T\t3\t1", b"T\t4\t9999999",
    b"t\t1\t0", b"S\t0\t0\t0", b"S\t0\t0\t0\t0\t", b"S 0 0 0 0", b"S\t0\t0\t0\t0", b"S\t1\t2\t3\t4", b"S\t0\t0\t0\t0\t0",
    b"S\t1\t2\t536870913\t4", b"W\t0\t0\t0\t0", b"W\t1\t0\t0\t0", b"W\t0\t0\t1\t0", b"W\t0\t0\t0", b"w\t0\t0\t0\t0", b"A\t0\t0",
    b"\t" * 79, b"\t" * 80, b"\t" * 81, b"S" + b"\t0" * 40, b"x" * 80, b"x" * 81, b"#", b"\xef\xbb\xbfT\t1\t0",
]  # fmt: skip


def change_field(r, lines):
    place = r.randrange(len(lines))
    fields = lines[place].split(b"\t")
    fields[r.randrange(len(fields))] = r.choice(BAD_FIELDS if chance(r, 50) else ODD_FIELDS)
    lines[place] = b"\t".join(fields)


def change_table_line(r, lines):
    """Kind and lower bound at and beyond their limits together: 1 comes before 2."""
    lines[0] = line("T", r.choice([0, 1, 2, 3, 3, 4, -1]), r.choice([0, 1, -1, 1_000_000, 1_000_001, -1_000_001]))


def insert_line(r, lines):
    lines.insert(r.randint(0, len(lines)), r.choice(ODD_LINES))


def repeat_line(r, lines):
    lines.insert(r.randint(0, len(lines)), r.choice(lines))


def drop_line(r, lines):
    del lines[r.randrange(len(lines))]


def exchange_lines(r, lines):
    first, second = r.randrange(len(lines)), r.randrange(len(lines))
    lines[first], lines[second] = lines[second], lines[first]


def change_byte(r, lines):
    place = r.randrange(len(lines))
    text = bytearray(lines[place] or b"S")
    at = r.randrange(len(text))
    way = r.randrange(3)
    if way == 0:
        text[at] = r.choice([0, 9, 13, 32, 45, 48, 57, 84, 255, r.randrange(256)])
    elif way == 1:
        text.insert(at, r.choice([9, 45, 48, 49, 13, 10]))
    else:
        del text[at]
    lines[place] = bytes(text)


LINE_CHANGES = [
    change_field, change_field, change_field, change_table_line, insert_line, repeat_line, drop_line, exchange_lines,
    change_byte,
]  # fmt: skip


def a_text(r):
    if chance(r, 2):
        return bytes(r.choice([r.randrange(256), 9, 10, 48, 84]) for _ in range(r.choice([0, 1, 2, 10, 300])))
    lines = text_lines(r)
    for _ in range(r.choice([0, 0, 1, 1, 1, 2])):
        if lines:
            r.choice(LINE_CHANGES)(r, lines)
    text = b"\n".join(lines)
    return text + r.choice([b"\n", b"\n", b"\n", b"", b"\n\n", b"\r\n"])
