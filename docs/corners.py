#!/usr/bin/env python3
"""Draws and checks docs/CORNERS.md, the page on the corner test.

python3 docs/corners.py            draws docs/corners/*.svg
python3 docs/corners.py --blocks   prints what the page has to hold word for word
python3 docs/corners.py --check    compares page and drawings with the code of crates/meeting and the starred examples; the last line is 'N passed, M failed'

The functions on the page are cut out of crates/meeting/src/lib.rt, the examples and their verdicts out of crates/examples/specs/Starred.antt. The weights
are worked out twice, by the arithmetic below and by the line of `weight` itself, which is read as Python; the verdicts too, by the corner test and by the
definition of Meeting.
"""
import collections
import pathlib
import re
import sys
from fractions import Fraction

HERE = pathlib.Path(__file__).resolve().parent
PAGE = HERE / "CORNERS.md"
FOLDER = HERE / "corners"
CODE = HERE.parent / "crates/meeting/src/lib.rt"
STARRED = HERE.parent / "crates/examples/specs/Starred.antt"

Window = collections.namedtuple("Window", "a b c d")
Segment = collections.namedtuple("Segment", "x1 y1 x2 y2")
Example = collections.namedtuple("Example", "place meets window segment")
Corner = collections.namedtuple("Corner", "name x y")

# What a title says of each starred example, and the file of its drawing.
TITLES = [
    ("at_the_corner", "meets, at the corner"),
    ("past_the_corner", "does not meet"),
    ("end_in_the_corner", "meets, with its first end"),
    ("beside", "does not meet"),
    ("right_across", "meets, though both its ends are outside"),
    ("point_above", "a point, does not meet"),
    ("between_whole_numbers", "meets at y = 1/2"),
    ("through_the_spot", "meets"),
    ("past_the_spot", "does not meet"),
]
QUOTED = ["gap", "boxes_overlap", "weight", "corners", "both_sides", "meets"]


# ---------------------------------------------------------------- the code and the examples, as they stand


def function(name):
    """The function with its contract, from its head to its closing brace."""
    return re.search(rf"^(?:pub )?fn {name}\(.*?^}}$", CODE.read_text(), re.M | re.S).group(0)


def line_of_weight():
    return function("weight").splitlines()[-2].strip()


def corner_names():
    return re.search(r"^// (low-.*)\nfn corners\(", CODE.read_text(), re.M).group(1).split(", ")


def corner_edges():
    return re.findall(r"^ *\[window\.(\w), window\.(\w)\],$", function("corners"), re.M)


def starred():
    rows = re.findall(r'^ *(?:∷ )?(meets|misses) \(window "([^"]*)"\) \(segment "([^"]*)"\)$', STARRED.read_text(), re.M)
    return [
        Example(place, word == "meets", Window(*map(int, window.split())), Segment(*map(int, segment.split())))
        for place, (word, window, segment) in enumerate(rows)
    ]


# ---------------------------------------------------------------- the test, by this program's own arithmetic


def gap(lo, hi, u1, u2):
    return max(min(u1, u2) - hi, lo - max(u1, u2))


def gaps(segment, window):
    return gap(window.a, window.b, segment.x1, segment.x2), gap(window.c, window.d, segment.y1, segment.y2)


def weight(segment, x, y):
    return (segment.x2 - segment.x1) * (y - segment.y1) - (segment.y2 - segment.y1) * (x - segment.x1)


def corners(window):
    left, right, low, high = window
    return [Corner("low-left", left, low), Corner("low-right", right, low), Corner("high-left", left, high), Corner("high-right", right, high)]


def weights(segment, window):
    return [weight(segment, corner.x, corner.y) for corner in corners(window)]


def boxes_overlap(segment, window):
    return max(gaps(segment, window)) <= 0


def both_sides(segment, window):
    return any(0 <= side for side in weights(segment, window)) and any(side <= 0 for side in weights(segment, window))


def corner_test(segment, window):
    return boxes_overlap(segment, window) and both_sides(segment, window)


def shared_part(segment, window):
    """By the definition of Meeting: the least and the greatest p/q of the way that is in the window, or none."""
    first, last = Fraction(0), Fraction(1)
    for lo, hi, u1, u2 in ((window.a, window.b, segment.x1, segment.x2), (window.c, window.d, segment.y1, segment.y2)):
        if u1 == u2:
            if not lo <= u1 <= hi:
                return None
            continue
        reached = sorted((Fraction(lo - u1, u2 - u1), Fraction(hi - u1, u2 - u1)))
        first, last = max(first, reached[0]), min(last, reached[1])
    return (first, last) if first <= last else None


def witnessed(segment, window, part):
    """Document 01's inequalities at this p/q, in whole numbers."""
    p, q = part.numerator, part.denominator
    across = (q - p) * segment.x1 + p * segment.x2
    along = (q - p) * segment.y1 + p * segment.y2
    return 1 <= q and 0 <= p <= q and window.a * q <= across <= window.b * q and window.c * q <= along <= window.d * q


# ---------------------------------------------------------------- the three mistakes


def ends_only(segment, window):
    ends = ((segment.x1, segment.y1), (segment.x2, segment.y2))
    return any(window.a <= x <= window.b and window.c <= y <= window.d for x, y in ends)


def less_in_the_sides(segment, window):
    return boxes_overlap(segment, window) and any(0 < side for side in weights(segment, window)) and any(side < 0 for side in weights(segment, window))


def less_in_the_box(segment, window):
    return max(gaps(segment, window)) < 0 and both_sides(segment, window)


# The places of the examples that the page names with each mistake.
MISTAKES = [
    ("ends only", ends_only, 4),
    ("corners only", both_sides, 5),
    ("`<` in the sides", less_in_the_sides, 0),
    ("`<` in the box", less_in_the_box, 2),
]


# ---------------------------------------------------------------- words


def number(n):
    return str(n).replace("-", "−")


def signed(n):
    """A number as a factor or after a minus."""
    return number(n) if n >= 0 else f"({number(n)})"


def point(x, y):
    return f"({number(x)},{number(y)})"


def ends(segment):
    return f"{point(segment.x1, segment.y1)}-{point(segment.x2, segment.y2)}"


def what(example):
    window = "Window {}..{} by {}..{}".format(*map(number, example.window))
    if example.segment[:2] == example.segment[2:]:
        return f"{window}, point {point(*example.segment[:2])}"
    return f"{window}, segment {ends(example.segment)}"


def yes(truth):
    return "yes" if truth else "no"


def box_line(example):
    across, along = gaps(example.segment, example.window)
    verdict = "the boxes overlap" if max(across, along) <= 0 else "the boxes are apart"
    relation = "≤" if max(across, along) <= 0 else ">"
    return f"Box: across {number(across)}, along {number(along)}; the larger is {number(max(across, along))} {relation} 0: {verdict}."


def weighing(segment, x, y):
    first = f"{number(segment.x2 - segment.x1)}·{signed(y - segment.y1)}"
    second = f"{signed(segment.y2 - segment.y1)}·{signed(x - segment.x1)}"
    return f"{first} − {second} = {number(weight(segment, x, y))}"


def sign(n):
    return "+" if n > 0 else "−" if n < 0 else "0"


def verdict_line(example):
    sides = weights(example.segment, example.window)
    above, below = any(0 <= side for side in sides), any(side <= 0 for side in sides)
    text = f"Above: {yes(above)}; below: {yes(below)}. "
    if not boxes_overlap(example.segment, example.window):
        return text + "The box has decided already: **does not meet**."
    if not (above and below):
        return text + "All four are strictly on one side: **does not meet**."
    first, last = shared_part(example.segment, example.window)
    segment = example.segment
    at = [point(segment.x1 + part * (segment.x2 - segment.x1), segment.y1 + part * (segment.y2 - segment.y1)) for part in (first, last)]
    if first == last:
        return text + f"They are not all strictly on one side: **meets**, in {at[0]} alone."
    return text + f"They are not all strictly on one side: **meets**, from {at[0]} to {at[1]}."


def block(example):
    """All that the page says of an example by numbers."""
    file, title = TITLES[example.place]
    lines = [
        f"### {example.place + 1}. {what(example)}: {title}",
        "",
        f"![{what(example)}: {title}](corners/{file}.svg)",
        "",
        box_line(example),
        "",
        "| corner | point | weight | sign |",
        "|---|---|---|---|",
    ]
    for corner in corners(example.window):
        side = weight(example.segment, corner.x, corner.y)
        lines.append(f"| {corner.name} | {point(corner.x, corner.y)} | {weighing(example.segment, corner.x, corner.y)} | {sign(side)} |")
    return "\n".join(lines + ["", verdict_line(example)])


def mistakes_block(examples):
    lines = ["| example | meets | " + " | ".join(name for name, _, _ in MISTAKES) + " |", "|---" * (2 + len(MISTAKES)) + "|"]
    for example in examples:
        said = [test(example.segment, example.window) for _, test, _ in MISTAKES]
        cells = [yes(answer) if answer == example.meets else f"**{yes(answer)}**" for answer in said]
        lines.append(f"| {example.place + 1}. {what(example)} | {yes(example.meets)} | " + " | ".join(cells) + " |")
    return "\n".join(lines)


def arithmetic_block():
    return "    weight = " + line_of_weight().replace("segment.", "").replace(" * ", "·").replace("-", "−")


def quoted_block(name):
    return "\n".join("    " + line if line else "" for line in function(name).splitlines())


# ---------------------------------------------------------------- drawings

UNIT, LETTER, SIZE, ROUND = 40, 7.3, 12, 9  # pixels: to a whole number, width and height of a letter, a circle's radius
INK, GREY, PALE = "#1a1a1a", "#666666", "#dddddd"
BLUE, PALE_BLUE, ORANGE = "#0072b2", "#cfe3f5", "#d55e00"  # stay apart for colour-blind readers, and in print
HALO = f'fill="{INK}" stroke="#ffffff" stroke-width="4" paint-order="stroke"'
# The direction in which a label stands from its corner or end: commonly, and by example where it would lie on something.
DIRECTIONS = {"low-left": (-1, -1), "low-right": (1, -1), "high-left": (-1, 1), "high-right": (1, 1), "first": (0, 1), "second": (0, 1)}
ALONG_RISING = {"first": (1, -1), "second": (-1, 1)}
LABELS = [
    ALONG_RISING,
    {"high-left": (1, -1), **ALONG_RISING},
    {"low-left": (1, -1), "high-right": (1, -1), "first": (-1, 1), "second": (-1, 1)},
    {"low-right": (0, -1), "high-right": (0, 1), "first": (1, 0), "second": (1, 0)},
    {},
    {},
    {"low-left": (1, -1), "high-left": (1, 0), "first": (-1, 1), "second": (1, -1)},
    {"low-left": (1, -1), **ALONG_RISING},
    {"low-left": (-1, 1), **ALONG_RISING},
]


class Drawing:
    def __init__(self, example):
        self.example = example
        window, segment = example.window, example.segment
        self.left = min(window.a, segment.x1, segment.x2) - 3
        self.right = max(window.b, segment.x1, segment.x2) + 3
        self.low = min(window.c, segment.y1, segment.y2) - (2 if window.a == window.b and window.c < window.d else 1)
        self.high = max(window.d, segment.y1, segment.y2) + 1
        self.parts = []
        self.labels, self.circles = [], []  # their boxes, to see that none covers another

    def x(self, x):
        return float((x - self.left) * UNIT + 30)

    def y(self, y):
        return float((self.high - y) * UNIT + 10)

    def line(self, x1, y1, x2, y2, more):
        self.parts.append(f'<line x1="{self.x(x1):.1f}" y1="{self.y(y1):.1f}" x2="{self.x(x2):.1f}" y2="{self.y(y2):.1f}" {more}/>')

    def box(self, x1, y1, x2, y2, more):
        """A rectangle, as a path: one without width is still drawn, as a line."""
        self.parts.append(f'<path d="M{self.x(x1):.1f} {self.y(y1):.1f}H{self.x(x2):.1f}V{self.y(y2):.1f}H{self.x(x1):.1f}Z" {more}/>')

    def words(self, x, y, text, anchor="middle", more=f'fill="{INK}"'):
        self.parts.append(f'<text x="{x:.1f}" y="{y:.1f}" text-anchor="{anchor}" {more}>{text}</text>')

    def label(self, x, y, direction, lines, away):
        """Lines of words beside a point, in one of eight directions."""
        across, up = direction
        width, height = max(map(len, lines)) * LETTER, len(lines) * (SIZE + 2)
        middle = self.x(x) + across * (away + (width / 2 if across else 0))
        centre = self.y(y) - up * (away * (0.4 if across else 0.7) + height / 2)
        anchor = {-1: "end", 0: "middle", 1: "start"}[across]
        for place, text in enumerate(lines):
            self.words(middle - across * width / 2, centre - height / 2 + (place + 1) * (SIZE + 2) - 4, text, anchor, HALO)
        self.labels.append((middle - width / 2, centre - height / 2, middle + width / 2, centre + height / 2))

    def grid(self):
        for x in range(self.left, self.right + 1):
            self.line(x, self.low, x, self.high, f'stroke="{PALE}"')
            self.words(self.x(x), self.y(self.low) + 16, number(x), more=f'fill="{GREY}" font-size="10"')
        for y in range(self.low, self.high + 1):
            self.line(self.left, y, self.right, y, f'stroke="{PALE}"')
            self.words(self.x(self.left) - 6, self.y(y) + 4, number(y), "end", f'fill="{GREY}" font-size="10"')

    def shapes(self):
        window, segment = self.example.window, self.example.segment
        self.box(window.a, window.c, window.b, window.d, f'fill="{PALE_BLUE}" stroke="{BLUE}" stroke-width="2.5" stroke-linejoin="round"')
        run, rise = segment.x2 - segment.x1, segment.y2 - segment.y1
        low, high = sorted((segment.y1, segment.y2))
        left, right = sorted((segment.x1, segment.x2))
        if (run, rise) != (0, 0):
            self.line(segment.x1 - 20 * run, segment.y1 - 20 * rise, segment.x1 + 20 * run, segment.y1 + 20 * rise,
                      f'stroke="{GREY}" stroke-dasharray="2 4" clip-path="url(#frame)"')
        self.box(left, low, right, high, f'fill="none" stroke="{GREY}" stroke-dasharray="7 4"')
        self.line(segment.x1, segment.y1, segment.x2, segment.y2, f'stroke="{INK}" stroke-width="3" stroke-linecap="round"')
        for x, y in (segment[:2], segment[2:]):
            self.parts.append(f'<circle cx="{self.x(x):.1f}" cy="{self.y(y):.1f}" r="4.5" fill="{INK}"/>')

    def shared(self):
        segment, part = self.example.segment, shared_part(self.example.segment, self.example.window)
        if part is None:
            return
        at = [(segment.x1 + t * (segment.x2 - segment.x1), segment.y1 + t * (segment.y2 - segment.y1)) for t in part]
        if part[0] == part[1]:
            self.parts.append(f'<circle cx="{self.x(at[0][0]):.1f}" cy="{self.y(at[0][1]):.1f}" r="11" fill="none" stroke="{ORANGE}" stroke-width="3"/>')
        else:
            self.line(*at[0], *at[1], f'stroke="{ORANGE}" stroke-width="5" stroke-linecap="round"')

    def places(self):
        """The points of the corners, each with the names of the corners that stand there."""
        places = {}
        for corner in corners(self.example.window):
            places.setdefault((corner.x, corner.y), []).append(corner.name)
        return places

    def corner_labels(self):
        # A circle hides a window that is one spot, so it takes the window's colours.
        fill, stroke = (PALE_BLUE, BLUE) if len(self.places()) == 1 else ("#ffffff", INK)
        for (x, y), names in self.places().items():
            side = weight(self.example.segment, x, y)
            self.parts.append(f'<circle cx="{self.x(x):.1f}" cy="{self.y(y):.1f}" r="{ROUND}" fill="{fill}" stroke="{stroke}" stroke-width="1.5"/>')
            self.words(self.x(x), self.y(y) + 5, sign(side), more=f'fill="{INK}" font-size="15" font-weight="bold"')
            self.circles.append((self.x(x) - ROUND, self.y(y) - ROUND, self.x(x) + ROUND, self.y(y) + ROUND))
            self.label(x, y, self.direction(names[0]), [*names, f"weight {number(side)}"], 15)

    def direction(self, name):
        return LABELS[self.example.place].get(name, DIRECTIONS[name])

    def end_labels(self):
        segment = self.example.segment
        self.label(*segment[:2], self.direction("first"), [point(*segment[:2])], 15 if segment[:2] in self.places() else 8)
        if segment[:2] != segment[2:]:
            self.label(*segment[2:], self.direction("second"), [point(*segment[2:])], 15 if segment[2:] in self.places() else 8)

    def text(self):
        caption = f"{self.example.place + 1}. {what(self.example)}: {TITLES[self.example.place][1]}"
        width = max(self.x(self.right) + 20, len(caption) * LETTER + 20)
        height = self.y(self.low) + 50
        self.grid()
        self.shapes()
        self.shared()
        self.corner_labels()
        self.end_labels()
        self.words(10, height - 12, caption, "start", f'fill="{INK}" font-weight="bold"')
        head = [
            f'<svg xmlns="http://www.w3.org/2000/svg" width="{width:.0f}" height="{height:.0f}" viewBox="0 0 {width:.0f} {height:.0f}" '
            f'font-family="DejaVu Sans Mono, monospace" font-size="{SIZE}" role="img">',
            f"<title>{caption}</title>",
            f'<clipPath id="frame"><rect x="{self.x(self.left):.1f}" y="{self.y(self.high):.1f}" width="{self.x(self.right) - self.x(self.left):.1f}" '
            f'height="{self.y(self.low) - self.y(self.high):.1f}"/></clipPath>',
            f'<rect width="{width:.0f}" height="{height:.0f}" fill="#ffffff"/>',
        ]
        return "\n".join(head + self.parts + ["</svg>", ""])

    def readable(self):
        """No label lies on another, on a circle or on the segment's line, or beyond the frame. To be asked after `text`."""
        x1, y1, x2, y2 = self.example.segment
        line = Segment(self.x(x1), self.y(y1), self.x(x2), self.y(y2))
        for place, (left, top, right, foot) in enumerate(self.labels):
            if any(left < other[2] and other[0] < right and top < other[3] and other[1] < foot for other in self.circles + self.labels[:place]):
                return False
            if left < self.x(self.left) or self.x(self.right) < right or top < self.y(self.high) or self.y(self.low) < foot:
                return False
            if line[:2] != line[2:] and both_sides(line, Window(left, right, top, foot)):
                return False
        return True


# ---------------------------------------------------------------- the check


def facts():
    """Each thing that has to be so, as its name and whether it is."""
    page, code, examples = PAGE.read_text(), CODE.read_text(), starred()
    yield "nine starred examples are about meeting", len(examples) == len(TITLES) == 9
    for name in QUOTED:
        yield f"`{name}` on the page is the code's", page.count(quoted_block(name) + "\n") == 1
    yield "the functions stand in the code's order", in_order(page, map(quoted_block, QUOTED)) and in_order(code, map(function, QUOTED))
    yield "the page quotes no other function", page.count("\n    fn ") + page.count("\n    pub fn ") == len(QUOTED)
    yield "the arithmetic on the page is the code's line", page.count(arithmetic_block() + "\n") == 1
    sides = {"low-left": ("a", "c"), "low-right": ("b", "c"), "high-left": ("a", "d"), "high-right": ("b", "d")}
    yield "the corners' names and order are the code's", list(sides) == corner_names() and list(sides.values()) == corner_edges()
    yield "the page says that order", ", ".join(sides) in page
    for example in examples:
        segment, window, part = example.segment, example.window, shared_part(example.segment, example.window)
        label = f"example {example.place + 1}"
        by_code = [eval(line_of_weight(), {"segment": segment, "x": corner.x, "y": corner.y}) for corner in corners(window)]
        yield f"{label}: weights by the code's line", by_code == weights(segment, window)
        yield f"{label}: the corner test gives what is proved", corner_test(segment, window) == example.meets
        yield f"{label}: Meeting gives what is proved", (part is not None) == example.meets and all(witnessed(segment, window, t) for t in part or ())
        yield f"{label}: title, box, weights, signs and verdict on the page", page.count(block(example) + "\n") == 1
        drawing = Drawing(example)
        file = FOLDER / f"{TITLES[example.place][0]}.svg"
        yield f"{label}: the drawing", file.is_file() and file.read_text() == drawing.text()
        yield f"{label}: no label covers another", drawing.readable()
    yield "the examples stand in document 01's order", in_order(page, map(block, examples))
    yield "no other drawing", {file.stem for file in FOLDER.iterdir()} == {file for file, _ in TITLES}
    yield "the mistakes' answers on the page", page.count(mistakes_block(examples) + "\n") == 1
    for name, test, place in MISTAKES:
        yield f"{name}: wrong on example {place + 1}", test(examples[place].segment, examples[place].window) != examples[place].meets


def in_order(text, parts):
    places = [text.find(part) for part in parts]
    return -1 not in places and places == sorted(places)


def check():
    passed = failed = 0
    try:
        for name, so in facts():
            if so:
                passed += 1
            else:
                failed += 1
                print(f"corners: NOT SO: {name}")
    except (AttributeError, IndexError, OSError, SyntaxError) as fault:  # a function, an example or a file that is no longer there
        failed += 1
        print(f"corners: NOT READ: {fault}")
    print(f"{passed} passed, {failed} failed")
    return 1 if failed else 0


def main(arguments):
    if arguments == ["--check"]:
        return check()
    examples = starred()
    if arguments == ["--blocks"]:
        print("\n\n".join([arithmetic_block(), *map(quoted_block, QUOTED), *map(block, examples), mistakes_block(examples)]))
        return 0
    FOLDER.mkdir(exist_ok=True)
    for example in examples:
        drawing = Drawing(example)
        (FOLDER / f"{TITLES[example.place][0]}.svg").write_text(drawing.text())
        if not drawing.readable():
            print(f"example {example.place + 1}: a label covers something")
    return 0


if __name__ == "__main__":
    sys.exit(main(sys.argv[1:]))
