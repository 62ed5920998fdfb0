"""Draws the rows of one run: a panel for each plate at the greatest n, time for a window against the windows' hits, a line for each method.

python3 bench/plot.py RESULTS docs/speed.svg
"""

import math
import sys

from results import BRUTE, DOCUMENT, OURS, SCAN, Results

# Colours that stay apart for colour-blind readers; what is ours is drawn thick.
COLOURS = {
    OURS: "#000000", SCAN: "#777777", DOCUMENT: "#e69f00", BRUTE: "#bbbbbb", "brute force by 16": "#999933", "Boost packed": "#0072b2",
    "Boost packed, apart": "#56b4e9", "GEOS STRtree": "#009e73", "libspatialindex": "#cc79a7", "SQLite rtree": "#d55e00",
}
DASHES = {SCAN: "6 3", BRUTE: "2 3", "brute force by 16": "2 3", DOCUMENT: "6 3"}
WIDTH, HEIGHT, LEFT, TOP, GAP, ACROSS = 300, 230, 60, 50, 60, 3


def text(x, y, words, anchor="middle", size=12, more=""):
    words = words.replace("&", "&amp;").replace("<", "&lt;")
    return f'<text x="{x:.1f}" y="{y:.1f}" text-anchor="{anchor}" font-size="{size}" {more}>{words}</text>'


def line(x1, y1, x2, y2, colour):
    return f'<line x1="{x1:.1f}" y1="{y1:.1f}" x2="{x2:.1f}" y2="{y2:.1f}" stroke="{colour}"/>'


def panel(results, name, n, x0, y0, low, high):
    """One plate: the decades low to high of nanoseconds upwards."""
    kinds = [kind for kind in results.windows if (name, n, OURS, kind) in results.query]

    def at_x(place):
        return x0 + (place + 0.5) * WIDTH / len(kinds)

    def at_y(nanoseconds):
        return y0 + HEIGHT - (math.log10(nanoseconds) - low) * HEIGHT / (high - low)

    drawn = [text(x0 + WIDTH / 2, y0 - 10, f"{name}, n = {n:,}", size=14, more='font-weight="bold"')]
    for decade in range(low, high + 1):
        y = at_y(10**decade)
        drawn += [line(x0, y, x0 + WIDTH, y, "#dddddd"), text(x0 - 6, y + 4, f"{10 ** (decade - 3):g} µs", "end", 11)]
    for place, kind in enumerate(kinds):
        drawn.append(text(at_x(place), y0 + HEIGHT + 16, "sliver" if kind == "sliver" else f"{kind} hits", size=11))
    for method in results.methods:
        points = [(at_x(place), at_y(results.query[name, n, method, kind].nanoseconds)) for place, kind in enumerate(kinds)]
        colour, width = COLOURS.get(method, "#444444"), 2.5 if method == OURS else 1.5
        squares = [point for point, kind in zip(points, kinds) if kind != "sliver"]  # slivers are another question: a mark, no line to it
        path = " ".join(f"{x:.1f},{y:.1f}" for x, y in squares)
        drawn.append(f'<polyline points="{path}" fill="none" stroke="{colour}" stroke-width="{width}" stroke-dasharray="{DASHES.get(method, "none")}"/>')
        drawn += [f'<circle cx="{x:.1f}" cy="{y:.1f}" r="{width + 0.5}" fill="{colour}"/>' for x, y in points]
    return drawn


def legend(methods, x, y):
    drawn = []
    for place, method in enumerate(methods):
        column, row = place % 5, place // 5
        left, middle = x + column * 200, y + row * 22
        drawn.append(f'<line x1="{left}" y1="{middle}" x2="{left + 26}" y2="{middle}" stroke="{COLOURS.get(method, "#444444")}" '
                     f'stroke-width="{2.5 if method == OURS else 1.5}" stroke-dasharray="{DASHES.get(method, "none")}"/>')
        drawn.append(text(left + 32, middle + 4, method, "start"))
    return drawn


def main(path, target):
    results = Results(path)
    n = results.sizes[-1]
    times = [query.nanoseconds for query in results.query.values() if query.n == n]
    low, high = math.floor(math.log10(min(times))), math.ceil(math.log10(max(times)))
    drawn = [text(LEFT, 22, "Time to list the marks that meet a window (logarithmic; lower is faster)", "start", 15)]
    for place, name in enumerate(results.sets):
        x0, y0 = LEFT + place % ACROSS * (WIDTH + GAP), TOP + 20 + place // ACROSS * (HEIGHT + GAP + 10)
        drawn += panel(results, name, n, x0, y0, low, high)
    rows = -(-len(results.sets) // ACROSS)
    bottom = TOP + 20 + rows * (HEIGHT + GAP + 10)
    drawn += legend(results.methods, LEFT, bottom - 10)
    width, height = LEFT + ACROSS * (WIDTH + GAP), bottom + 40
    with open(target, "w", encoding="utf-8") as picture:
        picture.write(f'<svg xmlns="http://www.w3.org/2000/svg" viewBox="0 0 {width} {height}" font-family="sans-serif">\n')
        picture.write(f'<rect width="{width}" height="{height}" fill="white"/>\n' + "\n".join(drawn) + "\n</svg>\n")


if __name__ == "__main__":
    main(*sys.argv[1:])
