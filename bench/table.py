"""Turns the rows of one run into tables.

python3 bench/table.py RESULTS --brief          Kalinosz against document 01 in C++, on the terminal
python3 bench/table.py RESULTS docs/SPEED.md    all tables, between the two marks in that file
"""

import sys

from results import BRUTE, DOCUMENT, OURS, SCAN, Results

START, END = "<!-- made by bench/table.py: start -->", "<!-- made by bench/table.py: end -->"


def markdown(head, rows):
    lines = [head, ["---"] + ["---:"] * (len(head) - 1)] + rows
    return ["| " + " | ".join(line) + " |" for line in lines] + [""]


def ratio(x):
    return f"{x:.2f}" if x < 10 else f"{x:.0f}"


def micro(nanoseconds):
    x = nanoseconds / 1000
    return f"{x:.2f}" if x < 10 else f"{x:.1f}" if x < 100 else f"{x:.0f}"


def titles(results):
    return ["sliver" if kind == "sliver" else f"{kind} hits" for kind in results.windows]


def against_document(results):
    """Kalinosz to document 01 in C++, and its visits against the bound."""
    head = ["plate, n", "build"] + titles(results) + ["greatest visits (bound there)", "greatest visits / bound"]
    rows = []
    for name in results.sets:
        for n in results.sizes:
            row = [f"{name} {n:,}", ratio(results.build[name, n, OURS].microseconds / results.build[name, n, DOCUMENT].microseconds)]
            for kind in results.windows:
                ours, theirs = (results.query.get((name, n, method, kind)) for method in (OURS, DOCUMENT))
                row.append(ratio(ours.nanoseconds / theirs.nanoseconds) if ours else "–")
            visits = results.visits[name, n]
            rows.append(row + [f"{visits.greatest:,} ({visits.bound:,})", f"{visits.fullest:.2f}"])
    return markdown(head, rows)


def against_fastest(results):
    """Kalinosz to the fastest method that is neither Kalinosz nor the same index in C++."""
    others = [method for method in results.methods if method not in (OURS, SCAN, DOCUMENT)]
    rows = []
    for name in results.sets:
        for n in results.sizes:
            row = [f"{name} {n:,}"]
            for kind in results.windows:
                times = {method: results.query[name, n, method, kind].nanoseconds for method in others if (name, n, method, kind) in results.query}
                if not times:
                    row.append("–")
                    continue
                best = min(times, key=times.get)
                row.append(f"{ratio(results.query[name, n, OURS, kind].nanoseconds / times[best])} {best}")
            rows.append(row)
    return markdown(["plate, n"] + titles(results), rows)


def methods_table(results, name, n):
    kinds = [kind for kind in results.windows if (name, n, BRUTE, kind) in results.query]
    hits = [results.query[name, n, BRUTE, kind].hits for kind in kinds]
    head = ["method", "build µs", "bytes a segment"] + [
        f"{'sliver' if kind == 'sliver' else 'square'}, {hit:.0f} hits" for kind, hit in zip(kinds, hits)
    ]
    rows = []
    for method in results.methods:
        build = results.build[name, n, method]
        row = [method, f"{build.microseconds:,.0f}", f"{build.bytes:.0f}"]
        for kind in kinds:
            query = results.query[name, n, method, kind]
            row.append(f"{micro(query.nanoseconds)} ({ratio(query.ratio)})")
        rows.append(row)
    return markdown(head, rows)


def whole(results):
    windows, answers = (sum(getattr(one, field) for one in results.checked.values()) for field in ("windows", "answers"))
    spreads = sorted(query.spread for query in results.query.values())
    lines = [f"One run on {results.about.get('machine', 'a machine not named')}; {results.about.get('compilers', '')}."]
    lines += [f"{answers:,} answers on {windows:,} windows were held to brute force before anything was timed; none differs."]
    lines += [f"The median round took {spreads[len(spreads) // 2]:.2f} times the least one in the middle case, {spreads[-1]:.2f} in the worst.", ""]
    lines += ["### Kalinosz against document 01 in C++ (ratio of times; below 1 is faster)", ""] + against_document(results)
    lines += ["### Kalinosz against the fastest other method (ratio of times; below 1 is faster, and which method it was)", ""]
    lines += against_fastest(results)
    lines += ["### All methods: µs for a window (ratio to brute force)", ""]
    for n in reversed(results.sizes):
        for name in results.sets:
            lines += [f"**{name}, n = {n:,}**: {results.says[name]}", ""] + methods_table(results, name, n)
    return lines


def main(path, target):
    results = Results(path)
    if target == "--brief":
        print("\n".join(against_document(results)))
        return
    with open(target, encoding="utf-8") as page:
        before, _, rest = page.read().partition(START)
    _, _, after = rest.partition(END)
    with open(target, "w", encoding="utf-8") as page:
        page.write("\n".join([before + START, ""] + whole(results) + [END + after]))


if __name__ == "__main__":
    main(*sys.argv[1:])
