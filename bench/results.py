"""The rows that bench/compare.cpp prints, for table.py and plot.py."""

from collections import namedtuple

Build = namedtuple("Build", "set n method microseconds bytes")
Query = namedtuple("Query", "set n method windows hits nanoseconds ratio spread")
Visits = namedtuple("Visits", "set n greatest bound fullest")
Checked = namedtuple("Checked", "set n windows answers")

BRUTE, DOCUMENT, OURS, SCAN = "brute force", "document 01 in C++", "Kalinosz", "Kalinosz scan"


class Results:
    """Everything of one run; `query[set, n, method, windows]` and the like."""

    def __init__(self, path):
        self.about, self.says, self.build, self.query, self.visits, self.checked = {}, {}, {}, {}, {}, {}
        with open(path, encoding="utf-8") as rows:
            for row in rows:
                self._take(*row.rstrip("\n").split("\t"))
        self.sets = list(self.says)
        self.sizes = sorted({n for _, n in self.visits})
        self.methods = list(dict.fromkeys(method for _, _, method in self.build))
        self.windows = list(dict.fromkeys(key[3] for key in sorted(self.query, key=lambda key: (key[3] == "sliver", len(key[3]), key[3]))))

    def _take(self, what, *fields):
        if what in ("machine", "compilers"):
            self.about[what] = fields[0]
        elif what == "set":
            self.says[fields[0]] = fields[1]
        elif what == "build":
            one = Build(fields[0], int(fields[1]), fields[2], float(fields[3]), float(fields[4]))
            self.build[one.set, one.n, one.method] = one
        elif what == "query":
            one = Query(fields[0], int(fields[1]), fields[2], fields[3], *map(float, fields[4:]))
            self.query[one.set, one.n, one.method, one.windows] = one
        elif what == "visits":
            one = Visits(fields[0], int(fields[1]), int(fields[2]), int(fields[3]), float(fields[4]))
            self.visits[one.set, one.n] = one
        elif what == "checked":
            one = Checked(fields[0], *map(int, fields[1:]))
            self.checked[one.set, one.n] = one
        else:
            raise ValueError(f"a row of another form: {what}")
