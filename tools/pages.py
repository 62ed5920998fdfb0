#!/usr/bin/env python3
"""Spells names between back quotes in the pages as the crates spell them.

usage: python3 tools/pages.py PAGE..        at the top; says how many words it changed in each page

A word changes only where no definition or lemma of specs/ and proofs/ is called so, and one is called as tools/spelling.py would spell it.
"""

import glob
import os
import re
import sys

ROOT = os.path.dirname(os.path.dirname(os.path.abspath(__file__)))
NAME = r"[^\s(){}.;,:@\"«»`/]+"
DECLARED = re.compile(r"(?m)^ *\(?(?:(?:pub|abbrev|unfoldable|data|record) +)*([^\s(){}.;,@\"«»`]+)(?: [({][^\n]*?[)}])* :(?= |$)")


def snake(name):
    words = re.sub(r"(?<=[a-z0-9])[A-Z]", lambda m: "_" + m[0].lower(), name)
    return words.replace("-", "_")


def declared():
    names = set()
    for part in ("specs", "proofs"):
        for path in glob.glob(os.path.join(ROOT, "crates", "*", part, "**", "*.antt"), recursive=True):
            with open(path, encoding="utf-8") as f:
                names |= set(DECLARED.findall(f.read()))
    return names


def main():
    names = declared()
    changed = 0

    def word(m):
        nonlocal changed
        old = m[0]
        if old in names or not old[0].islower():
            return old
        new = snake(old)
        if "-" in old and new + "_is" in names:
            new += "_is"
        if new == old or new not in names:
            return old
        changed += 1
        return new

    for page in sys.argv[1:]:
        changed = 0
        with open(page, encoding="utf-8") as f:
            old = f.read()
        text = re.sub(r"`[^`\n]+`", lambda m: re.sub(NAME, word, m[0]), old)
        if text != old:
            with open(page, "w", encoding="utf-8") as f:
                f.write(text)
        print(f"{page}: {changed}")


main()
