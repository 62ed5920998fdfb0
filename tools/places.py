#!/usr/bin/env python3
"""Counts the places of src/ that docs/DESIGN-PASS.md speaks of, by one pattern a row.

    tools/places.py             the counts in the work tree
    tools/places.py COMMIT      the counts at a commit
    tools/places.py -l ROW ..   the lines of some rows, in the work tree
"""
import re
import subprocess
import sys

ROWS = [
    ("1a", "a variant that says none or a fault, beside one that has a value", r"^    (Other|Fault\(usize\)|Bad),$"),
    ("1b", "a flag among the fields of a struct", r"^    pub \w+: bool,|pub stopped: usize"),
    ("1c", "a flag that chooses between two kinds, as a parameter", r"\b(high|upright|across|fills|carries|go|hit): bool"),
    ("1d", "a number for a kind, a word or an answer, as a parameter or field", r"\b(number|which|axis|key|level|near|far|j): usize"),
    ("1e", "the number of an answer, a fault or a kind in a call or a return", r"refusals::(refusal|first_bad)\([0-9]+|refusal\([0-9]+|Fault\([0-9]+\)|return -?[0-9]+;"),
    ("1f", "a number that says none, in the comment of a function or type", r"^// .*, or (n|m|0|4|another)\b|0 until then|none where m is 0|or another one"),
    ("3", "a loop by while", r"^\s+while "),
    ("4a", "equality by two comparisons", r"\((\S+) <= (\S+)\) & \(\2 <= \1\)"),
    ("4b", "a range by two comparisons", r"\(-?[0-9]+ <= (\S+)\) & \(\1 <= -?[0-9]+\)"),
    ("4c", "a function that only converts, compares or takes the lesser", r"^(pub )?fn (wide|widen|narrow|index|count|less|at_most|less_48|digit|positive|negative|opposite|smaller|larger|least|lesser|as_word|is_digit|capital|cell|number|place|size|word_at)\("),
    ("4d", "a field copied by its name", r"^\s+(\w+): (\w+\.)?\1,"),
    ("5a", "a clause that the table may be read (Held, Readable, Ready)", r"requires.*(Held \(pos|Readable |Ready table)"),
    ("5b", "a clause that the words are an index (Ready, Sound, answer 9)", r"requires.*(Ready index|Sound words|bad_index words|axis_bound)|axis_bound"),
    ("5c", "a clause on lent buffers' lengths (Buffers, Lent, Fits, length)", r"requires.*(Buffers |Lent |Fits |length (stack|cells|index|numbers)\.old)"),
    ("5d", "a clause that a window, strides or a base are good", r"requires.*(bad_window window|bad_strides descriptor|Based len)"),
    ("6a", "a stack of numbers with its depth beside", r"stack: &mut \[usize\]"),
    ("6b", "a text buffer with the place in it beside", r"out: &mut \[u8\]"),
]


def sources(commit):
    """The files of crates/*/src, as pairs of a name and its lines."""
    if commit:
        names = subprocess.run(["git", "ls-tree", "-r", "--name-only", commit, "crates"], capture_output=True, text=True, check=True).stdout.split()
        read = lambda name: subprocess.run(["git", "show", f"{commit}:{name}"], capture_output=True, text=True, check=True).stdout
    else:
        names = subprocess.run(["git", "ls-files", "-co", "--exclude-standard", "crates"], capture_output=True, text=True, check=True).stdout.split()
        read = lambda name: open(name).read()
    return [(name, read(name).split("\n")) for name in sorted(set(names)) if re.match(r"crates/\w+/src/.*\.rt$", name)]


def main():
    arguments = sys.argv[1:]
    show = arguments[1:] if arguments[:1] == ["-l"] else []
    commit = arguments[0] if arguments and not show else None
    files = sources(commit)
    for row, meaning, pattern in ROWS:
        found = [(name, i + 1, line) for name, lines in files for i, line in enumerate(lines) if re.search(pattern, line)]
        if not show:
            print(f"{row:3} {len(found):4}  {meaning}")
        elif row in show:
            for name, i, line in found:
                print(f"{row} {name}:{i}: {line.strip()}")


main()
