#!/usr/bin/env python3
"""Spells the repository's own definitions, lemmas and fields as today's library does: in snake case.

usage: python3 tools/snake_names.py [ROOT]     once, in a tree that /opt/rattle/port/port.py has just turned

snake_names.tsv beside it has a line for each name, old and new. A name counts where it stands whole, in a
.rt or .antt file below crates/. Names of the library and names that the check makes are not in the table.
"""

import os
import re
import sys

HERE = os.path.dirname(os.path.realpath(__file__))
WORD = re.compile(r"[^\s(){}\[\].,;:\"`|\\]+")


def files(root):
    for folder, dirs, names in os.walk(os.path.join(root, "crates")):
        dirs[:] = sorted(d for d in dirs if d not in ("out", "data", "must-fail"))
        for name in sorted(names):
            if name.endswith((".rt", ".antt")):
                yield os.path.join(folder, name)


def main(root):
    with open(os.path.join(HERE, "snake_names.tsv"), encoding="utf-8") as f:
        table = dict(line.rstrip("\n").split("\t") for line in f)
    for path in files(root):
        with open(path, encoding="utf-8") as f:
            old = f.read()
        new = WORD.sub(lambda m: table.get(m.group(0), m.group(0)), old)
        if new != old:
            with open(path, "w", encoding="utf-8") as f:
                f.write(new)


main(sys.argv[1] if len(sys.argv) > 1 else ".")
