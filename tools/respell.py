#!/usr/bin/env python3
"""Respells the repository's own words of specs/ and proofs/: snake case for functions, lemmas, fields and constructors.

usage: python3 tools/respell.py [FOLDER]

Run once over a tree that port.py has turned. The table respell.tsv beside this script has the old and the new name of each word.
Code of src/ outside clauses, strings, inputs and outputs keep their names: the table holds no name of a function, field or type there.
"""

import os
import re
import sys

HERE = os.path.dirname(os.path.realpath(__file__))
WORD = re.compile(r"[^\s(){}.,;:\[\]\"⌜⌝@`|]+")


def table():
    with open(os.path.join(HERE, "respell.tsv"), encoding="utf-8") as f:
        return dict(line.rstrip("\n").split("\t") for line in f)


def files(root):
    for folder, dirs, names in os.walk(os.path.join(root, "crates")):
        dirs[:] = sorted(d for d in dirs if d != "out")
        yield from (os.path.join(folder, n) for n in sorted(names) if n.endswith((".antt", ".rt", ".edit")))
    yield from (os.path.join(root, p) for p in ("README.md", "docs/ARCHITECTURE.md", "docs/DECISIONS.md"))


def respell(text, names):
    return WORD.sub(lambda m: names.get(m.group(0), m.group(0)), text)


def main(root):
    names = table()
    changed = 0
    for path in files(root):
        with open(path, encoding="utf-8") as f:
            old = f.read()
        new = respell(old, names)
        if new != old:
            changed += 1
            with open(path, "w", encoding="utf-8") as f:
                f.write(new)
    print(f"respell: {changed} files")


if __name__ == "__main__":
    main(sys.argv[1] if len(sys.argv) > 1 else os.path.dirname(HERE))
