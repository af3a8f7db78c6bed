#!/usr/bin/env python3
"""Brings this repository's own definitions and lemmas to snake case: the names of respell.tsv, beside this file.

usage: python3 tools/respell.py        at the top of the repository, once, after port.py and before any edit by hand

A row is a file below crates/ (or * for all), the old name and the new one. It changes contracts, definitions, lemmas, edits
and the names that pages quote, and no Rust name: those were in snake case. Rows of one file are applied first.
"""

import os
import re
import sys

HERE = os.path.dirname(os.path.abspath(__file__))
ROOT = os.path.dirname(HERE)
WORD = re.compile(r"(\.?)([^\s(){}\[\].,;:λ«»⌜⌝\"`|&!]+)")


def rows():
    with open(os.path.join(HERE, "respell.tsv"), encoding="utf-8") as f:
        for line in f:
            yield line.rstrip("\n").split("\t")


def turn(text, names, proof):
    """Each whole word of names, by its new spelling. In a function's proof a dashed name after a dot is a generated step."""

    def word(m):
        dot, w = m.groups()
        if w not in names or (proof and dot and "-" in w):
            return m.group(0)
        return dot + names[w]

    return WORD.sub(word, text)


def files():
    for folder, dirs, names in os.walk(ROOT):
        dirs[:] = sorted(d for d in dirs if d not in ("out", ".git", "target", "tools"))
        for n in sorted(names):
            if n.endswith((".rt", ".antt", ".edit", ".md")):
                yield os.path.join(folder, n)


def main():
    everywhere, scoped = {}, {}
    for where, old, new in rows():
        if where == "*":
            everywhere[old] = new
        else:
            scoped.setdefault(where, {})[old] = new
    for path in files():
        rel = os.path.relpath(path, ROOT)
        with open(path, encoding="utf-8") as f:
            text = f.read()
        proof = rel.endswith("/Proof.antt")
        if rel.endswith(".md"):
            if rel in ("docs/PORT.md", "docs/CHANGES.md"):
                continue
            after = re.sub(r"`[^`\n]+`", lambda m: turn(m.group(0), everywhere, False), text)
        else:
            after = turn(text, scoped.get(rel.removeprefix("crates/"), {}), proof)
            after = turn(after, everywhere, proof)
        if after != text:
            with open(path, "w", encoding="utf-8") as f:
                f.write(after)


if __name__ == "__main__":
    sys.exit(main())
