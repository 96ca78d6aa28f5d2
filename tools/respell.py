#!/usr/bin/env python3
"""Spells the repository's own definitions and lemmas as today's Rattle does.

usage: python3 tools/respell.py [FOLDER]      (FOLDER: a checkout, by default the one that this file lies in)

Words are in snake case, types in camel case, a prime is an apostrophe. names.tsv beside this file has the old and the new
name, a line each. It is run once, after the kit's own script for an older repository (port.py). Rust's names,
comments, strings, the labels that Rattle makes in proof files, inputs and outputs stay.
"""

import os
import re
import sys

HERE = os.path.dirname(os.path.abspath(__file__))
NAME = r"[^\s(){}.;,@\"«»]+"
# A name with the path before it, as c.f-r.ensures.front-first.
PATH = re.compile(rf"{NAME}(?:\.{NAME})*")
STRING = re.compile(r'("(?:[^"\\]|\\.)*")')
# The names that this repository's answers bind, behind which Rattle's own labels stand.
HEADS = {"goal", "c", "l", "w", "g"}


def table():
    with open(os.path.join(HERE, "names.tsv"), encoding="utf-8") as f:
        return dict(line.rstrip("\n").split("\t") for line in f)


def sources(root):
    for folder, dirs, files in os.walk(os.path.join(root, "crates")):
        dirs[:] = sorted(d for d in dirs if d != "out")
        for name in sorted(files):
            if name.endswith((".antt", ".rt", ".edit")):
                yield os.path.join(folder, name)


def respelled(text, names, labels):
    def one(match):
        parts = match.group(0).split(".")
        label = 1 if labels and parts[0] in HEADS else None
        return ".".join(part if i == label else names.get(part, part) for i, part in enumerate(parts))

    parts = STRING.split(text)
    return "".join(part if part.startswith('"') else PATH.sub(one, part) for part in parts)


def main():
    root = os.path.abspath(sys.argv[1] if len(sys.argv) > 1 else os.path.dirname(HERE))
    names = table()
    for path in sources(root):
        with open(path, encoding="utf-8") as f:
            lines = f.read().split("\n")
        labels = os.path.basename(path) in ("Answers.antt", "Invariants.antt")
        mark = "--" if path.endswith(".antt") else "//"
        out = []
        for line in lines:
            code, sep, comment = line.partition(mark)
            out.append(respelled(code, names, labels) + sep + comment)
        new = "\n".join(out)
        if new != "\n".join(lines):
            with open(path, "w", encoding="utf-8") as f:
                f.write(new)


main()
