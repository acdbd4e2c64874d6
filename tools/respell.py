#!/usr/bin/env python3
"""Brings the repository's own definitions and laws to snake case, by the table respelled.tsv beside this file. Run once, at the top, after port.py.

It turns .antt and .rt files below crates/, no must-fail edit and no page. With --text it turns standard input to standard output instead.
Where a table of names at a file's head has its == in one column, it has them in one column afterwards.
"""

import os
import re
import sys

HERE = os.path.dirname(os.path.realpath(__file__))
WORD = re.compile(r"[^\s(){}\[\],;.\"`⌜⌝λ◌|/]+")
HEAD = re.compile(r"^--   (\S.*?)( *) == (.*)$")


def table():
    with open(os.path.join(HERE, "respelled.tsv"), encoding="utf-8") as f:
        return dict(line.rstrip("\n").split("\t") for line in f)


def turned(text, names):
    return WORD.sub(lambda m: names.get(m.group(0), m.group(0)), text)


def aligned(text):
    lines, out, i = text.split("\n"), [], 0
    while i < len(lines):
        j = i
        while j < len(lines) and HEAD.match(lines[j]):
            j += 1
        if j == i:
            out.append(lines[i])
            i += 1
            continue
        rows = [HEAD.match(l).groups() for l in lines[i:j]]
        if any(len(gap) > 0 for _, gap, _ in rows):
            width = max(len(name) for name, _, _ in rows)
            out += [f"--   {name.ljust(width)} == {what}" for name, _, what in rows]
        else:
            out += lines[i:j]
        i = j
    return "\n".join(out)


def main():
    names = table()
    if sys.argv[1:] == ["--text"]:
        sys.stdout.write(turned(sys.stdin.read(), names))
        return
    for folder, dirs, files in os.walk("crates"):
        dirs[:] = sorted(d for d in dirs if d not in ("out", "must-fail"))
        for name in sorted(files):
            if not name.endswith((".antt", ".rt")):
                continue
            path = os.path.join(folder, name)
            with open(path, encoding="utf-8") as f:
                old = f.read()
            new = turned(old, names)
            if name.endswith(".antt"):
                new = aligned(new)
            if new != old:
                with open(path, "w", encoding="utf-8") as f:
                    f.write(new)


main()
