#!/usr/bin/env python3
"""Respells this repository's own definitions, lemmas and fields, as tools/respell.txt says: OLD NEW, a line each.

usage: python3 tools/respell.py      at the top of the repository, once, after the kit's port.py

Turned: the antt files of specs/ and proofs/, and the files of src/, whose code has none of the old names. Strings stay.
Names that the kit's script turned by itself are not in the list.
"""

import os
import re
import subprocess
import sys

HERE = os.path.dirname(os.path.realpath(__file__))
NAME = re.compile(r"(?<![A-Za-z0-9_'\u00b7\u2032])[A-Za-z_][A-Za-z0-9_'\u00b7-]*")
STRING = re.compile(r'"(?:[^"\\]|\\.)*"')


def table():
    with open(os.path.join(HERE, "respell.txt"), encoding="utf-8") as f:
        return dict(line.split() for line in f)


def turn(text, names, goals):
    """goals: the file answers goals of a function, where a dashed name behind a dot is one that the check made."""

    def name(m):
        made = goals and "-" in m.group() and text_of[m.start() - 1 : m.start()] == "."
        return m.group() if made else names.get(m.group(), m.group())

    lines = []
    for line in text.split("\n"):
        parts, last = [], 0
        for s in [*STRING.finditer(line), None]:
            text_of = line[last : s.start() if s else len(line)]
            parts.append(NAME.sub(name, text_of))
            if s:
                parts.append(s.group())
                last = s.end()
        lines.append("".join(parts))
    return "\n".join(lines)


def main():
    names = table()
    for folder, dirs, files in os.walk("crates"):
        dirs[:] = sorted(d for d in dirs if d != "out")
        inside = folder.split(os.sep)[2:]
        for f in sorted(files):
            if not f.endswith((".antt", ".rt")) or not inside:
                continue
            path = os.path.join(folder, f)
            with open(path, encoding="utf-8") as it:
                old = it.read()
            new = turn(old, names, inside[0] == "proofs" and len(inside) > 1)
            if new != old:
                with open(path, "w", encoding="utf-8") as it:
                    it.write(new)
    for crate in sorted(os.listdir("crates")):
        if os.path.isdir(os.path.join("crates", crate, "src")):
            subprocess.run(["rt", "fmt"], cwd=os.path.join("crates", crate), stdout=subprocess.DEVNULL, check=False)


if __name__ == "__main__":
    sys.exit(main())
