#!/usr/bin/env python3
"""Calls the repository's own conditional when◌then◌else◌: today's library has if◌then◌else◌, and rt ci lets no definition have its name.

usage: tools/respell_when.py ROOT..

It ran once, after tools/respell.py. A condition of two numbers, as `if i equals j then x else y`, keeps its name: the library has none such.
"""
import os
import re
import sys

WORD = re.compile(r"(?<![\w'◌-])(if|then|equals|below)(?![\w'◌-])")
CLAUSE = re.compile(r"\s*(ghost use|requires|ensures|ghost )")


def files(root):
    for folder, dirs, names in os.walk(os.path.join(root, "crates")):
        dirs[:] = sorted(d for d in dirs if d != "out")
        for n in sorted(names):
            if n.endswith((".antt", ".rt", ".edit")):
                yield os.path.join(folder, n)


def turned(line):
    """The line with each `if` whose `then` comes with no `equals` or `below` before it as `when`."""
    line = line.replace("if◌then◌else◌", "when◌then◌else◌")
    if line.lstrip().startswith("--"):
        return line
    code, mark, comment = line.partition(" -- ")
    parts = WORD.split(code)
    begun = []
    for i in range(1, len(parts), 2):
        if parts[i] == "if":
            begun.append([i, False])
        elif parts[i] != "then" and begun:
            begun[-1][1] = True
        elif parts[i] == "then" and begun:
            at, of_numbers = begun.pop()
            if not of_numbers:
                parts[at] = "when"
    return "".join(parts) + mark + comment


def turned_edit(text):
    file, lines = "", []
    for line in text.split("\n"):
        if line.startswith("file:"):
            file = line[5:].strip()
        if line[:5] in ("old: ", "new: ") and (file.endswith(".antt") or CLAUSE.match(line[5:])):
            line = line[:5] + turned(line[5:])
        lines.append(line)
    return "\n".join(lines)


def main():
    for root in sys.argv[1:]:
        for path in files(root):
            with open(path, encoding="utf-8") as f:
                old = f.read()
            if path.endswith(".edit"):
                new = turned_edit(old)
            elif path.endswith(".antt"):
                new = "\n".join(turned(line) for line in old.split("\n"))
            else:
                new = "\n".join(turned(line) if CLAUSE.match(line) else line for line in old.split("\n"))
            if new != old:
                with open(path, "w", encoding="utf-8") as f:
                    f.write(new)


if __name__ == "__main__":
    main()
