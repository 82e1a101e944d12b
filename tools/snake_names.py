#!/usr/bin/env python3
"""Spells this repository's own definitions and lemmas in snake case: once, on files that port.py has turned.

usage: tools/snake_names.py [--list]      at the top; --list shows what would meet, and writes nothing

In .antt files, and in what .rt files say in antt, a word that begins small and has a capital inside gets underscores: `boxPoints` is `box_points`.
A dash still joins the parts of a lemma's name, as in `bytes_of-append`. Types, modules and what else begins with a capital stay.
The edits in must-fail/ of definitions, and what the pages call definitions, follow.
"""

import os
import re
import sys
from collections import defaultdict

# A lemma whose name port.py has spelled as a definition of this repository is spelled now: in this crate, the other name.
OTHER = {"crates/polygon_node/": {"same_int": "same_int_lem"}}
# A library's own words.
LIBRARY = {"toBits"}

NAME = re.compile(r"""(?<![^\s(){}.;,@"«»\[\]!&*`])[A-Za-z_][^\s(){}.;,@"«»:\[\]!`]*""")
CAMEL = re.compile(r"[a-z][a-z0-9]*(?:[A-Z][A-Za-z0-9]*)+['₀-₉]*$")
DECLARED = re.compile(r"^ *(?:(?:abbrev|pub|unfoldable|private|record|data|inductive|ruleset) )*([^\s:(){}.,;\[\]=]+)(?: [({].*)? : ")
PAGES = ["README.md", "oracle/README.md", "exports/README.md", "tools/README.md", "tools/stored/README.md"]


def snake(part):
    if not CAMEL.match(part) or part in LIBRARY:
        return part
    part = re.sub(r"(?<=[a-z0-9])(?=[A-Z])", "_", part)
    part = re.sub(r"(?<=[A-Z])(?=[A-Z][a-z])", "_", part)
    return part.lower()


def name_of(name, other=()):
    if name in other:
        return other[name]
    return "-".join(snake(part) for part in name.split("-"))


def others(path):
    for folder, names in OTHER.items():
        if path.startswith(folder):
            return names
    return {}


def texts(*endings):
    for folder, dirs, files in os.walk("crates"):
        dirs[:] = sorted(d for d in dirs if d != "out")
        for f in sorted(files):
            if f.endswith(endings):
                yield os.path.join(folder, f)


def read(path):
    with open(path, encoding="utf-8") as f:
        return f.read()


def turn_antt(text, other):
    return NAME.sub(lambda m: name_of(m[0], other), text)


def turn_rt(text, other):
    """Only lines that speak antt: imports, clauses, ghost members and comments."""
    lines = []
    for line in text.split("\n"):
        if re.match(r"\s*(ghost |requires|ensures|//)", line):
            line = turn_antt(line, other)
        lines.append(line)
    return "\n".join(lines)


def turn_edit(text, other):
    if text.startswith("file: src/"):
        return text
    return "\n".join(turn_antt(line, other) if re.match("(old|new|twin): ", line) else line for line in text.split("\n"))


def turn_page(text, words):
    def one(m):
        return name_of(m[0]) if all(p in words or not CAMEL.match(p) for p in m[0].split("-")) else m[0]

    return re.sub(r"(?<![\w/-])[a-z][A-Za-z0-9]*(?:-[A-Za-z0-9]+)*", one, text)


def declared():
    """The words of which this repository's names are made."""
    return {part for path in texts(".antt") for line in read(path).split("\n") for m in [DECLARED.match(line)] if m for part in m[1].split("-")}


def meetings():
    """Names of which two become one in a file. In a .rt file no clause can name a function."""
    for path in texts(".antt"):
        text = re.sub(r"--.*", "", read(path))
        made = defaultdict(set)
        for m in NAME.finditer(text):
            made[(name_of(m[0], others(path)), text[m.start() - 1 : m.start()] == ".")].add(m[0])
        for (to, _), froms in sorted(made.items()):
            if len(froms) > 1:
                yield path, to, sorted(froms)


def write(path, text):
    if text != read(path):
        with open(path, "w", encoding="utf-8") as f:
            f.write(text)


def main():
    for path, to, froms in meetings():
        print("meet:", path, to, froms)
    if "--list" in sys.argv:
        return
    words = declared()
    for path in texts(".antt", ".rt", ".edit"):
        turn = turn_antt if path.endswith(".antt") else turn_rt if path.endswith(".rt") else turn_edit
        write(path, turn(read(path), others(path)))
    for path in PAGES + [os.path.join("docs", f) for f in sorted(os.listdir("docs"))]:
        if os.path.exists(path):
            write(path, turn_page(read(path), words))


if __name__ == "__main__":
    main()
