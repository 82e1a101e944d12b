#!/usr/bin/env python3
"""Runs the commands of a page and compares what they print with what the page shows. A convenience, outside the proof.

    check_page.py PAGE [PROGRAM]      run in the repository's root

A command is an indented line that starts with `$ `; the indented lines after it are its output, standard error
included. PROGRAM stands in for target/bin/structure where that is not built; tools/model.py, for one.

Exit status: 0 where no command differs, 1 where one does, or the page cannot be read or has none, 2 where it was called
wrongly.
"""
import shutil
import subprocess

import called
from ravenvanity import files

INDENT = "    "
BUILT = "target/bin/structure"


def commands(text):
    """(line number, command, expected output) of each command."""
    found, inside = [], False
    for number, line in enumerate(text.split("\n"), 1):
        if line.startswith(INDENT + "$ "):
            found.append((number, line[len(INDENT) + 2:], []))
            inside = True
        elif inside and line.startswith(INDENT):
            found[-1][2].append(line[len(INDENT):])
        else:
            inside = False
    return found


def read_page(path):
    """The commands of a page, one at least."""
    try:
        found = commands(files.read_input(path).decode("utf-8"))
    except UnicodeDecodeError:
        raise called.Bad(f"{files.name_of(path)}: it is no page, since it is not UTF-8") from None
    if not found:
        raise called.Bad(f"{files.name_of(path)}: there is no command on it")
    return found


def differs(number, command, expected):
    ran = subprocess.run(["bash", "-c", command], stdin=subprocess.DEVNULL, stdout=subprocess.PIPE, stderr=subprocess.STDOUT, text=True, errors="replace")
    printed = ran.stdout.rstrip("\n").split("\n") if ran.stdout else []
    if printed != expected:
        print(f"line {number}: {command}\n  shown:   {expected}\n  printed: {printed}")
    return printed != expected


def main(words):
    called.no_option(words)
    if len(words) not in (1, 2):
        raise called.Wrong(f"it takes a page, and a program if {BUILT} is not built")
    program = words[1] if len(words) == 2 else BUILT
    found = read_page(words[0])
    asked = len(words) == 2 or any(BUILT in command for _, command, _ in found)
    if asked and not shutil.which(program):
        raise called.Bad(f"{program}: there is no such program")
    differ = sum([differs(number, command.replace(BUILT, program), expected) for number, command, expected in found])
    print(f"{len(found)} commands, {differ} differ")
    return differ != 0


if __name__ == "__main__":
    called.run(main, __doc__)
