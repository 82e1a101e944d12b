"""Calls of the tools of this folder that must fail, with the exit status of each; tools/check_tools.py makes them. A convenience, outside the proof."""
import ast
import os
import signal
import subprocess
import sys
import tempfile

HERE = os.path.dirname(os.path.abspath(__file__))
HELP = "--help"
# the words of wrong uses (status 2), then those that name a bad file (status 1); {names} are files and folders of `things`
CALLS = {
    "computed_cases.py": (("", "-x {libraries}"),
                          ("{cells}", "{gone} {libraries}", "{cells} {gone}", "{cells} {folder}", "{empty} {libraries}", "{cells} {noise}", "{libraries} {cells} x", "{cells} {page}")),
    "conversions.py": (("texts", "text text", "-x"), ()),
    "own_cases.py": (("x", "-x"), ()),
    "pack_cases.py": (("", "-o", "-o {kept}", "{cells} -o", "-x {cells}", "--all {cells}", "-o {kept} -o {kept} {cells}"),
                      ("{gone}", "{empty}", "{noise}", "{folder}", "{page}", "-o {kept} {cells} {noise}", "-o {gone}/pack {cells}", "-o {folder} {cells}", "-o /dev/full {cells}")),
    "model.py": (("{cells} {cells}", "-x"), ("{gone}", "{empty}", "{noise}", "{folder}", "{page}")),
    "reading_model.py": (("{empty} {empty}", "-x"), ("{gone}", "{folder}")),
    "check_page.py": (("", "{page} cat x", "-x"), ("{gone}", "{empty}", "{noise}", "{folder}", "{kept}", "{page} {gone}")),
    "check_claim.py": (("x", "-x"), ()),
    "check_command.py": (("", "-x"), ()),
    "check_tools.py": (("", "-x"), ("{gone}", "{empty}", "{noise}", "{folder}", "{page}", "{cells} {gone}")),
}
# what prints much, little or bytes
PRINTING = (("own_cases.py", ""), ("conversions.py", "text"), ("pack_cases.py", "{cells}"), ("model.py", "{cells}"), ("model.py", ""),
            ("reading_model.py", "{empty}"), ("check_page.py", "{page}"), ("check_claim.py", ""))


def stored(name):
    return os.path.join(HERE, "stored", f"{name}.txt.xz")


def things(folder):
    """What the words of a call name, made in a folder."""
    made = {"empty": b"", "noise": bytes(range(256)), "kept": b"kept\n", "page": b"    $ echo a\n    a\n"}
    for name, data in made.items():
        with open(os.path.join(folder, name), "wb") as f:
            f.write(data)
    os.mkdir(os.path.join(folder, "folder"))
    paths = {name: os.path.join(folder, name) for name in (*made, "folder", "gone")}
    return {**paths, "cells": stored("cells"), "libraries": stored("libraries")}


def called(tool, words, output=subprocess.PIPE):
    """(exit status, standard output, standard error's lines) of a call"""
    command = [sys.executable, os.path.join(HERE, tool), *words]
    ran = subprocess.run(command, stdin=subprocess.DEVNULL, stdout=output, stderr=subprocess.PIPE, text=True, errors="replace")
    return ran.returncode, ran.stdout, ran.stderr.splitlines()


def check_status(tool, words, status, count):
    """A fault: its status, nothing printed, and one line that the tool's name starts."""
    found, printed, lines = called(tool, words)
    if found != status or printed or len(lines) != 1 or not lines[0].startswith(f"{tool}: "):
        count.fail(f"{tool} {words}: status {found}, not {status}; {printed[:60]!r} {lines[-1:]}")


def check_help(tool, count):
    with open(os.path.join(HERE, tool), encoding="utf-8") as f:
        top = ast.get_docstring(ast.parse(f.read()), clean=False)
    if called(tool, [HELP]) != (0, top.strip() + "\n", []):
        count.fail(f"{tool} {HELP} does not print what stands at its top")


def check_output(tool, words, count):
    """A full disk is a fault; a reader that stops is none."""
    with open("/dev/full", "wb") as full:
        found, _, lines = called(tool, words, full)
    if found != 1 or len(lines) != 1 or not lines[0].startswith(f"{tool}: standard output: "):
        count.fail(f"{tool} {words} on a full disk: status {found}; {lines[-1:]}")
    end, pipe = os.pipe()
    os.close(end)
    found, _, lines = called(tool, words, pipe)
    os.close(pipe)
    if found != -signal.SIGPIPE or lines:
        count.fail(f"{tool} {words} into a closed pipe: status {found}; {lines[-1:]}")


def check(count):
    """Makes all calls; nothing is left in their folder, and what is there stays."""
    with tempfile.TemporaryDirectory() as folder:
        named = things(folder)
        before = sorted(os.listdir(folder))

        def filled(words):
            return [word.format(**named) for word in words.split()]

        for tool, both in CALLS.items():
            check_help(tool, count)
            for status, uses in zip((2, 1), both):
                for words in uses:
                    count.calls += 1
                    check_status(tool, filled(words), status, count)
        for tool, words in [*PRINTING, *((tool, HELP) for tool in CALLS)]:
            count.calls += 2
            check_output(tool, filled(words), count)
        with open(named["kept"], "rb") as f:
            if f.read() != b"kept\n" or sorted(os.listdir(folder)) != before:
                count.fail("a tool that failed changed or left a file")
