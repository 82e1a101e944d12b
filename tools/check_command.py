#!/usr/bin/env python3
"""Tries the command `ravenvanity` as its users call it. A convenience, outside the proof.

    check_command.py CASES [CASES ...]      after `./run`, or `tools/build.sh ravenvanity`

Wrong uses and bad files get one message and their status; files are written whole or not at all, and a refusal leaves
them as they were; cells up to the writer's limit are written; texts and sheets, the program's input, streams, reports,
pictures, boxes, flags and plex numbers, text types and properties, bounds and surveys go through. Of the cells and libraries
in files of cases (tools/case_files.py has their form) each report entry must be shown with the magnitude and the side of its
error, and each refusal about a coordinate must name the coordinate. The last line counts; the exit status is 0 if nothing
was wrong.
"""
import contextlib
import errno
import io
import math
import os
import random
import stat
import struct
import subprocess
import tempfile
import xml.etree.ElementTree

import called
import case_files
import conversions
import model
from ravenvanity import again, cell_text, files, progress, proved, show, write
from ravenvanity import sheet as form

ROOT = os.path.dirname(os.path.dirname(os.path.abspath(__file__)))
COMMAND = os.path.join(ROOT, "ravenvanity")
SAMPLES = os.path.join(ROOT, "tools", "samples")
CALL, CALL_1 = "--policy nearest --unit 1e-9", "--policy nearest --unit 1"
ROW = "001c050200000000000000000000000000000000000000000000000000060606410000040b000006120642000008130200040001001c100300000001000000000000002d0000000000000001000000000004110000040700"
ROW_ENTRY = "0000000005070000000000000440454000000000000000002d4004000000000000"
ROW_WORDS = "element 0 (reference): 4 values affected, worst column endpoint x: "
LIBRARY_LINES = [
    'cell 0 ("VIA"), element 1 (node): 1 value affected, worst point 0 x: p 1.0029999999999999e-07, q 100, error 2.9999999999998283e-10 below',
    'cell 1 ("TOP"), element 3 (reference): 2 values affected, worst column endpoint x: p 2.5016e-06, q 2500, error 1.5999999999996967e-09 below',
]
# tools/samples/die.cell under nearest with d = 1, up to its first box's points and whole, and its entry
DIE_FRONT = "001c0502" + 48 * "0" + "0008060644494500" "00042d0000060d0200eb00062e020000002c1003"
DIE = (DIE_FRONT + "0000000100000002" "0000000000000002" "0000000000000000" "0000000100000000" "0000000100000002" "00041100"
       "00042d0000060d0200eb00062e020001002c1003" "0000000000000000" "0000001e00000000" "0000001e00000014" "0000000000000014" "0000000000000000"
       "00062b020001" "000c2c066469652061726561" "00041100" "00040700")
DIE_ENTRY = "00000001" "06" "00" "00" "0001" "00000002" "403e400000000000" "0000001e" "bfd0000000000000"
# tools/samples/group.cell under nearest with d = 1, its entry, and what is shown of its options
GROUP = ("001c0502" + 48 * "0" + "000a060647524f555000"
         "00042d00" "000626010001" "00082f0300000007" "00060d0200eb" "00062e020000" "002c1003" "0000000000000000" "0000001e00000000" "0000001e00000014" "0000000000000014" "0000000000000000" "00041100"
         "00041500" "00082f0300000007" "00060d020004" "00062a020000" "000c10030000000f0000000a" "00041100"
         "00040a00" "000626010000" "00082f0300000007" "0008120656494100" "000c10030000000f0000000a" "00041100" "00040700")
GROUP_ENTRY = "00000001" "04" "00" "00" "0000" "00000001" "402e800000000000" "0000000f" "bfd0000000000000"
GROUP_LINES = ["    42    ELFLAGS       1 (template)", "    48    PLEX          7", "   120    PLEX          7", "   160    ELFLAGS       0", "   166    PLEX          7",
               "element 1 (node): 1 value affected, worst point 0 x: p 15.25, q 15, error 0.25 below"]
# a text and its properties at their limits, as a text and, with d = 1, as a structure
LIMITS_TEXT = f'cell "A"\ntext 255 255 "T"\n  at 0@1 0@1\n  property 1 ""\n  property 127 "odd"\n  property 127 "{126 * "v"}"\n'
LIMITS = ("001c0502" + 48 * "0" + "000606064100" "00040c00" "00060d0200ff" "0006160200ff" "000617010000" "000c10030000000000000000" "000619065400"
          "00062b020001" "00042c06" "00062b02007f" "00082c066f646400" "00062b02007f" "00822c06" + 126 * "76" + "00041100" "00040700")
TURNED = 'cell "A"\nreference "B" 3 1\n  at 0@1 0@1\n  column 10@1 0@1\n  degrees {}\n'


class Count:
    def __init__(self):
        self.runs = self.refusals = self.found = self.wrong = 0
        self.sides = {"above": 0, "below": 0}

    def fail(self, what):
        self.wrong += 1
        print(what)

    def hold(self, what, found, wanted):
        if found != wanted:
            self.fail(f"{what}: {str(found)[:200]!r}, not {str(wanted)[:200]!r}")


class Folder:
    """A folder of files, in which the command is run."""

    def __init__(self, path, count):
        self.path, self.count = path, count

    def put(self, name, content):
        with open(os.path.join(self.path, name), "wb") as f:
            f.write(content if isinstance(content, bytes) else content.encode())

    def get(self, name):
        with open(os.path.join(self.path, name), "rb") as f:
            return f.read()

    def all(self):
        """What each file holds; a link to nothing is passed over."""
        return {name: self.get(name) for name in os.listdir(self.path) if os.path.exists(os.path.join(self.path, name))}

    def ran(self, words, given=b"", command=COMMAND):
        self.count.runs += 1
        return subprocess.run([command, *(words.split(" ") if isinstance(words, str) else words)], cwd=self.path, input=given, capture_output=True)

    def says(self, words, status, error="", output=None, given=b""):
        """Runs it; one message, or none, that has these words, and nothing but the output that is wanted."""
        done = self.ran(words, given)
        lines = done.stderr.decode().splitlines()
        shown = words if isinstance(words, str) else " ".join(words)
        self.count.hold(f"{shown[:80]}: status", done.returncode, status)
        if error == "" and lines or error and (error not in done.stderr.decode() or not lines[0].startswith("ravenvanity: ")):
            self.count.fail(f"{shown[:80]}: it says {lines[:3]}, not {error!r}")
        if status == 2 and len(lines) != 1:
            self.count.fail(f"{shown[:80]}: {len(lines)} lines for one mistake: {lines[:4]}")
        if output is not None:
            self.count.hold(f"{shown[:80]}: output", done.stdout, output if isinstance(output, bytes) else output.encode())
        return done


# words, and what the message has: status 2
WRONG_USES = (
    ("", "COMMAND"), ("foo", "foo"), ("--foo", "COMMAND"), ("write", "INPUT, --policy, --unit, -o"), ("write a.cell", "--policy, --unit, -o"), (f"write a.cell {CALL}", "-o"),
    ("write a.cell --policy foo --unit 1 -o x", "not foo"), ("write a.cell --policy 256 --unit 1 -o x", "255"), ("write a.cell --policy -1 --unit 1 -o x", "not -1"),
    ("write a.cell --policy 0 --unit x -o x", "the database unit"), ("write a.cell --policy 0 --unit 1e999 -o x", "beyond the doubles"), ("write a.cell --policy 0 --unit 0x12 -o x", "the database unit"),
    (f"write a.cell b.cell {CALL} -o x", "b.cell"), (f"write a.cell {CALL} -o x --pol 1", "--pol"), (f"write missing {CALL} -o x", "missing: No such file"), (f"write . {CALL} -o x", ".: Is a directory"),
    (f"write a.cell {CALL_1} -o missing/x", "missing/x: No such file"), (f"write a.cell {CALL_1} -o .", ".: Is a directory"), (f"write a.cell {CALL_1} -o /dev/full", "/dev/full: No space"),
    (f"write a.cell {CALL_1} -o x --report /dev/full", "/dev/full: No space"), (f"write a.cell {CALL} -o x --report x", "both outputs"), (f"write a.cell {CALL} -o - --report -", "both outputs"),
    (f"write a.cell {CALL} -o ./a.cell", "would be lost"), (f"write a.cell {CALL} -o x --report a.cell", "would be lost"), ("sheet a.cell -o a.cell", "would be lost"), ("draw a.str -o a.str", "would be lost"),
    (f"library missing {CALL} -o x", "No such file"), ("library a.library -o x", "--policy, --unit"), ("measure a.cell --policy x --unit 1", "not x"), (f"measure missing {CALL}", "No such file"),
    ("sheet", "INPUT"), ("sheet a.cell --policy 0", "go together"), ("sheet a.cell --unit 1", "go together"), ("sheet a.cell --policy x --unit 1", "not x"), ("sheet missing", "No such file"), ("sheet a.cell --cell --library", "--library"),
    ("sheet a.cell --hex -o /dev/full", "/dev/full: No space"), ("show", "--report FILE"), ("show - --report -", "standard input"), ("show missing", "No such file"), ("show a.str --report missing", "No such file"),
    ("draw", "INPUT"), ("draw missing", "No such file"), ("draw a.str -o missing/x", "missing/x"), ("refusal x", "not x"), ("refusal 99", "no refusal 99"), ("refusal 0", "no refusal 0"), ("refusal 18 x", "not x"),
    ("refusal 18 -1", "not -1"), ("refusal 18 0 1 2", "a block"), ("prepare x", "x"), ("write a.cell --policy 0 --unit 1 --unit 1 -o x", "--unit is given twice"), (f"write a.cell {CALL} -o x -o y", "-o is given twice"),
    (f"write a.cell {CALL} -o new --report ./new", "both outputs"), (f"write a.cell {CALL} -o new --report link", "both outputs"), ("sheet a.sheet --hex", "of a sheet a text is written"),
    ("sheet a.sheet --program --policy 0 --unit 1", "--program"), ("sheet a.library --policy 0 --unit 1", "the program `structure` writes cells"), (f"write a.cell {CALL} extra -o x", "`ravenvanity write --help`"),
    ("draw a.str -o a.cell/", "a.cell/: Is a directory"), ("draw a.str -o new/", "new/: Is a directory"), ("draw a.str -o - -o x", "-o is given twice"),
    ("bounds", "LOWER, UPPER"), ("bounds 0 --unit 1 --policy 0", "UPPER"), ("bounds 0 0 0 --unit 1 --policy 0", "0"), ("bounds 0 0 --policy 0", "--unit"), ("bounds 0 0 --unit 1", "--policy"),
    ("bounds 0 0 --unit", "--unit"), ("bounds 0 0 --unit 1 --policy foo", "not foo"), ("bounds 0 0 --unit 1 --policy " + "9" * 5000, "255"), ("bounds x 0 --unit 1 --policy 0", "the lower end"),
    ("bounds 0 1e999 --unit 1 --policy 0", "beyond the doubles"), ("bounds 0 0 --unit 0x12 --policy 0", "the database unit"),
    ("survey", "PITCH, N"), ("survey 1 --unit 1 --policy 0", "N"), ("survey x 1 --unit 1 --policy 0", "the pitch"), ("survey 1e999 1 --unit 1 --policy 0", "beyond the doubles"),
    ("survey 1 1.5 --unit 1 --policy 0", "not 1.5"), ("survey 1 -1 --unit 1 --policy 0", "not -1"), ("survey 1 4294967296 --unit 1 --policy 0", "4294967295"), ("survey 1 x --unit 1 --policy 0", "the number of places"),
)

# what is refused or cannot be read: status 1
REFUSED = (
    (f"write empty {CALL} -o x", "empty, line 1: there is no `cell` line"), (f"write bad.cell {CALL} -o x", "bad.cell, line 2"), (f"write latin.cell {CALL} -o x", "latin.cell, line 2: byte 0xb5 is not UTF-8"),
    (f"write a.library {CALL} -o x", "`ravenvanity library` writes"), (f"library a.cell {CALL} -o x", "is the text of a cell, which `ravenvanity write` writes"), (f"write odd.hex {CALL} -o x", "odd number of hex digits"),
    (f"write empty --as-sheet {CALL} -o x", "refusal 4: "), (f"library empty --as-sheet {CALL} -o x", "refusal 23, outside a cell: "), (f"write library.sheet {CALL} -o x", "`ravenvanity library` writes it"),
    ("write a.cell --policy 4 --unit 1 -o x", "refusal 1: "), ("write a.cell --policy 0 --unit -1 -o x", "refusal 2: "), ("measure a.cell --policy 0 --unit nan", "refusal 2: "),
    ("write grid.cell --policy strict --unit 1e-9 -o x", "refusal 18, block 3 (element 2, a node): a value is off the grid and the policy is strict\nravenvanity: looked at again, outside the proof: point 0, x, is 0.0005@1e-06, p 5e-10, p / d 0.5"),
    ("library a.library --policy strict --unit 1e-9 -o x", 'refusal 18, cell 0 ("VIA"), block 2 (element 1, a node): '), ("library a.library --policy 0 --unit 1e-300 -o x", "refusal 24, outside a cell: "),
    ("show empty", "byte 0"), ("show a.cell", "byte 2"), ("show a.sheet", "it may be a sheet"), ("show cut.str", "cut.str, byte 80: "), ("show a.str --report cut.str", "cut.str, byte 4: report entry"), ("show a.str --report other.report", "other.report, byte 0: report entry: structure \"A\" has no element 0 that is a polygon"), ("show --report library.report", "a library's report is shown with its file"), ("draw a.sheet", "it may be a sheet"), (f"library damaged.sheet {CALL} -o x", "byte 431: element kind 77 is unknown"), ("sheet damaged.sheet", "byte 431: element kind 77 is unknown: it is 1 to 6, raised by 16 with flags and by 32 with a plex number (block 1), in cell 1"), (f"write odd.hex {CALL} -o x", "odd.hex, hex digits"), ("show --report cut.report", "33 bytes, 32 are left"),
    ("draw empty", "byte 0"), ("draw a.gds --structure NO", "there is no structure"), ("draw none.gds", "no structure to draw"), ("sheet empty", "no `cell` line"), ("sheet cut.sheet", "cut.sheet, byte"),
    ("sheet a.library --cell", "`ravenvanity library` writes"), ("sheet a.cell --library", "which `ravenvanity write` writes"), ("sheet empty --program", "at least 9 bytes"), ("sheet turned.cell", "line 2: this array is turned by 30.0 degrees: give it the lines `sine` and `cosine`"), ("sheet one.cell", "stand together"), ("sheet corner.cell", "corner.cell, line 2: this box has no `second` line"),
    ("sheet infinite.cell --machine-sines", "not finite"), ("bounds 1 0 --unit 1 --policy 0", "refusal 32: "), ("bounds inf 0 --unit 1 --policy 0", "refusal 17, the lower end: "),
    ("bounds 0 -inf --unit 1 --policy 0", "refusal 17, the upper end: "), ("survey 1 0 --unit 1 --policy 0", "refusal 33: "), ("survey -inf 1 --unit 1 --policy 0", "refusal 17: the pitch is not finite"),
)


def prepared(folder):
    """The files that the tables name."""
    for name, sample in (("a.cell", "array.cell"), ("grid.cell", "grid.cell"), ("die.cell", "die.cell"), ("group.cell", "group.cell"), ("a.library", "two_cells.library")):
        with open(os.path.join(SAMPLES, sample), "rb") as f:
            folder.put(name, f.read())
    folder.put("empty", b"")
    folder.put("bad.cell", 'cell "A"\nblob 1 2\n')
    folder.put("latin.cell", b'cell "A"\n# \xb5m\n')
    folder.put("odd.hex", "000")
    folder.put("turned.cell", TURNED.format("30"))
    folder.put("infinite.cell", TURNED.format("inf"))
    folder.put("one.cell", TURNED.format("30") + "  sine 0.5\n")
    folder.put("corner.cell", 'cell "A"\nbox 1 2\n  first 0@1 0@1\n')
    folder.put("a.str", bytes.fromhex(ROW))
    folder.put("cut.str", bytes.fromhex(ROW)[:80])
    folder.put("cut.report", bytes.fromhex(ROW_ENTRY)[:32])
    folder.put("other.report", bytes.fromhex(ROW_ENTRY.replace("000000000507", "000000000100", 1)))
    folder.put("library.report", bytes.fromhex("00000001" + ROW_ENTRY))
    os.symlink("new", os.path.join(folder.path, "link"))
    for words in ("sheet a.cell -o a.sheet", "sheet a.library -o library.sheet", f"library a.library {CALL} -o a.gds"):
        folder.says(words, 0)
    folder.put("cut.sheet", folder.get("a.sheet")[:-1])
    folder.put("damaged.sheet", folder.get("library.sheet")[:431] + b"M" + folder.get("library.sheet")[432:])
    folder.put("none.library", 'library "L"\nuser_unit 1\n')
    folder.says(f"library none.library {CALL} -o none.gds", 0)


def faults(folder):
    """No fault makes a file, or changes one."""
    before = folder.all()
    for words, error in WRONG_USES:
        folder.says(words.split(" ") if words else [], 2, error)
    for words, error in REFUSED:
        folder.says(words, 1, error)
    for words in (["write", "", *CALL_1.split(" "), "-o", "x"], ["write", "a.cell", *CALL_1.split(" "), "-o", ""]):
        folder.says(words, 2, "a file's name is empty")
    with open(os.path.join(folder.path, "a.cell"), "rb") as given:
        done = subprocess.run([COMMAND, "write", "-", *CALL_1.split(" "), "-o", "a.cell"], cwd=folder.path, stdin=given, capture_output=True)
    folder.count.hold("the input by another name", (done.returncode, done.stderr), (2, b"ravenvanity: a.cell is the input, and would be lost\n"))
    folder.count.hold("files after faults", folder.all(), before)


def ways(folder):
    """A cell from its text, from its sheet, as hex digits, through pipes: the same structure and report."""
    text, sheet = folder.get("a.cell"), folder.get("a.sheet")
    folder.put("a.hex", sheet.hex() + "\n")
    line = "accepted: 88 bytes, 1 report entry, greatest error 2.5"
    for name in ("a.cell", "a.sheet", "a.hex"):
        folder.says(f"write {name} --policy nearest --unit 1 -o b.str --report b.report", 0, output=f"{line}\n")
        folder.count.hold(f"{name}: structure", folder.get("b.str").hex(), ROW)
        folder.count.hold(f"{name}: report", folder.get("b.report").hex(), ROW_ENTRY)
    for given in (text, sheet):
        folder.says("write - --policy 0 --unit 1 -o -", 0, line, bytes.fromhex(ROW), given)
        folder.says("write - --policy 0 --unit 1 -o /dev/null --report -", 0, line, bytes.fromhex(ROW_ENTRY), given)
    folder.says("write a.cell --policy 0 --unit 1 -o b.str --quiet", 0, output="")
    folder.says("write a.cell --policy 0 --unit 1 -o - -q", 0, output=bytes.fromhex(ROW))
    folder.says("measure a.cell --policy 0 --unit 1", 0, output=f"{line}\nto be lent: 88 bytes for the structure, 33 for the report\n")
    for name in ("a.library", "library.sheet"):
        folder.says(f"measure {name} {CALL}", 0, output="accepted: 538 bytes, 2 report entries, greatest error 1.5999999999996967e-09\nto be lent: 538 bytes for the library file, 74 for the report\n")
        folder.says(f"library {name} {CALL} -o b.gds --report b.report", 0)
        folder.count.hold(f"{name}: file", folder.get("b.gds"), folder.get("a.gds"))
    os.symlink(COMMAND, os.path.join(folder.path, "linked"))
    folder.count.hold("called by a link", folder.ran("sheet a.cell -o -", command="./linked").stdout, sheet)


def there_and_back(folder):
    """Text to sheet to text, of a cell, of a library and of the program's input."""
    sheet = folder.get("a.sheet")
    folder.says("sheet a.sheet -o b.cell", 0)
    folder.says("sheet b.cell -o b.sheet", 0)
    folder.count.hold("a cell there and back", folder.get("b.sheet"), sheet)
    folder.says("sheet library.sheet -o b.library", 0)
    folder.says("sheet b.library -o -", 0, output=folder.get("library.sheet"))
    folder.says("sheet a.cell --hex", 0, output=sheet.hex() + "\n")
    for name in ("a.cell", "a.sheet"):
        folder.says(f"sheet {name} --policy 3 --unit 1 -o input", 0)
        folder.count.hold("the program's input", folder.get("input"), bytes.fromhex("033ff0000000000000") + sheet)
    done = folder.says("sheet input --program", 0)
    folder.count.hold("the program's input as text", done.stdout, b"# policy 3 (strict), unit 1.0\n" + folder.get("b.cell"))


def sines(folder):
    """An array's sine and cosine: given, the machine's on request, exact at quarter turns."""
    sine, cosine = map(cell_text.double_text, cell_text.machine_turn(form.bits_of(30.0)))
    done = folder.says("sheet turned.cell --machine-sines -o b.sheet", 0, f"line 2: sine {sine} and cosine {cosine} of 30.0 degrees are this machine's; their last bit may differ")
    folder.count.hold("machine's sines", len(done.stderr.splitlines()), 1)
    folder.put("quarter.cell", TURNED.format("-90"))
    folder.says("sheet quarter.cell --machine-sines -o b.sheet", 0)
    for degrees, pair in ((90, (1.0, 0.0)), (180, (0.0, -1.0)), (270, (-1.0, 0.0)), (-90, (-1.0, 0.0)), (450, (1.0, 0.0))):
        found = cell_text.machine_turn(form.bits_of(float(degrees)))
        folder.count.hold(f"{degrees} degrees", tuple(map(form.double_of, found)), pair)
    for text, right in ((TURNED.format("0"), True), (TURNED.format("-0.0"), True), (TURNED.format("90"), False), (TURNED.format("nan"), False),
                        (TURNED.format("30").replace("3 1", "1 1"), True), (TURNED.format("30") + "  sine 0.5\n  cosine 0.8\n", True), (TURNED.format("0") + "  cosine 1\n", False)):
        try:
            cell_text.read_cell(text)
            folder.count.hold(f"read: {text!r}", True, right)
        except cell_text.Bad:
            folder.count.hold(f"not read: {text!r}", False, right)


def picture_of(folder, words, error=""):
    return xml.etree.ElementTree.fromstring(folder.says(words, 0, error).stdout.decode())


def shown(folder):
    """Streams and reports as text, and pictures."""
    entry = f"{ROW_WORDS}p 42.5, q 45, error 2.5 above\n"
    folder.put("a.report", bytes.fromhex(ROW_ENTRY))
    records = folder.says("show a.str", 0).stdout.decode()
    folder.says("show a.str --report a.report", 0, output=records + entry)
    folder.says("show --report a.report", 0, output=entry)
    folder.put("two.report", bytes.fromhex(ROW_ENTRY + ROW_ENTRY.replace("00000000", "00000001", 1)))
    folder.says("show a.str --report two.report", 1, "two.report, byte 33: report entry", records)
    folder.says("show -", 0, output=records, given=ROW.encode())
    folder.says("show -", 0, output=f"accepted: 88 bytes, 1 report entry, greatest error 2.5\n{records}{entry}", given=f"ok 88 1 4004000000000000\n{ROW}\n{ROW_ENTRY}\n".encode())
    folder.says("show -", 0, output="refused: number 18, block 3 (`ravenvanity refusal 18 3` says what that means)\n", given=b"no 18 3\n")
    folder.says(f"library a.library {CALL} -o b.gds --report b.report", 0)
    done = folder.says("show b.gds --report b.report", 0)
    folder.count.hold("a library's entries", done.stdout.decode().splitlines()[-2:], LIBRARY_LINES)
    for words in ("draw a.str", "draw a.gds", "draw a.gds --structure VIA"):
        root = picture_of(folder, words, "outlines" if "str" in words and "structure" not in words else "")
        folder.count.hold(f"{words}: a picture", root.tag, "{http://www.w3.org/2000/svg}svg")
    folder.says("draw a.gds -o b.svg", 0)
    folder.says("refusal 18 3", 0)
    folder.count.hold("refusals", len(folder.says("refusal", 0).stdout.splitlines()), 29)


# p, q and error of an entry that is else ROW_ENTRY, and how its line ends
SIDES = (
    (42.5, 42, -0.5, "p 42.5, q 42, error 0.5 below"), (-42.5, -42, 0.5, "p -42.5, q -42, error 0.5 above"), (0.25, 0, -0.25, "p 0.25, q 0, error 0.25 below"),
    (-5e-324, 0, 5e-324, "p -5e-324, q 0, error 5e-324 above"), (1.7e308, 2, math.inf, "p 1.7e+308, q 2, error inf above"), (-1.7e308, -2, -math.inf, "p -1.7e+308, q -2, error inf below"),
    (-0.5, 1, 1.5, "p -0.5, q 1, error 1.5 above"), (0.5, -1, -1.5, "p 0.5, q -1, error 1.5 below"),
    (1e300, 1, -1e300, "p 1e+300, q 1, error 1e+300 below"), (-1e300, -1, 1e300, "p -1e+300, q -1, error 1e+300 above"),
)
# the same of entries that the writer never gives: the byte at fault before, and what is told after
NOT, OLD = "is not q * d - p, which is", "; was this report made before errors had a sign?"
NO_SIDES = (
    (13, math.nan, 5, 1.0, "p nan is not finite"), (13, math.inf, 3, 1.0, "p inf is not finite"), (13, -math.inf, 0, math.nan, "p -inf is not finite"),
    (25, 42.5, 45, 0.0, "error 0.0 is neither above nor below 0"), (25, 42.5, 45, -0.0, "error -0.0 is neither above nor below 0"), (25, 42.5, 45, math.nan, "error nan is neither above nor below 0"),
    (25, 0.25, 0, 0.25, f"error 0.25 {NOT} -0.25 where q is 0{OLD}"), (25, 0.25, 0, 0.5, f"error 0.5 {NOT} -0.25 where q is 0"), (25, -0.25, 0, -0.25, f"error -0.25 {NOT} 0.25 where q is 0"),
    (25, 0.0, 0, 5e-324, f"error 5e-324 {NOT} 0.0 where q is 0"), (25, -0.5, 1, -1.5, f"error -1.5 {NOT} at least 0.5 where q is 1"), (25, -0.5, 1, 0.25, f"error 0.25 {NOT} at least 0.5 where q is 1"),
    (25, 0.5, 1, -1.5, f"error -1.5 {NOT} at least -0.5 where q is 1"), (25, 0.0, 1, -5e-324, f"error -5e-324 {NOT} at least 0.0 where q is 1"), (25, -1.7e308, 2, -math.inf, f"error -inf {NOT} at least 1.7e+308 where q is 2"),
    (25, 0.5, -1, 1.5, f"error 1.5 {NOT} at most -0.5 where q is -1"), (25, -0.25, -1, 0.75, f"error 0.75 {NOT} at most 0.25 where q is -1"), (25, 1.7e308, -2, math.inf, f"error inf {NOT} at most -1.7e+308 where q is -2"),
)
# the greatest error of the program's lines, the errors of their entries, and what is told
AMONG = "the largest magnitude among the entries is"
NO_GREATEST = (
    (-2.5, (2.5,), f"{AMONG} 2.5"), (-2.5, (-2.5,), f"{AMONG} 2.5"), (math.nan, (2.5,), f"{AMONG} 2.5"), (0.0, (2.5,), f"{AMONG} 2.5"), (math.nextafter(2.5, 3), (-2.5,), f"{AMONG} 2.5"),
    (2.25, (2.25, -2.5), f"{AMONG} 2.5"), (2.5, (math.inf, 2.5), f"{AMONG} inf"), (-math.inf, (-math.inf,), f"{AMONG} inf"), (math.inf, (2.5, math.nan), f"{AMONG} 2.5"),
    (2.5, (), "without an entry it is 0.0"), (-0.0, (), "without an entry it is 0.0"), (math.nan, (), "without an entry it is 0.0"),
)


def entry_with(p, q, error):
    return bytes.fromhex(ROW_ENTRY)[:13] + struct.pack(">did", p, q, error)


def lines_with(greatest, entries, stream=bytes.fromhex(ROW)):
    """What the program prints of them."""
    first = f"ok {len(stream)} {len(entries)} {struct.pack('>d', greatest).hex()}"
    return "".join(f"{line}\n" for line in (first, stream.hex(), *(entry.hex() for entry in entries))).encode()


def sides(folder):
    """An error is shown by its magnitude and its side. What the writer never gives is told with its place, after the records."""
    records, whole = folder.says("show a.str", 0).stdout.decode(), bytes.fromhex(ROW_ENTRY)
    for p, q, error, words in SIDES:
        entry = entry_with(p, q, error)
        folder.says("show --report -", 0, output=f"{ROW_WORDS}{words}\n", given=entry)
        folder.says("show -", 0, output=f"accepted: 88 bytes, 1 report entry, greatest error {abs(error)!r}\n{records}{ROW_WORDS}{words}\n",
                    given=lines_with(abs(error), [entry]))
    for byte, p, q, error, words in NO_SIDES:
        entry, greatest = entry_with(p, q, error), max(2.5, abs(error))  # of a NaN 2.5
        folder.says("show a.str --report -", 1, f"standard input, byte {33 + byte}: report entry: {words}\n", records, whole + entry)
        folder.says("show -", 1, f"standard input, line 4, byte {byte}: report entry: {words}\n", f"accepted: 88 bytes, 2 report entries, greatest error {greatest!r}\n{records}",
                    lines_with(greatest, [whole, entry]))


def greatest_held(folder):
    """The greatest error and the entries' lengths are looked at before anything is shown, of a library too."""
    for greatest, errors, words in NO_GREATEST:
        given = lines_with(greatest, [entry_with(42.5, 45, error) for error in errors])
        folder.says("show -", 1, f"standard input, line 1: greatest error {greatest!r}; {words}\n", "", given)
    folder.says("show -", 1, "standard input, line 3: a report entry has 33 bytes, not 32\n", "", lines_with(2.5, [bytes.fromhex(ROW_ENTRY)[:32]]))
    folder.says(f"library a.library {CALL} -o b.gds --report b.report", 0)
    file, report = folder.get("b.gds"), folder.get("b.report")
    entries, errors = [report[:37], report[37:]], [abs(struct.unpack(">d", report[end - 8:end])[0]) for end in (37, 74)]
    done = folder.says("show -", 0, given=lines_with(errors[1], entries, file))
    folder.count.hold("a stored library's entries", done.stdout.decode().splitlines()[-2:], LIBRARY_LINES)
    folder.says("show -", 1, f"line 1: greatest error {errors[0]!r}; {AMONG} {errors[1]!r}\n", "", lines_with(errors[0], entries, file))
    folder.says("show -", 1, "line 4: a report entry has 37 bytes, not 33\n", "", lines_with(errors[1], [entries[0], entries[1][4:]], file))


# a node's point, and the value that stands for it under nearest: of equal magnitudes the first, else the largest
NODES = (
    ("2.25@1 2.75@1", "2 values affected, worst point 0 x: p 2.25, q 2, error 0.25 below"), ("2.75@1 2.25@1", "2 values affected, worst point 0 x: p 2.75, q 3, error 0.25 above"),
    ("2.125@1 2.75@1", "2 values affected, worst point 0 y: p 2.75, q 3, error 0.25 above"), ("-2.125@1 -2.75@1", "2 values affected, worst point 0 y: p -2.75, q -3, error 0.25 below"),
    ("0.25@1 0@1", "1 value affected, worst point 0 x: p 0.25, q 0, error 0.25 below"),
)
# the same where q * d is beyond the doubles
FAR_NODES = (
    ("1.7e308@1 -1.7e308@1", "2 values affected, worst point 0 x: p 1.7e+308, q 2, error inf above"), ("-1.7e308@1 1.7e308@1", "2 values affected, worst point 0 x: p -1.7e+308, q -2, error inf below"),
)


def entries_of(folder, elements, call):
    """What is shown of the report of a cell of these elements, each a text."""
    folder.put("parts.cell", 'cell "N"\n' + "".join(elements))
    folder.says(f"write parts.cell {call} -o parts.str --report parts.report -q", 0)
    return folder.says("show parts.str --report parts.report", 0).stdout.decode().splitlines()[-len(elements):]


def node_text(point):
    return f"node 1 0\n  point {point}\n"


def written_sides(folder):
    """The side of what is written: either under nearest, below under floor, above under ceiling."""
    for nodes, d in ((NODES, "1"), (FAR_NODES, "1.1e308")):
        wanted = [f"element {k} (node): {words}" for k, (_, words) in enumerate(nodes)]
        found = entries_of(folder, [node_text(point) for point, _ in nodes], f"--policy nearest --unit {d}")
        folder.count.hold(f"entries under nearest, d {d}", found, wanted)
    for policy, side in (("floor", "below"), ("ceiling", "above")):
        found = entries_of(folder, [node_text(point) for point, _ in NODES], f"--policy {policy} --unit 1")
        folder.count.hold(f"sides under {policy}", [line.split(" ")[-1] for line in found], [side] * len(NODES))


# the corners of a box, and its entry under nearest: each coordinate counts in every point that has it
BOXES = (
    ("2.25@1 0@1", "9@1 9@1", "3 values affected, worst point 0 x: p 2.25, q 2, error 0.25 below"), ("0@1 2.75@1", "9@1 9@1", "3 values affected, worst point 0 y: p 2.75, q 3, error 0.25 above"),
    ("0@1 0@1", "2.25@1 9@1", "2 values affected, worst point 1 x: p 2.25, q 2, error 0.25 below"), ("0@1 0@1", "9@1 2.75@1", "2 values affected, worst point 2 y: p 2.75, q 3, error 0.25 above"),
    ("2.25@1 2.75@1", "2.25@1 2.75@1", "10 values affected, worst point 0 x: p 2.25, q 2, error 0.25 below"), ("2.125@1 2.25@1", "2.75@1 2.625@1", "10 values affected, worst point 2 y: p 2.625, q 3, error 0.375 above"),
    ("0@1 2.25@1", "2.75@1 9@1", "5 values affected, worst point 0 y: p 2.25, q 2, error 0.25 below"), ("3@2 0@1", "3@0.75 9@1", "2 values affected, worst point 1 x: p 2.25, q 2, error 0.25 below"),
)
# kind, field, axis and place of entries that the writer never gives, the byte at fault, and what is told
SPOT = "a box's entry is of point 0 x or y, point 1 x or point 2 y"
NO_SPOTS = (
    ((7, 0, 0, 0), 4, "element kind 7 is unknown"), ((6, 1, 2, 0), 5, "a box has no field 1"), ((6, 4, 0, 0), 5, "a box has no field 4"), ((6, 9, 0, 0), 5, "a box has no field 9"), ((6, 0, 3, 0), 6, "axis 3 is unknown"),
    ((6, 0, 2, 0), 6, f"axis 2 of point 0; {SPOT}"), ((6, 0, 1, 1), 6, f"axis 1 of point 1; {SPOT}"), ((6, 0, 0, 2), 6, f"axis 0 of point 2; {SPOT}"), ((6, 0, 0, 3), 6, f"axis 0 of point 3; {SPOT}"),
    ((6, 0, 1, 4), 6, f"axis 1 of point 4; {SPOT}"), ((6, 0, 0, 256), 6, f"axis 0 of point 256; {SPOT}"), ((1, 1, 2, 0), 5, "a polygon has no field 1"), ((2, 4, 0, 0), 5, "a path has no field 4"),
    ((20, 0, 0, 0), 4, "element kind 20 is unknown"), ((38, 0, 0, 0), 4, "element kind 38 is unknown"), ((3, 0, 0, 0), 5, "a text has no field 0"), ((4, 7, 0, 0), 5, "a node has no field 7"), ((5, 3, 2, 0), 5, "a reference has no field 3"), ((5, 9, 0, 0), 5, "a reference has no field 9"),
)


def box_text(first, second):
    return f"box 1 0\n  first {first}\n  second {second}\n"


def boxes(folder):
    """Boxes written, shown and turned back into a text; the entries that theirs may be."""
    folder.says("write die.cell --policy nearest --unit 1 -o die.str --report die.report", 0, output="accepted: 186 bytes, 1 report entry, greatest error 0.25\n")
    folder.count.hold("boxes: structure", folder.get("die.str").hex(), DIE)
    folder.count.hold("boxes: report", folder.get("die.report").hex(), DIE_ENTRY)
    folder.says("sheet die.cell -o die.sheet", 0)
    folder.says("sheet die.sheet -o back.cell", 0)
    folder.says("sheet back.cell -o -", 0, output=folder.get("die.sheet"))
    found = entries_of(folder, [box_text(first, second) for first, second, _ in BOXES], CALL_1)
    folder.count.hold("entries of boxes", found, [f"element {k} (box): {words}" for k, (_, _, words) in enumerate(BOXES)])
    for spot, byte, words in NO_SPOTS:
        entry = bytes(4) + struct.pack(">BBBH", *spot) + bytes.fromhex(DIE_ENTRY)[9:]
        folder.says("show --report -", 1, f"standard input, byte {byte}: report entry: {words}", "", entry)
    folder.says("show die.str --report -", 1, 'structure "DIE" has no element 2 that is a box', given=bytes.fromhex("00000002" + DIE_ENTRY[8:]))


def boxes_drawn(folder):
    """A box is its outline in two pixels, in the colour of its layer, which is listed; one without extent is a cross."""
    folder.put("die.str", bytes.fromhex(DIE))
    root = picture_of(folder, "draw die.str")
    outlines = [part.attrib for part in root if part.tag.endswith("polygon")]
    folder.count.hold("boxes: outlines", [(part["fill"], part["stroke-width"]) for part in outlines], [("none", "2")] * 2)
    folder.count.hold("boxes: points", [len(part["points"].split(" ")) for part in outlines], [5, 5])
    folder.count.hold("boxes: layers", [part.text for part in root if part.tag.endswith("text")], ["layer 235"])
    folder.put("flat.str", bytes.fromhex(DIE_FRONT) + struct.pack(">10i", *[5, 7] * 5) + bytes.fromhex("0004110000040700"))
    crossed = [part.attrib["stroke"] for part in picture_of(folder, "draw flat.str") if part.tag.endswith("path")]
    folder.count.hold("boxes: a cross, and that of the origin", crossed, [outlines[0]["stroke"], "#777"])


def boxes_refused(folder):
    """A box's refusals with the corner at fault; a coordinate's comes before a property's."""
    for k, corner in enumerate(("first corner, x,", "first corner, y,", "second corner, x,", "second corner, y,")):
        values = ["0@1"] * k + ["0.25@1"] * (4 - k)
        folder.put("off.cell", 'cell "A"\n' + box_text(" ".join(values[:2]), " ".join(values[2:])))
        folder.says("write off.cell --policy strict --unit 1 -o x", 1, "refusal 18, block 1 (element 0, a box): a value is off the grid and the policy is strict\n"
                    f"ravenvanity: looked at again, outside the proof: {corner} is 0.25@1.0, p 0.25, p / d 0.25")
    for length, coordinate, status, error in ((126, "0@1", 0, ""), (127, "0@1", 1, "refusal 10, block 1 (element 0, a box)"), (127, "0.25@1", 1, "refusal 18, block 1")):
        folder.put("off.cell", 'cell "A"\n' + box_text("0@1 0@1", f"9@1 {coordinate}") + f'  property 1 "{length * "v"}"\n')
        folder.says("write off.cell --policy strict --unit 1 -o off.str", status, error)
    folder.put("off.cell", 'cell "A"\n' + box_text("0@0 0@1", "9@1 9@1").replace("1 0", "1 256"))
    folder.says("write off.cell --policy strict --unit 1 -o x", 1, "refusal 9, block 1 (element 0, a box): a layer or type is above 255\n"
                "ravenvanity: looked at again, outside the proof: layer 1, type 256")


# the first line of each kind, and the others that it must have
KINDS = {"polygon": ("polygon 1 0", ""), "node": ("node 1 0", ""), "path": ("path 1 0", ""), "text": ('text 1 0 "T"', "  at 0@1 0@1\n"), "reference": ('reference "B"', "  at 0@1 0@1\n"),
         "box": ("box 1 0", "  first 0@1 0@1\n  second 9@1 9@1\n")}


def options(folder):
    """Flags and plex numbers written, shown and turned back into a text; the kind in an entry is told without them."""
    folder.says("write group.cell --policy nearest --unit 1 -o group.str --report group.report", 0, output="accepted: 202 bytes, 1 report entry, greatest error 0.25\n")
    folder.count.hold("options: structure", folder.get("group.str").hex(), GROUP)
    folder.count.hold("options: report", folder.get("group.report").hex(), GROUP_ENTRY)
    lines = folder.says("show group.str --report group.report", 0).stdout.decode().splitlines()
    folder.count.hold("options: lines", [line for line in lines if "ELFLAGS" in line or "PLEX" in line or "element" in line], GROUP_LINES)
    folder.says("show group.str --report -", 1, "byte 4: report entry: element kind 36 is unknown", given=bytes.fromhex("0000000124" + GROUP_ENTRY[10:]))
    folder.says("sheet group.cell -o group.sheet", 0)
    text = folder.says("sheet group.sheet", 0).stdout.decode()
    folder.count.hold("options: after the first line", text.splitlines()[2:5], ["box 235 0", "  flags 1", "  plex 7"])
    folder.says("sheet - -o -", 0, output=folder.get("group.sheet"), given=text.encode())
    for kind in KINDS:
        options_anywhere(folder, kind)


def options_anywhere(folder, kind):
    """Both lines may stand in any order, before the others of the element or after; flags up to 65535 can be on a sheet."""
    first, rest = KINDS[kind]
    texts = [f'cell "A"\n{first}\n{lines}' for lines in (f"  flags 65535\n  plex -2147483648\n{rest}", f"{rest}  plex -2147483648\n  flags 65535\n")]
    sheets = [folder.says("sheet - -o -", 0, given=text.encode()).stdout for text in texts]
    folder.count.hold(f"options of a {kind}: one sheet", sheets[0], sheets[1])
    start = form.read_pairs(sheets[0])[1][0]
    folder.count.hold(f"options of a {kind}: kind byte, flags, plex number", sheets[0][start:start + 7].hex(), f"{cell_text.ELEMENTS[kind] + 48:02x}ffff80000000")


def options_refused(folder):
    """26 with its block and the flags, before the element's others, whose kind is told without options; a kind byte that is unknown."""
    node = 'cell "A"\nnode 1 0\n  point 0@1 0@1\nnode {} 0\n  flags {}\n  plex 1\n  point 0@1 0@1\n'
    for layer, flags, error in ((256, 4, "refusal 26, block 2 (element 1, a node): an element's flags are above 3\nravenvanity: looked at again, outside the proof: the flags are 4 (0x0004)"),
                                (1, 65535, "looked at again, outside the proof: the flags are 65535 (0xffff)"), (256, 3, "refusal 9, block 2 (element 1, a node): ")):
        folder.put("off.cell", node.format(layer, flags))
        folder.says(f"write off.cell {CALL_1} -o x", 1, error)
    folder.put("off.library", 'library "L"\nuser_unit 1\n' + node.format(1, 4))
    folder.says(f"library off.library {CALL_1} -o x", 1, 'refusal 26, cell 0 ("A"), block 2 (element 1, a node): ')
    folder.count.hold("refusal 26", folder.says("refusal 26 1", 0).stdout.decode().splitlines()[:3],
                      ["refusal 26: an element's flags are above 3", "caused by: the designer", "order: in an element directly after its 5"])
    sheet = folder.get("group.sheet")
    start = form.read_pairs(sheet)[1][0]
    for byte in (0, 16, 32, 48, 55, 54 + 64, 54 + 128):
        damaged = sheet[:start] + bytes([byte]) + sheet[start + 1:]
        words = f"byte {start}: element kind {byte} is unknown: it is 1 to 6, raised by 16 with flags and by 32 with a plex number (block 1)"
        folder.says("sheet -", 1, f"standard input, {words}", given=damaged)
        folder.says(f"write - {CALL_1} -o x", 1, "refusal 5, block 1 (element 0): the block is ill-formed", given=damaged)


# the records after a node's first, each in hex, and what is told of its structure
MISPLACED = (
    (("00082f0300000007", "000626010001"), "byte 46: ELFLAGS stands where LAYER belongs"), (("000626010001", "000626010001"), "byte 44: ELFLAGS stands where LAYER belongs"),
    (("00060d020001", "000626010001"), "byte 44: ELFLAGS stands where NODETYPE belongs"), (("00060d020001", "00062a020000", "00082f0300000007"), "byte 50: PLEX stands where XY belongs"),
    (("000626020001",), "byte 41: ELFLAGS has data type 1, not 2"), (("0008260100000001",), "byte 42: ELFLAGS has 2 bytes of data, not 4"), (("00062f030007",), "byte 42: PLEX has 4 bytes of data, not 2"),
)


def options_misplaced(folder):
    """ELFLAGS and PLEX elsewhere, or of another form; flags above 3, which this writer does not write, are shown."""
    head = "001c0502" + 48 * "0" + "000606064100" "00041500"
    for records, error in MISPLACED:
        folder.says("show -", 1, error, given=(head + "".join(records) + "00060d020001").encode())
    rest = "00060d020001" "00062a020000" "000c10030000000000000000" "00041100" "00040700"
    for flags, words in (("0003", "3 (template, external)"), ("0002", "2 (external)"), ("8004", "32772")):
        done = folder.says("show -", 0, given=f"{head}00062601{flags}{rest}".encode())
        folder.count.hold(f"flags {flags}", done.stdout.decode().splitlines()[3], f"    38    ELFLAGS       {words}")


def limits(folder):
    """A text and its properties at their limits, written and shown; beyond them a sheet still has a text."""
    folder.says(f"write - {CALL_1} -o limits.str", 0, output="accepted: 242 bytes, 0 report entries, greatest error 0.0\n", given=LIMITS_TEXT.encode())
    folder.count.hold("limits: structure", folder.get("limits.str").hex(), LIMITS)
    lines = folder.says("show limits.str", 0).stdout.decode().splitlines()
    folder.count.hold("limits: lines", [line.split()[1:] for line in lines if "TEXTTYPE" in line or "PROPATTR" in line], [["TEXTTYPE", "255"], ["PROPATTR", "1"], ["PROPATTR", "127"], ["PROPATTR", "127"]])
    beyond = f'cell "A"\nstamps zero\ntext 1 65535 "T"\n  at 0@1.0 0@1.0\n  property 0 ""\n  property 65535 "{65535 * "v"}"\n'
    folder.says("sheet - -o beyond.sheet", 0, given=beyond.encode())
    folder.says("sheet beyond.sheet", 0, output=beyond)
    for record, words in (("000616020100", "TEXTTYPE      256"), ("00061602ffff", "TEXTTYPE      65535")):
        folder.count.hold(words, words in folder.says("show -", 0, given=LIMITS.replace("0006160200ff", record).encode()).stdout.decode(), True)
    for record, words in (("00062b020000", "PROPATTR      0"), ("00062b02ffff", "PROPATTR      65535")):
        folder.count.hold(words, words in folder.says("show -", 0, given=LIMITS.replace("00062b020001", record).encode()).stdout.decode(), True)


# lines of an element's properties, and the refusal under strict with what is found of it
ATTRIBUTE, LENGTH = "a property's attribute is outside 1 to 127", "a string is too long: a text has at most 512 bytes, a property value at most 126"
FINE, LONG = '  property 127 "v"\n', f'  property 1 "{127 * "v"}"\n'
PROPERTIES = (
    ('  property 0 ""\n', 27, ATTRIBUTE, "property 0 has the attribute 0"), ('  property 128 "v"\n', 27, ATTRIBUTE, "property 0 has the attribute 128"), ('  property 65535 "v"\n', 27, ATTRIBUTE, "property 0 has the attribute 65535"),
    (FINE + FINE + '  property 257 "v"\n', 27, ATTRIBUTE, "property 2 has the attribute 257"), (LONG, 10, LENGTH, "the value of property 0 has 127 bytes"), (FINE + LONG + FINE, 10, LENGTH, "the value of property 1 has 127 bytes"),
    (LONG.replace("1", "0", 1), 27, ATTRIBUTE, "property 0 has the attribute 0"), (LONG + '  property 0 "v"\n', 10, LENGTH, "the value of property 0 has 127 bytes"),
    ('  property 128 "v"\n' + LONG, 27, ATTRIBUTE, "property 0 has the attribute 128"), (f'  property 1 "{65535 * "v"}"\n', 10, LENGTH, "the value of property 0 has 65,535 bytes"),
)
# lines of a text, and the same
TEXTS = (
    ('text 255 256 "T"', "", 9, "a layer or type is above 255", "layer 255, type 256"), ('text 256 255 "T"', "", 9, "a layer or type is above 255", "layer 256, type 255"),
    (f'text 1 65535 "{513 * "t"}"', LONG, 9, "a layer or type is above 255", "layer 1, type 65535"), (f'text 1 255 "{513 * "t"}"', LONG, 10, LENGTH, "the text has 513 bytes"),
    (f'text 1 255 "{512 * "t"}"', LONG, 18, "a value is off the grid and the policy is strict", "origin, x, is 0.5@1.0, p 0.5, p / d 0.5"),
)
POINTS = {"polygon": 4, "path": 2, "node": 1}  # so many are enough


def limits_refused(folder):
    """9, 10 and 27 with their block and what is found; properties in turn and last in each kind, behind 26 and a coordinate's."""
    start = 'cell "A"\nnode 1 0\n  point 0@1 0@1\n'
    for kind, (first, rest) in KINDS.items():
        points = POINTS.get(kind, 0) * "  point 0@1 0@1\n"
        for lines, number, words, found in PROPERTIES:
            folder.says("write - --policy strict --unit 1 -o x", 1, told_of(number, kind, words, found), given=f"{start}{first}\n{rest}{points}{lines}".encode())
    for first, rest, number, words, found in TEXTS:
        folder.says("write - --policy strict --unit 1 -o x", 1, told_of(number, "text", words, found), given=f"{start}{first}\n  at 0.5@1 0@1\n{rest}".encode())
    bad = f'{start}node 1 0\n  flags {{}}\n  point {{}} 0@1\n  property 128 "v"\n'
    for flags, x, number in ((4, "0.5@1", 26), (3, "0.5@1", 18), (3, "0@1", 27)):
        folder.says("write - --policy strict --unit 1 -o x", 1, f"refusal {number}, block 2 (element 1, a node): ", given=bad.format(flags, x).encode())
    folder.says(f"library - {CALL_1} -o x", 1, 'refusal 27, cell 0 ("A"), block 2 (element 1, a node): ', given=f'library "{127 * "L"}"\nuser_unit 1\n{bad.format(3, "0@1")}'.encode())
    folder.count.hold("refusal 27", folder.says("refusal 27 1", 0).stdout.decode().splitlines(), [
        f"refusal 27: {ATTRIBUTE}", "caused by: the designer", "order: last of all in its element, property by property, each time before the 10 of the property's value",
        "both buffers stay as they were", "block 1 is element 0, counted from 0"])
    for words in ("27 0", "27 4294967295 0", "27 0 0"):
        folder.count.hold(f"refusal {words}: doubted", "was this read rightly?" in folder.says(f"refusal {words}", 0).stdout.decode(), True)


def told_of(number, kind, words, found):
    """The two lines of a refusal in block 2."""
    return f"refusal {number}, block 2 (element 1, a {kind}): {words}\nravenvanity: looked at again, outside the proof: {found}\n"


def large(folder):
    """Cells at the writer's own limits, and one beyond."""
    point = "  point 0.0123@1e-6 1.0457@1e-6\n"
    folder.put("long.cell", 'cell "LONG"\npolygon 1 0\n' + 8191 * point)
    folder.says(f"write long.cell {CALL} -o long.str", 0)
    folder.count.hold("a polygon of 8,191 points", len(folder.get("long.str")), 65592)
    folder.put("longer.cell", 'cell "LONG"\npolygon 1 0\n' + 8192 * point)
    folder.says(f"write longer.cell {CALL} -o long.str", 1, "refusal 8, block 1 (element 0, a polygon)")
    most = form.Cell(b"MOST", [0] * 12, [node_with([b"x" * 126] * 65535)])  # a second node has the rest
    many, value = divmod(16777216 - len(form.sheet_bytes(most._replace(elements=[*most.elements, node_with([])]))) - 4, 130)
    for more, status, error in ((0, 0, ""), (1, 1, "refusal 3: the sheet is over 16,777,216 bytes")):
        sheet = form.sheet_bytes(most._replace(elements=[*most.elements, node_with([b"x" * 126] * many + [b"x" * (value + more)])]))
        folder.count.hold("the longest sheet", len(sheet), 16777216 + more)
        folder.put("most.sheet", sheet)
        folder.says(f"write most.sheet {CALL} -o most.str", status, error)


def node_with(values):
    point = form.Coordinate(form.INTEGER, 0, form.bits_of(1e-9))
    return form.Shape(form.NODE, 1, 0, [(point, point)], [form.Property(1, value) for value in values])


def ends(folder):
    """A closed pipe and a full disk end the command without a trace; --help and --version."""
    for words in ("refusal", "show long.str", "sheet long.cell --hex"):
        done = subprocess.run(["bash", "-c", f'"{COMMAND}" {words} 2>&1 >/dev/null | cat; "{COMMAND}" {words} 2>closed | true; cat closed'], cwd=folder.path, capture_output=True)
        folder.count.hold(f"{words} into a closed pipe", done.stdout, b"")
    for words, status in (("write missing " + CALL + " -o x", 2), ("draw a.gds -o b.svg", 0), ("foo", 2)):
        done = subprocess.run(["bash", "-c", f'"{COMMAND}" {words} 2>/dev/full'], cwd=folder.path, capture_output=True)
        folder.count.hold(f"{words}, and no message can be written", done.returncode, status)
    folder.put("log", "before\n")
    subprocess.run(["bash", "-c", f'"{COMMAND}" write a.cell {CALL_1} -q -o b.str --report /dev/stderr 2>>log'], cwd=folder.path)
    folder.count.hold("into an open file", folder.get("log"), b"before\n" + bytes.fromhex(ROW_ENTRY))
    for output in ("/dev/stdout", "//dev/fd/1"):
        done = subprocess.run([COMMAND, "write", "a.cell", *CALL_1.split(" "), "-o", output], cwd=folder.path, capture_output=True)
        folder.count.hold(f"into {output}", done.stdout.hex(), ROW)
    done = subprocess.run(["bash", "-c", f'"{COMMAND}" write a.cell {CALL_1} -o - 2>&- | od -An -v -tx1 | tr -d " \\n"'], cwd=folder.path, capture_output=True)
    folder.count.hold("standard error closed", done.stdout.decode(), ROW)
    for words in ("refusal", "--help", "show a.str"):
        done = subprocess.run(["bash", "-c", f'"{COMMAND}" {words} > /dev/full'], cwd=folder.path, capture_output=True)
        folder.count.hold(f"{words} on a full disk", (done.returncode, done.stderr), (2, b"ravenvanity: standard output: No space left on device\n"))
    for name in ("", "write ", "library ", "measure ", "show ", "draw ", "sheet ", "refusal ", "bounds ", "survey ", "prepare "):
        folder.count.hold(f"{name}--help", folder.says(f"{name}--help", 0).stdout[:18], b"usage: ravenvanity")
    folder.count.hold("--version", folder.says("--version", 0).stdout[64:], b"  libravenvanity.a\n")
    folder.says("prepare", 0, output="")


def replaced(folder):
    """A file that is written again keeps its permissions, a link to it stays a link, and nothing is left beside it."""
    folder.put("kept.str", b"before")
    os.chmod(os.path.join(folder.path, "kept.str"), 0o640)
    os.symlink("kept.str", os.path.join(folder.path, "kept.link"))
    names = set(os.listdir(folder.path))
    folder.says("write a.cell --policy 0 --unit 1 -o kept.link", 0)
    folder.count.hold("through a link", folder.get("kept.str").hex(), ROW)
    folder.count.hold("still a link", os.path.islink(os.path.join(folder.path, "kept.link")), True)
    folder.count.hold("permissions", stat.S_IMODE(os.stat(os.path.join(folder.path, "kept.str")).st_mode), 0o640)
    folder.says("write a.cell --policy 0 --unit 1 -o kept.str --report /dev/full", 2, "No space")
    folder.count.hold("names", set(os.listdir(folder.path)), names)
    place = os.path.join(folder.path, "kept.str")
    for new in ("second.report", "a.report"):
        torn(folder, place, os.path.join(folder.path, new))


def torn(folder, first, second):
    """Where the second file cannot take its place, the first gives its own back."""
    before, replace, calls = folder.all(), os.replace, []

    def failing(made, target):
        calls.append(target)
        if len(calls) == 2:
            raise OSError(errno.EPERM, "not permitted")
        replace(made, target)

    os.replace = failing
    try:
        files.write_all([(first, b"new structure"), (second, b"new report")])
        folder.count.fail("a file that cannot take its place is no fault")
    except OSError as fault:
        folder.count.hold("the file at fault", fault.filename, second)
    finally:
        os.replace = replace
    folder.count.hold("files that stay as they were", folder.all(), before)


def progress_told(count):
    """What takes longer says how far it is."""
    said, before = io.StringIO(), (progress.shown, progress.due)
    with contextlib.redirect_stderr(said):
        progress.shown, progress.due = True, 0
        cell_text.read_cell('cell "A"\n')
    progress.shown, progress.due = before
    count.hold("progress", said.getvalue().split(",")[0], "ravenvanity: reading the text")


def row_of(policy, d, pitch, n):
    """A survey's picture as the model has it, place by place."""
    row = [conversions.placed(policy, d, pitch, i) for i in range(n)]
    if not any(row):
        return ["no place is disturbed"]
    each = -(-n // 1024)
    marks = "".join(".ox"[max(row[start:start + each])] for start in range(0, n, each))
    lines = [f"{start * each:5}  {marks[start:start + 64]}" for start in range(0, len(marks), 64)]
    return [f"a mark is {'one place' if each == 1 else f'{each} places'}: . clean, o due, x refused"] + lines


def surveys(folder):
    for policy, d, pitch, n in ((0, 1e-9, 2.5e-9, 12), (3, 1e-9, 1e-7, 1000), (0, 1e-9, 1e-6, 4096), (0, 6e307, 6e307, 4), (1, 1.0, -0.5, 70), (0, 1e-9, 1e-9, 1)):
        done = folder.says(f"survey {pitch!r} {n} --unit {d!r} --policy {policy}", 0)
        folder.count.hold(f"the row of {pitch!r}", done.stdout.decode().splitlines()[1:], row_of(policy, d, pitch, n))
    folder.says("bounds 2.512e-6 2.518e-6 --unit 5e-9 --policy nearest", 0, output="least 502, greatest 504\n")
    folder.says("bounds -2.5e-6 -.5e-6 --unit 1e-6 --policy floor", 0, output="least -3, greatest -1\n")


def sides_shown(cases, count):
    """Each stored entry is shown with the magnitude and the side of its q * d - p."""
    for name, _, given, lines in cases:
        if not lines[0].startswith("ok "):
            continue
        d, told = model.call_of(given)[1], []
        try:
            show.program_lines(lines, told.append)
        except show.Damage as damage:
            count.fail(f"{name}: {damage}")
            continue
        for entry, line in zip(lines[2:], told[len(told) - len(lines) + 2:]):
            p, q, _ = struct.unpack(">did", bytes.fromhex(entry)[-20:])
            side = "above" if q * d - p > 0 else "below"
            count.sides[side] += 1
            count.hold(f"{name}: the error of an entry", line.rpartition(", error ")[2], f"{abs(q * d - p)!r} {side}")


def coordinates_found(cases, count):
    """Of each stored refusal about a coordinate, looking again finds which; of others it finds what FACTS has, and does not stumble."""
    library = proved.load()
    for name, job, given, lines in cases:
        if not lines[0].startswith("no "):
            continue
        number, *place = map(int, lines[0].split(" ")[1:])
        policy, d, sheet = model.call_of(given)
        told = list((write.Library if job == case_files.LIBRARY else write.Cell)(library, policy, d, sheet).refused(number, place))
        count.refusals += 1
        if number in again.COORDINATES:
            count.found += 1
            if len(told) != 2:
                count.fail(f"{name}: {lines[0]}, and which coordinate was not found")
        elif number in again.FACTS and len(told) != 2:
            count.fail(f"{name}: {lines[0]}, and nothing was found")


def found_at(count):
    """A coordinate at fault is found where it is: one off the grid among many, of each field."""
    library, r = proved.load(), random.Random(1)
    for _ in range(200):
        at, axis = r.randrange(40), r.randrange(2)
        points = [[form.Coordinate(form.DOUBLE, form.bits_of(float(k)), form.bits_of(1.0)) for _ in "xy"] for k in range(40)]
        points[at][axis] = form.Coordinate(form.DOUBLE, form.bits_of(at + 0.25), form.bits_of(1.0))
        sheet = form.sheet_bytes(form.Cell(b"A", [0] * 12, [form.Shape(form.NODE, 1, 0, [tuple(p) for p in points], [])]))
        told = list(write.Cell(library, 3, 1.0, sheet).refused(18, [1]))
        count.hold("found at", told[1].split(" is ")[0], f"looked at again, outside the proof: point {at}, {'xy'[axis]},")


def main(paths):
    if not paths:
        raise called.Wrong("it takes files of cases")
    called.no_option(paths)
    cases = [case for path in paths for case in case_files.read_cases(path)]
    try:
        proved.load()
    except proved.Missing as missing:
        raise called.Wrong(str(missing)) from None
    count = Count()
    with tempfile.TemporaryDirectory() as path:
        folder = Folder(path, count)
        prepared(folder)
        for part in (faults, ways, there_and_back, sines, shown, sides, greatest_held, written_sides, boxes, boxes_drawn, boxes_refused, options,
                     options_refused, options_misplaced, limits, limits_refused, large, ends, replaced, surveys):
            part(folder)
    progress_told(count)
    sides_shown(cases, count)
    coordinates_found(cases, count)
    found_at(count)
    print(f"{count.runs} runs of the command; stored entries shown, {count.sides['above']} above and {count.sides['below']} below; "
          f"{count.refusals} stored refusals told, {count.found} of them about a coordinate that was found; {count.wrong} wrong")
    return int(count.wrong != 0)


if __name__ == "__main__":
    called.run(main, __doc__)
