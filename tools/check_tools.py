#!/usr/bin/env python3
"""Tries the tools on stored cases. A convenience, outside the proof.

    check_tools.py CASES [CASES ...]

For each case of the files (tools/case_files.py): a sheet whose form is sound goes to text and back, and must come out as
it went in; an expected stream and its entries are read record by record without complaint, and drawn; cut short or
lengthened, it must be turned back with the byte; an entry's error has the sign of q * d - p, worked out exactly; a refusal
has its words; the answer must be the model's, and where the static library is built the proved library's, which is also
asked for the bounds and surveys of tools/bounds_cases.txt and tools/survey_cases.txt. Then, whatever the files: faulty
texts and faulty lines of cases get their message and nothing else; faulty calls of each tool too, and a full disk and a
closed pipe end it (tools/tool_calls.py); what is stored in crates/test_vectors, crates/test_conversions and crates/cases,
and the sheets that the builders in exports/ are held to, is what the tools make; and refusals have the same numbers and
words in crates/refusal, in the command and in exports/.

The last line counts. Exit status: 0 where nothing is wrong, 1 where something is or a file cannot be read, 2 where it was
called wrongly.
"""
import os
import re
import struct
import xml.etree.ElementTree
from fractions import Fraction

import called
import case_files
import computed_cases
import conversions
import model
import pack_cases
import tool_calls
from case_files import CELL, LIBRARY
from ravenvanity import cell_text, draw, files, library_text, proved, refusal, show
from ravenvanity import sheet as form

BAD_TEXTS = (
    ("", 1, "no `cell` line"), ("# only\n# comments", 2, "no `cell` line"), ("polygon 1 2", 1, "first line must be `cell`"),
    ('cell "A', 1, "no closing"), ("cell A", 1, "string"), ('cell "A" "B"', 1, "takes 1"), ('cell "A"\ncell "B"', 2, "second `cell`"),
    ('cell "\\q"', 1, "escape"), ('cell "\\x4"', 1, "escape"), (f'cell "{"x" * 65536}"', 1, "65536 bytes"), ('"A"', 1, "starts with a word"),
    ('cell "A"\nstamps 1 2', 2, "takes 12"), ('cell "A"\nstamps zero\nstamps zero', 3, "once"), ('cell "A"\nstamps' + " 65536" * 12, 2, "65535"),
    ('cell "A"\npoint 1@1 1@1', 2, "before the first element"), ('cell "A"\nblob 1 2', 2, "no line `blob`"), ('cell "A"\nnode 1 2\n blob', 3, "no line `blob`"),
    ('cell "A"\npolygon 1', 2, "takes 2"), ('cell "A"\npolygon 65536 0', 2, "65535"), ('cell "A"\npolygon -1 0', 2, "65535"),
    ('cell "A"\npolygon 1 2\n  width 1@1', 3, "no line of a polygon"), ('cell "A"\npath 1 2\n width 1@1\n width 1@1', 4, "second `width`"),
    ('cell "A"\npath 1 2\n pathtype 3', 3, "0 to 2"), ('cell "A"\nnode 1 2\n point 1@1', 3, "takes 2"), ('cell "A"\nnode 1 2\n point 1 2', 3, "VALUE@UNIT"),
    ('cell "A"\nnode 1 2\n point absent 1@1', 3, "VALUE@UNIT"), ('cell "A"\nnode 1 2\n point 2147483648@1 1@1', 3, "2147483647"),
    ('cell "A"\nnode 1 2\n point 1e999@1 1@1', 3, "beyond the doubles"), ('cell "A"\nnode 1 2\n point 0x12@1 1@1', 3, "16 hex digits"),
    ('cell "A"\nnode 1 2\n point 1_0.0@1 1@1', 3, "decimal"), ('cell "A"\nnode 1 2\n' + " point 0@1 0@1\n" * 65536, 65538, "65,535 points"),
    ('cell "A"\ntext 1 2\n', 2, "takes 3"), ('cell "A"\n\ntext 1 2 "T"\n vertical 1', 3, "no `at` line"),
    ('cell "A"\nreference "B" 2', 2, "takes 1 or 3"), ('cell "A"\nreference "B" 4294967296 1', 2, "4294967295"),
    ('cell "A"\nreference "B"\n at 1@1 1@1\n column absent 1@1', 4, "VALUE@UNIT"), ('cell "A"\nnode 1 2\n property 1 x', 3, "string"),
    ('cell "A"\nreference "B" 2 1\n at 1@1 1@1\n degrees 45', 2, "give it the lines"), ('cell "A"\nreference "B" 1 2\n at 1@1 1@1\n degrees nan', 2, "not finite"),
    ('cell "A"\nreference "B" 2 1\n at 1@1 1@1\n sine 1', 2, "stand together"), ('cell "A"\n' + "node 1 2\n" * 16384, 16385, "16,383 elements"),
    ('cell "A"\nbox 1', 2, "takes 2"), ('cell "A"\nbox 1 2 3', 2, "takes 2"), ('cell "A"\nbox 65536 0', 2, "65535"), ('cell "A"\nbox 0 -1', 2, "65535"), ('cell "A"\nbox 1 2', 2, "this box has no `first` line"),
    ('cell "A"\nbox 1 2\n first 0@1 0@1\nnode 1 2', 2, "this box has no `second` line"), ('cell "A"\nbox 1 2\n second 0@1 0@1', 2, "this box has no `first` line"),
    ('cell "A"\nbox 1 2\n first 0@1 0@1\n first 0@1 0@1', 4, "a second `first` in one box"), ('cell "A"\nbox 1 2\n point 0@1 0@1', 3, "`point` is no line of a box"),
    ('cell "A"\nbox 1 2\n at 0@1 0@1', 3, "`at` is no line of a box"), ('cell "A"\npolygon 1 2\n first 0@1 0@1', 3, "`first` is no line of a polygon"), ('cell "A"\nsecond 0@1 0@1', 2, "`second` before the first element"),
    ('cell "A"\nbox 1 2\n first 0@1', 3, "takes 2"), ('cell "A"\nbox 1 2\n second absent', 3, "takes 2"), ('cell "A"\nbox 1 2\n second 0@1 absent', 3, "VALUE@UNIT"),
    ('cell "A"\nnode 1 2\n flags 65536', 3, "flags is from 0 to 65535, not 65536"), ('cell "A"\nbox 1 2\n flags -1', 3, "flags is from 0 to 65535, not -1"), ('cell "A"\npath 1 2\n flags 0x1', 3, "flags is a whole number"),
    ('cell "A"\nnode 1 2\n plex 2147483648', 3, "plex is from -2147483648 to 2147483647, not 2147483648"), ('cell "A"\nreference "B"\n plex -2147483649', 3, "plex is from"), ('cell "A"\ntext 1 2 "T"\n plex 1.0', 3, "plex is a whole number"),
    ('cell "A"\npolygon 1 2\n flags 1\n plex 1\n flags 1', 5, "a second `flags` in one polygon"), ('cell "A"\nreference "B"\n plex 0\n at 1@1 1@1\n plex 0', 5, "a second `plex` in one reference"),
    ('cell "A"\nflags 1', 2, "`flags` before the first element"), ('cell "A"\nstamps zero\nplex 1', 3, "`plex` before the first element"), ('cell "A"\nnode 1 2\n flags', 3, "takes 1"), ('cell "A"\nnode 1 2\n plex 1 2', 3, "takes 1"),
    ('cell "A"\nnode 1 2\n flags absent', 3, "flags is a whole number, not absent"), ('cell "A"\nnode 1 2\n plex "1"', 3, "plex is a whole number, not a string"),
    ('cell "A"\ntext 1 65536 "T"', 2, "a type is from 0 to 65535, not 65536"), ('cell "A"\nnode 1 2\n property 65536 ""', 3, "an attribute is from 0 to 65535, not 65536"), ('cell "A"\nbox 1 2\n property -1 "v"', 3, "an attribute is from 0 to 65535, not -1"),
    ('cell "A"\nnode 1 2\n property 1.0 "v"', 3, "an attribute is a whole number"), ('cell "A"\nnode 1 2\n property 1', 3, "takes 2"), ('cell "A"\nnode 1 2\n property 1 "v" "w"', 3, "takes 2"),
    (f'cell "A"\nnode 1 2\n property 1 "{"v" * 65536}"', 3, "65536 bytes"), ('cell "A"\nproperty 1 "v"', 2, "`property` before the first element"),
)

BAD_LIBRARIES = (
    ("", 1, "no `library` line"), ('cell "A"', 1, "first line must be `library`"), ("library A", 1, "string"), ('library "A" "B"', 1, "takes 1"),
    ('library "A"', 1, "no `user_unit` line"), ('# L\nlibrary "A"\ncell "B"', 2, "no `user_unit` line"), ('library "A"\nuser_unit', 2, "takes 1"),
    ('library "A"\nuser_unit x', 2, "user_unit is a decimal"), ('library "A"\nuser_unit 1\nuser_unit 1', 3, "once"),
    ('library "A"\nuser_unit 1\ncell "B"\nuser_unit 1', 4, "once"), ('library "A"\nlibrary "B"', 2, "second `library`"),
    ('library "A"\nuser_unit 1\nstamps 1', 3, "takes 12"), ('library "A"\nstamps zero\nstamps zero', 3, "second `stamps`"),
    ('library "A"\nuser_unit 1\nnode 1 2', 3, "before the first cell"), ('library "A"\nuser_unit 1\nflags 1', 3, "`flags` before the first cell"), ('library "A"\nuser_unit 1\ncell B', 3, "string"), ('library "A"\n"B"', 2, "starts with a word"),
    ('library "A"\nuser_unit 1\ncell "B"\nstamps zero\nstamps zero', 5, "once"), ('library "A"\nuser_unit 1\ncell "B"\n point 1@1 1@1', 4, "before the first element"),
    ('library "A"\nuser_unit 1\ncell "B"\ntext 1 2 "T"\ncell "C"', 4, "no `at` line"), ('library "A"\nuser_unit 1\n' + 'cell "B"\n' * 16384, 16386, "16,383 cells"),
)
BAD_CASES = (
    ("a", "a case is a name"), ("a -", "a case is a name"), ("a library 00", "a case is a name"), ("a 0 short", "not in hex"), ("a 0g short", "not in hex"),
    ("a 00 ok", "no answer to an input of 1 bytes"), ("a - long", "no answer to an input of 0 bytes"), ("a 00 short|00", "no answer"), (f"a {'00' * 9} short", "`short` is no answer"),
    (f"a {'00' * 9} yes", "starts with `ok` or `no`"), (f"a {'00' * 9} ok 1 0 0", "`ok` wants"), (f"a {'00' * 9} ok 1 0 {'0' * 16}", "`ok` wants"),
    (f"a {'00' * 9} ok 1 0 {'0' * 16}|0000", "not as many"), (f"a {'00' * 9} ok 1 0 {'0' * 16}|x0", "not in hex"), (f"a {'00' * 9} ok 1 1 {'0' * 16}|00|00", "has 33 bytes"),
    (f"a library {'00' * 9} ok 1 1 {'0' * 16}|00|{'00' * 33}", "has 37 bytes"), (f"a {'00' * 9} no 1", "`no` of a cell"), (f"a {'00' * 9} no 1 0 0", "`no` of a cell"),
    (f"a library {'00' * 9} no 1 0", "`no` of a library"), (f"a {'00' * 9} no 256 0", "8 bits"), (f"a {'00' * 9} no 1 4294967296", "a place 32"), (f"a {'00' * 9} no 1 0|00", "no further line"),
)
ROOT = os.path.dirname(os.path.dirname(os.path.abspath(__file__)))
BUFFERS = {CELL: (model.OUTPUT, model.REPORT), LIBRARY: (model.LIBRARY_OUTPUT, model.LIBRARY_REPORT)}


class Count:
    def __init__(self):
        self.cases = self.there_and_back = self.ill = self.streams = self.entries = self.drawn = self.damaged = 0
        self.asked = self.written = self.calls = self.made = self.refusals = self.wrong = 0

    def fail(self, what):
        self.wrong += 1
        print(what)

    def line(self):
        texts = len(BAD_TEXTS) + len(BAD_LIBRARIES)
        return (f"{self.cases} cases: {self.there_and_back} sheets there and back, {self.ill} ill-formed; {self.streams} streams and {self.entries} entries read, "
                f"{self.drawn} drawn, {self.damaged} damaged; {self.written} written by the proved library; {self.asked} bounds and surveys; {texts} faulty texts, "
                f"{len(BAD_CASES)} faulty cases, {self.calls} faulty calls; {self.made} stored files, {self.refusals} refusals; {self.wrong} wrong")


# ---- a case


# of a cell and of a library: a sheet read, its lines, a text read, its sheet
FORMS = {
    CELL: (form.read_sheet, cell_text.cell_lines, cell_text.read_cell, form.sheet_bytes),
    LIBRARY: (form.read_library, library_text.library_lines, library_text.read_library, form.library_bytes),
}


def there_and_back(case, sheet, count):
    read_sheet, lines_of, read_text, bytes_of = FORMS[case.job]
    try:
        found = read_sheet(sheet)
    except form.Ill as ill:
        count.ill += 1
        if not str(ill).startswith("byte "):
            count.fail(f"{case.name}: no byte named: {ill}")
        return
    count.there_and_back += 1
    text = "\n".join(lines_of(found)) + "\n"
    try:
        if bytes_of(read_text(text)) != sheet:
            count.fail(f"{case.name}: the sheet does not come back from its text")
    except cell_text.Bad as bad:
        count.fail(f"{case.name}: its text is not read: {bad}")


def read_back(case, count):
    try:
        show.explain("\n".join(case.lines).encode() + b"\n", lambda line: None)
    except show.Damage as damage:
        count.fail(f"{case.name}: {damage}")
    if case.lines[0].startswith("ok"):
        count.streams += 1
        count.entries += len(case.lines) - 2


def on_its_side(case, count):
    """An entry's error is above 0 where the database value lies above p, below where it lies below; over exact fractions."""
    d = Fraction(model.call_of(case.given)[1])
    for line in case.lines[2:]:
        p, q, error = struct.unpack(">did", bytes.fromhex(line)[-20:])
        exact = q * d - Fraction(p)
        if not (error < 0 if exact < 0 else error > 0 < exact):
            count.fail(f"{case.name}: p {p!r}, q {q}, and the error is {error!r}")


def damaged(name, what, stream, count):
    count.damaged += 1
    try:
        show.Walk(stream, lambda line: None).whole()
        count.fail(f"{name}: nothing said of a stream {what}")
    except show.Damage as damage:
        if not str(damage).startswith("byte "):
            count.fail(f"{name}: no byte named: {damage}")


def cut_short(name, stream, count):
    """A stream that ends early is damaged, and the message names a byte."""
    for end in range(0, len(stream), max(1, len(stream) // 40)):
        damaged(name, f"cut after {end} bytes", stream[:end], count)
    damaged(name, "with a byte too many", stream + b"\1", count)


def padded(case, count):
    """A library file with zero bytes after it and its report."""
    said, stream, report = [], bytes.fromhex(case.lines[1]), bytes.fromhex("".join(case.lines[2:]))
    try:
        show.entries(report, said.append, show.explain(stream + bytes(2048), said.append))
    except show.Damage as damage:
        count.fail(f"{case.name}: {damage}")
    if not any("2048 zero bytes after ENDLIB" in line for line in said):
        count.fail(f"{case.name}: nothing said of zero bytes after ENDLIB")


def drawn(case, count):
    """A picture of the structure, or of the last one of a library, which may have none."""
    try:
        picture, _ = draw.draw("\n".join(case.lines).encode())
        xml.etree.ElementTree.fromstring("\n".join(picture))
        count.drawn += 1
    except draw.Fault as fault:
        if "no structure" not in str(fault):
            count.fail(f"{case.name}: {fault}")
    except (show.Damage, xml.etree.ElementTree.ParseError) as fault:
        count.fail(f"{case.name}: it is not drawn: {fault}")


def refused(case, count):
    """A refusal's words do not doubt it."""
    number, *places = map(int, case.lines[0].split(" ")[1:])
    words = (refusal.about_library if case.job == LIBRARY else refusal.about)(number, *places)
    if any("was this read rightly" in line for line in words):
        count.fail(f"{case.name}: {case.lines[0]}, and its words are: {words[-1]}")


def written(case, library, count):
    """The proved library's lines, in the buffers of stored cases, and what it measures."""
    count.written += 1
    call = model.call_of(case.given)
    measure, write, size = ((proved.measure_cell, proved.write_cell, proved.ENTRY) if case.job == CELL else
                            (proved.measure_library, proved.write_library, proved.LIBRARY_ENTRY))
    answer, out, report = write(library, *call, BUFFERS[case.job])
    number, *places, length, entries, greatest = answer
    if number:
        found = [" ".join(map(str, ("no", number, *places)))]
    else:
        found = model.accepted_lines(out[:length], [report[at:at + size] for at in range(0, size * entries, size)], greatest)
    if found != case.lines:
        count.fail(f"{case.name}: the proved library says {found[0]}")
    if number not in (21, 22) and measure(library, *call) != answer:
        count.fail(f"{case.name}: the proved library measures {measure(library, *call)} and writes {answer}")


def one_case(case, library, count):
    count.cases += 1
    found = model.JOBS[case.job](case.given)
    if found != case.lines:
        count.fail(f"{case.name}: the model says {found[0]}")
    there_and_back(case, case.given[case_files.FRONT:], count)
    read_back(case, count)
    if case.lines[0].startswith("ok"):
        on_its_side(case, count)
        cut_short(case.name, bytes.fromhex(case.lines[1]), count)
        drawn(case, count)
        if case.job == LIBRARY:
            padded(case, count)
    elif case.lines[0].startswith("no"):
        refused(case, count)
    if library and not case_files.no_answer(case.job, case.given):
        written(case, library, count)


# ---- the proved library


def loaded():
    """The proved library; without it nothing can be asked, and a line says so."""
    try:
        return proved.load()
    except proved.Missing as missing:
        print(f"the proved library is not asked: {missing}")
        return None


def asked(library, kind, function, count):
    """Stored bounds or surveys."""
    for name, operands, answer in conversions.stored_answers(*kind):
        count.asked += 1
        found = function(library, *operands)
        if found != answer:
            count.fail(f"{name}: stored {answer}, and the proved library says {found}")


# ---- what must fail


def bad_texts(read, texts, count):
    for text, line, why in texts:
        try:
            read(text)
            count.fail(f"accepted: {text[:60]!r}")
        except cell_text.Bad as bad:
            if not str(bad).startswith(f"line {line}: ") or why not in str(bad):
                count.fail(f"{text[:60]!r}: {bad}")


def bad_cases(count):
    for line, why in BAD_CASES:
        try:
            case_files.case_of(line)
            count.fail(f"accepted: {line}")
        except case_files.Fault as fault:
            if why not in str(fault):
                count.fail(f"{line}: {fault}")


# ---- what is stored twice


def built_sheets():
    """What the builders in C and Rust are held to: the sheets of a text of a cell and of one of a library."""
    def line(path, job):
        _, _, read_text, bytes_of = FORMS[job]
        return bytes_of(read_text(files.read_input(os.path.join(ROOT, path)).decode("utf-8"))).hex() + "\n"
    return (line("exports/sheet_test.cell", CELL) + line("tools/samples/format.library", LIBRARY)).encode("ascii")


def stored_files(count):
    """What the tools make is what the crates and exports/ have."""
    made = {"crates/test_vectors/stdin": pack_cases.pack(pack_cases.all_cases())[0], "crates/test_conversions/stdin": conversions.records()}
    made.update(computed_cases.made(list(map(tool_calls.stored, pack_cases.NAMES)))[0])
    made["exports/sheet_test.hex"] = built_sheets()
    for path, data in made.items():
        count.made += 1
        if files.read_input(os.path.join(ROOT, path)) != data:
            count.fail(f"{path} is not what the tools make")


def found_in(path, heading, pattern):
    """What a pattern of two groups finds after a heading, up to the next closing brace at a line's start: the second by the first."""
    text = files.read_input(os.path.join(ROOT, path)).decode("utf-8")
    return dict(re.findall(pattern, text.partition(heading)[2].partition("\n}")[0]))


def refusals(count):
    """Their names, numbers and words are the same wherever they stand."""
    count.refusals = len(refusal.TABLE)
    own = {re.sub("(?<=[a-z])(?=[A-Z])", "_", name).upper(): number
           for name, number in found_in("crates/refusal/src/lib.rt", "pub enum Refusal {", r"(\w+) = (\d+),").items()}
    numbers = {name: number for name, number in own.items() if int(number) in refusal.TABLE}
    words = {name: refusal.TABLE[int(number)][1] for name, number in numbers.items()}
    if len(numbers) != len(refusal.TABLE):
        count.fail("a refusal of the command is none of crates/refusal")
    for path, heading, pattern, wanted in (
        ("exports/c/ravenvanity.h", "enum ravenvanity_refusal {", r"RAVENVANITY_REFUSAL_(\w+) = (\d+)", numbers),
        ("exports/c/ravenvanity_report.h", "ravenvanity_refusal_words(", r'case RAVENVANITY_REFUSAL_(\w+): return "(.*)";', words),
        ("exports/rust/ravenvanity.rs", "pub mod refusal {", r"pub const (\w+): u8 = (\d+);", numbers),
        ("exports/rust/ravenvanity_report.rs", "fn refusal_words(", r'refusal::(\w+) => "(.*)",', words),
    ):
        found = found_in(path, heading, pattern)
        for name in sorted(name for name in {*wanted, *found} if wanted.get(name) != found.get(name)):
            count.fail(f"{path}: refusal {name} is {found.get(name)!r}, not {wanted.get(name)!r}")


def main(words):
    called.no_option(words)
    if not words:
        raise called.Wrong("it takes files of cases")
    cases = [case for path in words for case in case_files.read_cases(path)]
    count, library = Count(), loaded()
    for case in cases:
        one_case(case, library, count)
    if library:
        asked(library, conversions.BOUNDS_CASES, proved.convert_bounds, count)
        asked(library, conversions.SURVEY_CASES, proved.survey_pitch, count)
    bad_texts(cell_text.read_cell, BAD_TEXTS, count)
    bad_texts(library_text.read_library, BAD_LIBRARIES, count)
    bad_cases(count)
    tool_calls.check(count)
    stored_files(count)
    refusals(count)
    print(count.line())
    return count.wrong != 0


if __name__ == "__main__":
    called.run(main, __doc__)
