"""Makes the data of the crate `cases`, and the list of definitions that its tests open. A convenience, outside the proof.

    python3 tools/computed_cases.py CASES [CASES ...]

They are files of stored cases (tools/case_files.py), tools/stored/*.txt.xz, in any order. It writes Cells.antt, Streams.antt
and Libraries.antt in crates/cases/specs and Open.antt in crates/cases/proofs, all four or none.

Of the cells it takes small ones that together have every element kind, policy, record, report field and refusal number, an
array turned by an angle, boxes whose second corner lies on each side of the first and whose entries stand for each of the
four coordinates, flags, a plex number and both, in every element kind one of these, and deviations above 0 and below under
each policy as far as there are such; of a refusal one for each kind of element (Cells.antt). The stored cases that end in 21
and 22 are large, so cells with shorter buffers stand in for them, with the answer that follows from the stored one. Two cells
of document 01's rows are written here by hand, and cells at and beyond the limits of document 02, request 6. So are the
streams (Streams.antt), but for some of the stored cells; what is read from them is the answer of tools/reading_model.py, and
what that is written to the answer of tools/model.py.
Of the libraries it takes small ones that together have every policy, with entries and without, odd and even names, no, one
and more cells, with a box and without, with flags or plex numbers and without, entries of several cells and the reals 0.001
and 1e-9 in UNITS, and of every refusal the smallest, where those in a cell's elements count as one (Libraries.antt).
Open.antt opens every definition of the specs below `cases`.

Exit status: 0 with the four files, 1 where a file cannot be read or written, 2 where it was called wrongly.
"""
import os
import pathlib
import re
import struct

import called
import model
import own_cases
import reading_model
from case_files import CELL, FRONT, LIBRARY, Case, read_cases
from ravenvanity import files
from ravenvanity import sheet as form

ROOT = pathlib.Path(__file__).resolve().parent.parent
OUTSIDE = model.NO_CELL            # the cell of a refusal outside a library's cells
LARGEST, LARGEST_LIBRARY = 700, 600   # bytes of input, so that the check stays quick
ERROR = 25                         # where in an entry the error starts, with its sign

# ---- cells


def blocks(sheet):
    n = struct.unpack(">I", sheet[:4])[0]
    pairs = [struct.unpack(">II", sheet[4 + 8 * k:12 + 8 * k]) for k in range(n)]
    return [sheet[a:a + m] for a, m in pairs]


def turned(e):
    """Whether a reference is an array with a sine and a cosine that are not 0."""
    return e.columns * e.rows > 1 and form.double_of(e.sine) != 0 and form.double_of(e.cosine) != 0


def box_lies(e):
    """Of a box, whether its second corner's numbers are above the first's or below, in x and in y."""
    x1, y1, x2, y2 = (c.value if c.kind == form.INTEGER else form.double_of(c.value) for c in (*e.first, *e.second))
    return x1 < x2, x1 > x2, y1 < y2, y1 > y2


def optioned(e):
    """Whether an element has flags, and whether it has a plex number."""
    return e.flags is not None, e.plex is not None


def codes(stream):
    at = 0
    while at < len(stream):
        yield stream[at + 2]
        at += struct.unpack(">H", stream[at:at + 2])[0]


class Vector:
    JOB = CELL

    def __init__(self, case):
        self.case, self.name, self.input, self.lines = case, case.name, case.given, case.lines
        self.fields = self.lines[0].split()
        self.out, self.report = model.OUTPUT, model.REPORT

    def features(self):
        """What an accepted cell shows."""
        policy, _, sheet = model.call_of(self.input)
        found = {("policy", policy)}
        for e in form.read_sheet(sheet).elements:
            found |= {("kind", e.kind, policy), ("options", *optioned(e))}
            if any(optioned(e)):
                found.add(("options of", e.kind))
            if e.kind == form.REFERENCE and turned(e):
                found.add(("turned", bool(self.lines[2:])))
            if e.kind == form.BOX:
                found.add(("box lies", *box_lies(e)))
        found |= {("record", c) for c in codes(bytes.fromhex(self.lines[1]))}
        for e in self.lines[2:]:
            e = bytes.fromhex(e)
            found |= {("field", e[5]), ("axis", e[6]), ("entry", e[4]), ("below", e[ERROR] >> 7, policy)}
            if e[4] == form.BOX:
                found |= {("box spot", e[6:9]), ("box count", e[9:13])}
        found.add(("entries", min(len(self.lines) - 2, 2)))
        return found

    def refused_kind(self):
        """The kind of the refused block, 0 for the head; none where it is no kind."""
        block = int(self.fields[2])
        if block == 0:
            return 0
        return form.kind_of(blocks(self.input[FRONT:])[block][0])

    def expected(self):
        f = self.fields
        if f[0] == "no":
            return f"no {f[1]} {f[2]}"
        report = "".join(self.lines[2:])
        return f"ok {f[1]} {f[2]} 0x{f[3]} 0x{self.lines[1]} 0x{report or '0'}"

    def cell(self, why=""):
        sheet = self.input[FRONT:]
        return (f"record {{ policy = {self.input[0]}; unit = 0x{self.input[1:FRONT].hex()}; size = {len(sheet)}; sheet = 0x{sheet.hex() or '0'}; "
                f"out = {self.out}; report = {self.report}; expected = {self.expected()} }} {{- {self.name}{why} -}}")


def refusals(vectors):
    """For each number the smallest cell of each kind of block that there is, and three at least."""
    chosen = []
    for number in sorted({int(v.fields[1]) for v in vectors if v.fields[0] == "no"}):
        here = sorted((v for v in vectors if v.fields[:2] == ["no", str(number)]), key=lambda v: len(v.input))
        first, seen = [], set()
        for v in here:
            if v.refused_kind() not in seen:
                seen.add(v.refused_kind())
                first.append(v)
        chosen += (first + [v for v in here if v not in first])[:max(3, len(first))]
    return chosen


def accepted(vectors):
    """Small cells until every feature has been shown."""
    chosen, shown = [], set()
    for v in sorted((v for v in vectors if v.fields[0] == "ok"), key=lambda v: len(v.input)):
        if v.features() - shown:
            shown |= v.features()
            chosen.append(v)
    return chosen


def shortened(vectors, entry=33, outside=""):
    """The first with an entry: buffers that just hold it, an output one byte short, a report one byte short."""
    first = next((x for x in vectors if x.fields[0] == "ok" and len(x.lines) > 2), None)
    if first is None:
        raise called.Bad("no small case that was read has a report entry")
    cells = []
    for out, report, number, why in ((0, 0, None, ", buffers just long enough"), (-1, 0, 21, ", output a byte short"),
                                     (-1, -1, 21, ", both a byte short"), (0, -1, 22, ", report a byte short")):
        v = type(first)(first.case)
        v.out, v.report = int(v.fields[1]) + out, entry * int(v.fields[2]) + report
        if number:
            v.fields = f"no {number} {outside}0".split()
        cells.append(v.cell(why))
    return cells


def documents_example():
    """Document 01, "Rows": the program's example."""
    given = "003ff0000000000000000000010000000c0000001b000141" + 48 * "0"
    return Vector(Case("the-example", CELL, bytes.fromhex(given), ["ok 38 0 0000000000000000", f"001c0502{48 * '0'}00060606410000040700"]))


def documents_array():
    """Document 01, "Rows": the array, with what the row says of corners and entry."""
    def double(x): return b"\1" + struct.pack(">dd", x, 1)
    head = b"\0\1A" + bytes(24)
    array = (b"\5" + b"\0\1B" + struct.pack(">IIBdddd", 4, 1, 0, 1, 0, 0, 1) + double(0.5) + double(0) + double(10.5) + double(0)
             + 2 * (b"\2" + bytes(16)) + b"\0\0")
    sheet = struct.pack(">IIIII", 2, 20, len(head), 20 + len(head), len(array)) + head + array
    stream = (word(5, *([0] * 12)) + string(6, b"A\0") + empty(0x0b) + string(0x12, b"B\0") + word(0x13, 4, 1)
              + long(0x10, 1, 0, 45, 0, 1, 0) + ENDEL + END)
    entry = struct.pack(">IBBBHIdid", 0, 5, 7, 0, 0, 4, 42.5, 45, 2.5)
    return Vector(Case("the-array", CELL, b"\0" + struct.pack(">d", 1) + sheet, model.accepted_lines(stream, [entry], 2.5)))


NO_ROOM = "no byte of output and report"


def limit_cells():
    """Cells at the limits of text types and properties, and beyond; by hand, with the number that refuses each."""
    text, node = own_cases.text, own_cases.node

    def owned(*properties, element=node()): return own_cases.owned(element, *properties)

    rows = (
        ("text type 255", text(type=255), None), ("text type 256", text(type=256), 9), ("text type 256, 513 bytes", text(b"t" * 513, type=256), 9),
        (f"attribute 0, {NO_ROOM}", owned((0, 1)), 27), ("attribute 1 twice, one value empty", owned((1, 0), (1, 1)), None), ("attribute 127", owned((127, 1)), None),
        ("attribute 128", owned((128, 1)), 27), ("attribute 257", owned((257, 1)), 27),
        ("a value of 125 bytes", owned((9, 125)), None), ("a value of 126 bytes", owned((9, 126)), None), ("a value of 127 bytes", owned((9, 127)), 10),
        ("27, then 10 of the same property", owned((0, 127)), 27), ("10, then 27 of the next", owned((9, 127), (128, 1)), 10), ("27 of the second property", owned((9, 126), (128, 127)), 27),
        ("20, then 27", owned((0, 1), element=own_cases.polygon(own_cases.SQUARE[:3] + [own_cases.at(1, 0)])), 20), ("26, then 27", owned((0, 1), element=own_cases.BAD_FLAGS), 26),
    )
    cells = []
    for why, element, number in rows:
        given = own_cases.cell(element)
        lines = model.answer(given)
        assert lines[0][:2] == "ok" if number is None else lines == [f"no {number} 1"], why
        v = Vector(Case(why, CELL, given, lines))
        if why.endswith(NO_ROOM):
            v.out = v.report = 0
        cells.append(v.cell())
    return cells


def stored(path):
    """The answered cases of a file; an answer that is not the model's is not understood."""
    cases = [case for case in read_cases(path) if case.lines[0][:2] in ("ok", "no")]
    for case in cases:
        if model.JOBS[case.job](case.given) != case.lines:
            raise called.Bad(f"{files.name_of(path)}: the answer of {case.name} is not that of model.py")
    return cases


def of_kind(kind, cases):
    """The cells or the libraries, by their names, so that the order of the files does not matter."""
    chosen = sorted((kind(case) for case in cases if case.job == kind.JOB), key=lambda v: v.name)
    if not chosen:
        raise called.Bad(f"there is no {kind.JOB} in what was read")
    return chosen


def listing(name, cells, kind="Case"):
    return f"unfoldable pub {name} : List {kind}\n{name} =\n" + "".join(f"    {'∷ ' if k else ''}{c}\n" for k, c in enumerate(cells)) + "    ∷ []\n"


def cells_module(vectors):
    small = [v for v in vectors if len(v.input) <= LARGEST]
    cells = [v.cell() for v in accepted(small) + refusals(small)] + shortened(small) + limit_cells()
    rows = [documents_example().cell(), documents_array().cell()]
    return len(cells), '''-- Cells and the answers that are known of them, from outside the definitions: made by tools/computed_cases.py. Assumes nothing.
use Rattle.std.specs.Prelude.{List, [], ◌∷◌}
use Rattle.cases.specs.Case.{Case, no, ok}

-- document 01, "Rows": the program's example, and the array
''' + listing("rows", rows) + "\n-- stored cases, by their names, and cells at the limits of document 02, request 6\n" + listing("cells", cells)


# ---- libraries


class Library(Vector):
    JOB = LIBRARY

    def features(self):
        """What an accepted library shows."""
        head, *cells = blocks(self.input[FRONT:])
        name, elements = head[2:-32], [e for cell in cells for e in form.read_sheet(cell).elements]
        report = [bytes.fromhex(e) for e in self.lines[2:]]
        return {("policy", self.input[0], bool(report)), ("cells", min(len(cells), 2)), ("length", len(name) % 2), ("zero", name[-1:] == b"\0"),
                ("entries", tuple(sorted({e[3] for e in report}))), ("stamps", any(head[-24:])),
                ("box", any(e.kind == form.BOX for e in elements)), ("options", any(any(optioned(e)) for e in elements)),
                ("units", head[-32:-24] == struct.pack(">d", 0.001) and self.input[1:FRONT] == struct.pack(">d", 1e-9))}

    def fault(self):
        """Of a refused library: the number and the cell; of a block in a cell, the cell alone; of 23, whether it has its pairs."""
        number, cell, block = map(int, self.fields[1:])
        return number if block == 0 else OUTSIDE, cell, number == 23 and self.has_pairs()

    def has_pairs(self):
        sheet = self.input[FRONT:]
        try:
            parts = blocks(sheet)
        except struct.error:
            return False
        return bool(parts) and all(parts) and sheet[4 + 8 * len(parts):] == b"".join(parts)

    def expected(self):
        if self.fields[0] == "no":
            return "no " + " ".join(self.fields[1:])
        return super().expected()


def refused_libraries(libraries):
    """For each fault the smallest."""
    first = {}
    for v in sorted((v for v in libraries if v.fields[0] == "no"), key=lambda v: len(v.input)):
        first.setdefault(v.fault(), v)
    return [first[f] for f in sorted(first)]


def libraries_module(libraries):
    small = [v for v in libraries if len(v.input) <= LARGEST_LIBRARY]
    rows = [v.cell() for v in accepted(small) + refused_libraries(small)] + shortened(small, 37, f"{OUTSIDE} ")
    return len(rows), '''-- Libraries and the answers that are known of them, from outside the definitions: made by tools/computed_cases.py. Assumes nothing.
use Rattle.std.specs.Prelude.{List, [], ◌∷◌}
use Rattle.cases.specs.LibraryCase.{LibraryCase, no, ok}

-- stored libraries, by their names
''' + listing("libraries", rows, "LibraryCase")


# ---- streams

def rec(c, t, data=b""): return struct.pack(">HBB", 4 + len(data), c, t) + data
def word(c, *v): return rec(c, 2, struct.pack(f">{len(v)}H", *v))
def bits(c, v): return rec(c, 1, struct.pack(">H", v))
def long(c, *v): return rec(c, 3, struct.pack(f">{len(v)}i", *v))
def string(c, v): return rec(c, 6, v)
def real(c, v): return rec(c, 5, bytes.fromhex(v))
def empty(c): return rec(c, 0)


STAMPS, NAME = word(5, *([0] * 12)), string(6, b"AB")
HEAD = STAMPS + NAME
END = empty(7)
ENDEL = empty(0x11)
ONE, TWO, TOO_FINE = "4110000000000000", "4120000000000000", "41ffffffffffffff"
ODD = struct.pack(">HBB", 5, 0x19, 6) + b"x"
SQUARE = (0, 0, 4, 0, 4, 4, 0, 0)
OBLONG = (0, 0, 4, 0, 4, 3, 0, 3, 0, 0)
OTHER_WAY = (0, 0, 0, 3, 4, 3, 4, 0, 0, 0)
OPEN = (0, 0, 4, 0, 4, 4, 0, 1)
DRAWS, NO_RECORD, NOT_OF_GRAMMAR, NO_INSTANCE, NOT_WHOLE = None, reading_model.NO_RECORD, reading_model.NOT_OF_GRAMMAR, 11, 30


def cell(*elements, head=HEAD, end=END): return head + b"".join(elements) + end


def text(presentation=bits(0x17, 5), transform=b"", xy=long(0x10, 1, 2), s=string(0x19, b"hi"), layer=1, type=2, tail=ENDEL):
    return empty(0x0c) + word(0x0d, layer) + word(0x16, type) + presentation + transform + xy + s + tail


def sref(xy=long(0x10, 1, 2), name=b"B\0", transform=b""): return empty(0x0a) + string(0x12, name) + transform + xy + ENDEL


def aref(counts=(2, 3), points=(0, 0, 4, 0, 0, 9), name=b"B\0", transform=b""):
    return empty(0x0b) + string(0x12, name) + transform + word(0x13, *counts) + long(0x10, *points) + ENDEL


def shape(code, typecode, *rest, layer=1, type=2, tail=ENDEL):
    return empty(code) + word(0x0d, layer) + word(typecode, type) + b"".join(rest) + tail


def boundary(points=SQUARE, **more): return shape(8, 0x0e, long(0x10, *points), **more)
def path(*options, points=(0, 0, 5, 5), **more): return shape(9, 0x0e, *options, long(0x10, *points), **more)
def node(points=(1, 2), **more): return shape(0x15, 0x2a, long(0x10, *points), **more)
def box(points=OBLONG, **more): return shape(0x2d, 0x2e, long(0x10, *points), **more)
def strans(*reals, bits_of=0): return bits(0x1a, bits_of) + b"".join(reals)
def mag(v): return real(0x1b, v)
def angle(v): return real(0x1c, v)
def magnified(v): return cell(text(transform=strans(mag(v))))
def turned_by(v): return cell(text(transform=strans(angle(v))))
def owned(*properties): return boundary(tail=b"".join(properties) + ENDEL)
def owns(attribute, value): return word(0x2b, attribute) + string(0x2c, value)
def flags(v): return bits(0x26, v)
def plex(v): return long(0x2f, v)
def with_options(element, *records): return element[:4] + b"".join(records) + element[4:]


def grammar_streams():
    """Streams with the fault that the grammar alone finds in them, first in byte order; by hand."""
    reflected = bits(0x1a, 0x8000)
    return [
        ("an empty structure", cell(), DRAWS),
        ("a byte after ENDSTR", cell() + b"\0", NOT_OF_GRAMMAR),
        ("two structures", cell() + cell(), NOT_OF_GRAMMAR),
        ("no ENDSTR", HEAD, NO_RECORD),
        ("nothing", b"", NO_RECORD),
        ("no STRNAME", STAMPS + END, NOT_OF_GRAMMAR),
        ("a text", cell(text()), DRAWS),
        ("no PRESENTATION", cell(text(presentation=b"")), DRAWS),
        ("STRANS, MAG, ANGLE", cell(text(transform=reflected + mag(ONE) + angle(ONE))), DRAWS),
        ("STRANS and ANGLE", cell(text(transform=strans(angle(ONE)))), DRAWS),
        ("ANGLE before MAG", cell(text(transform=strans(angle(ONE), mag(ONE)))), NOT_OF_GRAMMAR),
        ("MAG with no STRANS", cell(text(transform=mag(ONE))), NOT_OF_GRAMMAR),
        ("another STRANS bit", cell(text(transform=bits(0x1a, 4))), NOT_OF_GRAMMAR),
        ("a text of two points", cell(text(xy=long(0x10, 1, 2, 3, 4))), NOT_OF_GRAMMAR),
        ("an XY of half a point", cell(text(xy=long(0x10, 1))), NO_RECORD),
        ("an XY of no point", cell(boundary(())), DRAWS),
        ("STRING before XY", cell(text(xy=string(0x19, b"hi"), s=long(0x10, 1, 2))), NOT_OF_GRAMMAR),
        ("a string of no bytes", cell(text(s=string(0x19, b""))), DRAWS),
        ("an odd length", HEAD + ODD + END, NO_RECORD),
        ("a length below 4", HEAD + struct.pack(">HBB", 2, 7, 0), NO_RECORD),
        ("a length past the end", HEAD + struct.pack(">HBB", 6, 7, 0), NO_RECORD),
        ("half a head", HEAD + b"\0\4\7", NO_RECORD),
        ("another data type", rec(5, 3, bytes(24)) + NAME + END, NO_RECORD),
        ("another data size", word(5, *([0] * 11)) + NAME + END, NO_RECORD),
        ("an SREF", cell(sref()), DRAWS),
        ("an SREF of no point", cell(sref(xy=long(0x10))), NOT_OF_GRAMMAR),
        ("an array", cell(aref()), DRAWS),
        ("an array of one", cell(aref(counts=(1, 1))), DRAWS),
        ("no column", cell(aref(counts=(0, 3))), NO_INSTANCE),
        ("no row", cell(aref(counts=(2, 0))), NO_INSTANCE),
        ("a column step that is not whole", cell(aref(points=(0, 0, 5, 0, 0, 9))), NOT_WHOLE),
        ("a row step that is not whole", cell(aref(points=(0, 0, 4, 0, 0, -8))), NOT_WHOLE),
        ("a negative step", cell(aref(points=(1, 0, -3, 0, 1, -9))), DRAWS),
        ("an array of two points", cell(aref(points=(0, 0, 4, 0))), NOT_OF_GRAMMAR),
        ("a boundary with a property", cell(owned(owns(9, b"v\0"))), DRAWS),
        ("PROPATTR alone", cell(owned(word(0x2b, 9))), NOT_OF_GRAMMAR),
        ("PROPVALUE alone", cell(owned(string(0x2c, b"v\0"))), NOT_OF_GRAMMAR),
        ("a path with BGNEXTN alone", cell(path(long(0x30, 7))), DRAWS),
        ("ENDEXTN before BGNEXTN", cell(path(long(0x31, 7), long(0x30, 7))), NOT_OF_GRAMMAR),
        ("WIDTH in a boundary", cell(shape(8, 0x0e, long(0x0f, 7), long(0x10, 0, 0))), NOT_OF_GRAMMAR),
        ("a node", cell(node()), DRAWS),
        ("a node with DATATYPE", cell(shape(0x15, 0x0e, long(0x10, 0, 0))), NOT_OF_GRAMMAR),
        ("a TEXTNODE", cell(shape(0x14, 0x16, long(0x10, 0, 0))), NO_RECORD),
        # two faults: the first in byte order counts
        ("no column, then a bad record", cell(aref(counts=(0, 3)), ODD), NO_INSTANCE),
        ("a bad record, then no column", cell(ODD, aref(counts=(0, 3))), NO_RECORD),
        ("a step that is not whole, then a bad record", cell(aref(points=(0, 0, 5, 0, 0, 9))) + ODD, NOT_WHOLE),
        ("no column, and steps that are not whole", cell(aref(counts=(0, 2), points=(0, 0, 5, 0, 0, 9))), NO_INSTANCE),
        ("another STRANS bit, then no column", cell(text(transform=bits(0x1a, 4)), aref(counts=(0, 3))), NOT_OF_GRAMMAR),
        ("steps that are not whole, then a missing ENDEL", HEAD + aref(points=(0, 0, 5, 0, 0, 9))[:-4] + END, NOT_WHOLE),
    ]


def box_grammar_streams():
    """The same of boxes; how many points they have, and where, is asked for a sheet alone."""
    return [
        ("a box", cell(box()), DRAWS),
        ("a box with a property", cell(box(tail=owns(9, b"v\0") + ENDEL)), DRAWS),
        ("a box of no points", cell(box(())), DRAWS),
        ("a box of four points", cell(box(SQUARE)), DRAWS),
        ("a box of six points", cell(box(OBLONG + (0, 0))), DRAWS),
        ("a box the other way round", cell(box(OTHER_WAY)), DRAWS),
        ("a box whose ends differ", cell(box(OBLONG[:8] + (0, 1))), DRAWS),
        ("a box with DATATYPE", cell(shape(0x2d, 0x0e, long(0x10, *OBLONG))), NOT_OF_GRAMMAR),
        ("a boundary with BOXTYPE", cell(shape(8, 0x2e, long(0x10, *SQUARE))), NOT_OF_GRAMMAR),
        ("BOXTYPE before LAYER", cell(empty(0x2d) + word(0x2e, 2) + word(0x0d, 1) + long(0x10, *OBLONG) + ENDEL), NOT_OF_GRAMMAR),
        ("XY before BOXTYPE", cell(empty(0x2d) + word(0x0d, 1) + long(0x10, *OBLONG) + word(0x2e, 2) + ENDEL), NOT_OF_GRAMMAR),
        ("a box without XY", cell(shape(0x2d, 0x2e)), NOT_OF_GRAMMAR),
        ("WIDTH in a box", cell(shape(0x2d, 0x2e, long(0x0f, 7), long(0x10, *OBLONG))), NOT_OF_GRAMMAR),
        ("a BOX of another data type", cell(rec(0x2d, 2) + box()[4:]), NO_RECORD),
        ("a BOX with data", cell(rec(0x2d, 0, b"\0\0") + box()[4:]), NO_RECORD),
        ("a BOXTYPE of another data type", cell(empty(0x2d) + word(0x0d, 1) + bits(0x2e, 2) + long(0x10, *OBLONG) + ENDEL), NO_RECORD),
        ("a BOXTYPE of four bytes", cell(empty(0x2d) + word(0x0d, 1) + word(0x2e, 0, 2) + long(0x10, *OBLONG) + ENDEL), NO_RECORD),
    ]


def option_grammar_streams():
    """The same of ELFLAGS and PLEX; how great flags are is asked for a sheet alone."""
    return [
        ("ELFLAGS and PLEX", cell(with_options(boundary(), flags(3), plex(-1))), DRAWS),
        ("ELFLAGS alone", cell(with_options(text(), flags(0))), DRAWS),
        ("PLEX alone", cell(with_options(sref(), plex(2**24))), DRAWS),
        ("flags of 4", cell(with_options(node(), flags(4))), DRAWS),
        ("PLEX before ELFLAGS", cell(with_options(node(), plex(1), flags(1))), NOT_OF_GRAMMAR),
        ("ELFLAGS twice", cell(with_options(node(), flags(1), flags(1))), NOT_OF_GRAMMAR),
        ("ELFLAGS after LAYER", cell(empty(0x15) + word(0x0d, 1) + flags(1) + word(0x2a, 2) + long(0x10, 1, 2) + ENDEL), NOT_OF_GRAMMAR),
        ("PLEX after SNAME", cell(empty(0x0a) + string(0x12, b"B\0") + plex(1) + long(0x10, 1, 2) + ENDEL), NOT_OF_GRAMMAR),
        ("an ELFLAGS of another data type", cell(with_options(node(), word(0x26, 1))), NO_RECORD),
        ("a PLEX of another data type", cell(with_options(node(), word(0x2f, 0, 1))), NO_RECORD),
    ]


def sheet_streams():
    """Streams for reading to a sheet, one below, at and above each limit that a short stream can reach."""
    dates = (2024, 2, 29, 23, 59, 59, 1, 1, 1, 0, 0, 0)
    last = 2**31 - 1
    return [
        # the head
        ("two dates", cell(head=word(5, *dates) + NAME)),
        ("a stamp that is no date", cell(head=word(5, 2023, *dates[1:]) + NAME)),
        ("second 60", cell(head=word(5, *dates[:11], 60) + NAME)),
        ("one stamp of zeros", cell(head=word(5, *dates[:6], *[0] * 6) + NAME)),
        ("an odd name", cell(head=STAMPS + string(6, b"ABC\0"))),
        ("an empty name", cell(head=STAMPS + string(6, b""))),
        ("a name of one zero byte and one that is dropped", cell(head=STAMPS + string(6, b"\0\0"))),
        ("a name with a zero byte left", cell(head=STAMPS + string(6, b"A\0\0\0"))),
        ("a name of 32 bytes", cell(head=STAMPS + string(6, b"A" * 32))),
        ("a name of 33 bytes", cell(head=STAMPS + string(6, b"A" * 33 + b"\0"))),
        ("a name of 34 bytes", cell(head=STAMPS + string(6, b"A" * 34))),
        ("a boundary for STRNAME", STAMPS + boundary() + END),
        # shapes
        ("boundary of four points", cell(boundary())),
        ("boundary of three points", cell(boundary((0, 0, 4, 0, 0, 0)))),
        ("open boundary", cell(boundary(OPEN))),
        ("the ends of 32 bits", cell(boundary((last, -last - 1, 0, 0, 0, 1, last, -last - 1)))),
        ("layer and type 255", cell(boundary(layer=255, type=255))),
        ("layer 256", cell(boundary(layer=256))),
        ("type 256", cell(boundary(type=256))),
        ("node of no points", cell(node(()))),
        ("node of 50 points", cell(node((1,) * 100))),
        ("node of 51 points", cell(node((1,) * 102))),
        ("node layer 256", cell(node(layer=256))),
        ("node type 255", cell(node(type=255))),
        ("node type 256", cell(node(type=256))),
        # paths
        ("path of two points", cell(path())),
        ("path of one point", cell(path(points=(0, 0)))),
        ("path with all", cell(path(word(0x21, 2), long(0x0f, -5), long(0x30, 1), long(0x31, -last - 1)))),
        ("path types 0 and 1", cell(path(word(0x21, 0)), path(word(0x21, 1)))),
        ("path type 3", cell(path(word(0x21, 3)))),
        ("path type 4 with an extension", cell(path(word(0x21, 4), long(0x30, 1)))),
        ("path type 255", cell(path(word(0x21, 255)))),
        ("path layer 256", cell(path(layer=256))),
        ("path type byte 256", cell(path(type=256))),
        ("WIDTH before PATHTYPE", cell(path(long(0x0f, 1), word(0x21, 1)))),
        # texts
        ("text type 65,535", cell(text(type=65535))),
        ("text layer 256", cell(text(layer=256))),
        ("every presentation of ours", cell(*[text(presentation=bits(0x17, n)) for n in (0, 1, 2, 4, 6, 8, 9, 10)])),
        *[(f"presentation {n}", cell(text(presentation=bits(0x17, n)))) for n in (3, 7, 11, 12, 0x10, 0x8000)],
        ("PATHTYPE in a text", cell(text(presentation=word(0x21, 0)))),
        ("WIDTH in a text", cell(text(presentation=long(0x0f, 1)))),
        ("text of no points", cell(text(xy=long(0x10)))),
        ("text of 512 bytes", cell(text(s=string(0x19, b"x" * 512)))),
        ("text of 513 bytes", cell(text(s=string(0x19, b"x" * 513 + b"\0")))),
        ("text of 514 bytes", cell(text(s=string(0x19, b"x" * 514)))),
        ("a text of two zero bytes", cell(text(s=string(0x19, b"\0\0")))),
        ("a text that ends in three zero bytes", cell(text(s=string(0x19, b"A\0\0\0")))),
        # transforms
        ("STRANS alone", cell(text(transform=strans()))),
        ("reflection alone", cell(text(transform=strans(bits_of=0x8000)))),
        ("MAG 2 and ANGLE 1, reflected", cell(text(transform=strans(mag(TWO), angle(ONE), bits_of=0x8000)))),
        ("MAG 1", magnified(ONE)),
        ("MAG 1 with leading zero digits", magnified("4201000000000000")),
        ("MAG 0", magnified("0000000000000000")),
        ("MAG minus 0", magnified("c100000000000000")),
        ("MAG -2", magnified("c120000000000000")),
        ("MAG of 53 digits", magnified("41fffffffffffff8")),
        ("MAG of 54 digits", magnified(TOO_FINE)),
        ("MAG of 54 digits, the last of them 0", magnified("413ffffffffffffe")),
        ("MAG of 54 digits, the last of them 1", magnified("413fffffffffffff")),
        ("MAG 2^-260", magnified("0010000000000000")),
        ("MAG 2^-261", magnified("0008000000000000")),
        ("MAG 2^-312", magnified("0000000000000001")),
        ("ANGLE 2^-261", turned_by("0008000000000000")),
        ("ANGLE -2^-261", turned_by("8008000000000000")),
        ("ANGLE -2^-260", turned_by("8010000000000000")),
        ("ANGLE minus 0", turned_by("8000000000000000")),
        ("ANGLE 0 with an exponent", turned_by("4500000000000000")),
        ("the greatest ANGLE of a double", turned_by("7ffffffffffffff8")),
        ("the greatest ANGLE", turned_by("7fffffffffffffff")),
        # references
        ("SREF of two points", cell(sref(xy=long(0x10, 1, 2, 3, 4)))),
        ("SREF of a bad name", cell(sref(name=b"B-"))),
        ("SREF with a transform", cell(sref(transform=strans(mag("3e4189374bc6a7f0"), angle("425a000000000000"), bits_of=0x8000)))),
        ("AREF of a bad name", cell(aref(name=b"B-"))),
        ("AREF 1 x 3", cell(aref((1, 3)))),
        ("AREF 3 x 1", cell(aref((3, 1), (0, 0, 9, 0, 0, 4)))),
        ("AREF 32,767 columns", cell(aref((32767, 1), (0, 0, 32767 * 3, 0, 0, 0)))),
        ("AREF 32,768 columns", cell(aref((32768, 1), (0, 0, 32768, 0, 0, 0)))),
        ("AREF 32,767 rows", cell(aref((1, 32767), (0, 0, 0, 0, 0, 32767)))),
        ("AREF 32,768 rows", cell(aref((1, 32768), (0, 0, 0, 0, 0, 32768)))),
        ("AREF of four points", cell(aref(points=(0, 0, 4, 0, 0, 9, 0, 0)))),
        ("AREF step of 2^31 - 1 in one column", cell(aref((1, 2), (0, 0, last, 0, 0, 0)))),
        ("AREF step of 2^31 in one column", cell(aref((1, 2), (-1, 0, last, 0, -1, 0)))),
        ("AREF step of -2^31 in one column", cell(aref((1, 2), (0, 0, -last - 1, 0, 0, 0)))),
        ("AREF step of -2^31 - 1 in one row", cell(aref((2, 1), (0, 1, 0, 1, 0, -last - 1)))),
        ("1 x 1 AREF with a step of 2^32 - 1", cell(aref((1, 1), (-last - 1, 0, last, 0, 0, 0)))),
        ("AREF from end to end", cell(aref((2, 3), (-last - 1, -last - 1, last - 1, -last - 1, -last - 1, last - 2)))),
        ("COLROW before SNAME", cell(empty(0x0b) + word(0x13, 1, 1) + string(0x12, b"B\0") + long(0x10, *[0] * 6) + ENDEL)),
        # properties
        ("properties", cell(owned(owns(1, b"x\0"), owns(65535, b""), owns(0, b"ab")))),
        ("a value of four zero bytes", cell(owned(owns(1, b"\0" * 4)))),
        # where a fault stands
        ("STRCLASS", HEAD + bits(0x34, 0) + END),
        ("the second element", cell(boundary(), boundary(type=256))),
        ("a bad record between elements", cell(boundary(), ODD)),
        ("a bad record in an element", cell(boundary(), empty(8) + word(0x0d, 1) + ODD)),
        ("an ill-formed first record", cell(boundary(), rec(8, 2))),
        ("a record of no element", cell(boundary(), word(0x0d, 1))),
        ("an ill-formed ENDEL", cell(boundary(), boundary(tail=rec(0x11, 0, b"\0\0")))),
        ("a missing ENDEL", cell(boundary(tail=b""))),
        ("the bytes end in an element", HEAD + boundary()[:-4]),
        ("the next element for ENDEL", cell(boundary(tail=b""), boundary())),
        # two faults: the first in byte order counts, and within a record 28, then 29, then as in writing
        ("6, then 7", cell(head=word(5, *[1] * 11, 60) + string(6, b"A B\0"))),
        ("7, then 9", cell(boundary(layer=256), head=STAMPS + string(6, b"A-"))),
        ("9, then 8", cell(boundary((0, 0, 4, 0, 0, 0), layer=256))),
        ("9 of the type, then 20", cell(boundary(OPEN, type=256))),
        ("8 and 20", cell(boundary((0, 0, 4, 0, 0, 1)))),
        ("20, then no ENDEL", cell(boundary(OPEN, tail=b""))),
        ("9, then path type 3", cell(path(word(0x21, 3), layer=256))),
        ("path type 3, then 8", cell(path(word(0x21, 3), points=(0, 0)))),
        ("9, then 10", cell(text(layer=256, s=string(0x19, b"x" * 514)))),
        ("presentation 3, then 13", cell(text(presentation=bits(0x17, 3), transform=strans(mag("c120000000000000"))))),
        ("13, then 29", cell(text(transform=strans(mag("c120000000000000"), angle(TOO_FINE))))),
        ("29, then 14", cell(text(transform=strans(mag(TOO_FINE), angle("0008000000000000"))))),
        ("14, then two points", cell(text(transform=strans(mag("0008000000000000")), xy=long(0x10, 1, 2, 3, 4)))),
        ("two points, then 10", cell(text(xy=long(0x10, 1, 2, 3, 4), s=string(0x19, b"x" * 514)))),
        ("29 and 13", magnified("c1ffffffffffffff")),
        ("13 and 14", magnified("8000000000000001")),
        ("7, then 13", cell(sref(name=b"B-", transform=strans(mag("c120000000000000"))))),
        ("13, then 11", cell(aref((0, 1), transform=strans(mag("c120000000000000"))))),
        ("11, then two points", cell(aref((2, 32768), (0, 0, 4, 0)))),
        ("11, then 30", cell(aref((2, 32768), (0, 0, 5, 0, 0, 9)))),
        ("9, and the bytes end", HEAD + boundary(layer=256)[:12]),
        ("9, and a byte after ENDSTR", cell(boundary(layer=256)) + b"\0"),
        # all kinds
        ("a mixed cell", cell(boundary(), path(long(0x0f, 10)), text(transform=strans(bits_of=0x8000)), node(), sref(),
                              aref(transform=strans(angle("425a000000000000"))), owned(owns(7, b"v\0")), box())),
    ]


def box_sheet_streams():
    """The same of boxes."""
    last = 2**31 - 1
    return [
        ("box from top right", cell(box((4, 3, 0, 3, 0, 0, 4, 0, 4, 3)))),
        ("box from bottom right", cell(box((4, 0, 0, 0, 0, 3, 4, 3, 4, 0)))),
        ("box from top left", cell(box((0, 3, 4, 3, 4, 0, 0, 0, 0, 3)))),
        ("box without width", cell(box((4, 0, 4, 0, 4, 3, 4, 3, 4, 0)))),
        ("box without width, the other way round", cell(box((4, 0, 4, 3, 4, 3, 4, 0, 4, 0)))),
        ("box of one point", cell(box((4, 3) * 5))),
        ("box from end to end of 32 bits", cell(box((last, -last - 1, -last - 1, -last - 1, -last - 1, last, last, last, last, -last - 1)))),
        ("box layer and type 255", cell(box(layer=255, type=255))),
        ("box layer 256", cell(box(layer=256))),
        ("box type 256", cell(box(type=256))),
        ("box of three points", cell(box(OBLONG[:6]))),
        *[(f"box with coordinate {k} of ten off by 1", cell(box(OBLONG[:k] + (OBLONG[k] + 1,) + OBLONG[k + 1:]))) for k in range(10)],
        ("box with properties", cell(box(tail=owns(1, b"x\0") + owns(2, b"ab") + ENDEL))),
        ("the second element is a box, the other way round", cell(boundary(), box(OTHER_WAY))),
        ("9, then a box of four points", cell(box(SQUARE, layer=256))),
        ("9 of the type, then a box the other way round", cell(box(OTHER_WAY, type=256))),
        ("a box of four points, then 9", cell(box(SQUARE), boundary(layer=256))),
    ]


def option_sheet_streams():
    """The same of flags and plex numbers."""
    return [
        ("every kind with both", cell(*[with_options(element, flags(2), plex(-2**31)) for element in (boundary(), path(), text(), node(), sref(), aref(), box())])),
        ("1 x 1 AREF with both", cell(with_options(aref((1, 1)), flags(1), plex(2**31 - 1)))),
        ("flags of 32,768 in the second element", cell(with_options(node(), flags(3)), with_options(box(), flags(0x8000)))),
        ("26, then 9", cell(with_options(boundary(layer=256), flags(4), plex(0)))),
        ("26, then PLEX of another data type", cell(with_options(node(), flags(4), word(0x2f, 0, 1)))),
    ]


def limit_sheet_streams():
    """The same of text types and properties: document 02, request 6."""
    long = string(0x2c, b"v" * 128)
    return [
        ("text type 255", cell(text(type=255))),
        ("text type 256", cell(text(type=256))),
        ("attributes 1 and 127, and a value of no bytes", cell(owned(owns(1, b"x\0"), owns(127, b""), owns(1, b"ab")))),
        ("attribute 0", cell(owned(owns(0, b"x\0")))),
        ("attribute 128 in the second element", cell(boundary(), box(tail=owns(127, b"v\0") + owns(128, b"v\0") + ENDEL))),
        ("attribute 257", cell(owned(owns(257, b"x\0")))),
        ("a value of 125 bytes", cell(owned(owns(1, b"v" * 125 + b"\0")))),
        ("a value of 126 bytes", cell(owned(owns(1, b"v" * 126)))),
        ("126 zero bytes, one of them dropped", cell(owned(owns(1, bytes(126))))),
        ("a value of 127 bytes", cell(owned(owns(1, b"v" * 127 + b"\0")))),
        ("a value of 128 bytes", cell(owned(word(0x2b, 1) + long))),
        ("27, then 10 of the same property", cell(owned(word(0x2b, 0) + long))),
        ("10, then 27 of the next", cell(owned(word(0x2b, 1) + long, owns(0, b"")))),
        ("27, then no PROPVALUE", cell(owned(word(0x2b, 128)))),
        ("20, then 27", cell(boundary(OPEN, tail=owns(0, b"") + ENDEL))),
        ("9 of the text type, then presentation 3", cell(text(type=256, presentation=bits(0x17, 3)))),
    ]


def fault_of(fault):
    return {None: "none", NO_RECORD: "some no_record", NOT_OF_GRAMMAR: "some not_of_grammar", 11: "some (beyond R.ColumnsOrRows)", 30: "some (beyond R.ArrayCorners)"}[fault]


def as_number(data):
    return f"{len(data)} 0x{data.hex() or '0'}"


def read_as(data):
    """Number and block; or the sheet, and the structure that it is written to with d = 1 and nearest."""
    answer = reading_model.read(data)
    if answer[0] == "no":
        return "no {} {}".format(*answer[1:])
    canonical, entries, _ = model.write_cell(model.NEAREST, 1.0, answer[1])
    assert not entries
    return f"own {as_number(answer[1])}" if canonical == data else f"other {as_number(answer[1])} {as_number(canonical)}"


def stream_row(why, data):
    return (f"record {{ size = {len(data)}; bytes = 0x{data.hex() or '0'}; fault = {fault_of(reading_model.grammar_fault(data))}; "
            f"reading = {read_as(data)} }} {{- {why} -}}")


def streams_module(vectors):
    """The streams above, and those of small stored cells, each with what the model finds in it."""
    by_hand = grammar_streams() + box_grammar_streams() + option_grammar_streams()
    for why, data, fault in by_hand:
        assert reading_model.grammar_fault(data) == fault, why
    rows = [(why, data) for why, data, _ in by_hand] + sheet_streams() + box_sheet_streams() + option_sheet_streams() + limit_sheet_streams()
    accepted_ones = sorted((v for v in vectors if v.fields[0] == "ok"), key=lambda v: len(v.lines[1]))
    rows += [(v.name, bytes.fromhex(v.lines[1])) for v in accepted_ones if len(v.lines[1]) <= 2 * LARGEST][::16]
    return len(rows), '''-- Streams with what is read from them: made by tools/computed_cases.py. Assumes nothing.
use Rattle.std.proofs.Math.Option.{Option, none, some}
use Rattle.std.specs.Prelude.{List, [], ◌∷◌, ℕ}
use Rattle.refusal.specs.declared.Refusal.TheVariants as R
use Rattle.stream.specs.Read.{Fault, no_record, not_of_grammar, beyond}

-- What reading to a sheet gives (document 02, request 8): number and block; or the sheet, as one number with its count of bytes, and the canonical structure, which is the stream itself (`own`) or another.
pub data Answer : Type 0 where
  no : ℕ → ℕ → Answer
  own : ℕ → ℕ → Answer
  other : ℕ → ℕ → ℕ → ℕ → Answer

-- a stream, as one number with its count of bytes; the fault that the grammar alone finds in it, if any, first in byte order (document 01, "What a structure draws"); and what reading to a sheet gives
pub record Stream : Type 0 where
  pub size : ℕ
  pub bytes : ℕ
  pub fault : Option Fault
  pub reading : Answer

unfoldable pub streams : List Stream
streams =
''' + "".join(f"    {'∷ ' if k else ''}{stream_row(why, data)}\n" for k, (why, data) in enumerate(rows)) + "    ∷ []\n"


# ---- the definitions that a computed test opens

BELOW = "big_endian binary64 units gds_format conversion bounds survey parsing sheet stream cell library reading".split()
IEEE = "of_bits to_bits mul div sub neg lt le eq of_int round sum add size".split()


def open_module():
    uses, names = [], []
    for crate in BELOW:
        specs = ROOT / "crates" / crate / "specs"
        paths = sorted([*specs.glob("*.antt"), *specs.glob("code/*.antt")], key=lambda path: path.name)
        if not paths:
            raise called.Bad(f"{specs}: there are no definitions in it")
        for path in paths:
            found = re.findall(r"^\s*unfoldable pub (\S+)", path.read_text(encoding="utf-8"), re.M)
            if found:
                short = "".join(w.title() for w in crate.split("_")) + "-as-" + path.stem
                uses.append(f"use Rattle.{crate}.specs.{'code.' if path.parent != specs else ''}{path.stem} as {short}")
                names += [f"{short}.{n}" for n in found]
    return ("-- Every definition of the specs, opened: under `unfolding opened` a test computes with them all. Made by tools/computed_cases.py. Assumes nothing.\n"
            + "use mathlib.Core.Bool.{true}\nuse lib.Dec.{T}\nuse lib.Ieee as Ieee\n" + "\n".join(uses) + "\n\nunfoldable pub opened : T true\nunfolding "
            + " ".join(names + [f"Ieee.{n}" for n in IEEE]) + "\nopened = tt\n")


def made(paths):
    """({path below the root: bytes} of the four files, what was taken in words)"""
    cases = [case for path in paths for case in stored(path)]
    vectors, libraries = of_kind(Vector, cases), of_kind(Library, cases)
    count, cells = cells_module(vectors)
    number, streams = streams_module(vectors)
    several, rest = libraries_module(libraries)
    modules = {"specs/Cells.antt": cells, "specs/Streams.antt": streams, "specs/Libraries.antt": rest, "proofs/Open.antt": open_module()}
    return {f"crates/cases/{path}": content.encode() for path, content in modules.items()}, f"{count} cells, {number} streams, {several} libraries"


def main(words):
    called.no_option(words)
    if not words:
        raise called.Wrong("it takes files of cases")
    contents, taken = made(words)
    files.write_all([(os.path.join(ROOT, path), content) for path, content in contents.items()])
    print(taken)


if __name__ == "__main__":
    called.run(main, __doc__)
