"""The cell sheet of document 01 ("Input") with the boxes of document 02, request 3, and the flags and plex numbers of its request 5, and the library sheet of its request 1: their form, read and written. docs/FORMAT.md has them byte by byte.

A cell is a name, twelve stamp numbers and elements; a library is a name, a user unit, twelve stamp numbers and cells. An
element's kind is told without its options, flags and plex number; each of them is None where it is absent, which 0 is not.
Doubles are kept as 64-bit patterns, so that a NaN keeps its bits and a sheet that is read and written again is the same
bytes. Reading raises Ill with the byte where the form fails.
"""
import struct
from collections import namedtuple

from . import progress

INTEGER, DOUBLE, ABSENT = range(3)
POLYGON, PATH, TEXT, NODE, REFERENCE, BOX = range(1, 7)
WITH_FLAGS, WITH_PLEX = 16, 32  # what raises the kind byte where flags, where a plex number follow it
NO_PATH_TYPE = 255
MAX_PAIRS = 16384
LIBRARY_HEAD = 34  # bytes of a library's block 0 beside its name

Library = namedtuple("Library", "name unit stamps cells")
Cell = namedtuple("Cell", "name stamps elements")
Coordinate = namedtuple("Coordinate", "kind value unit")
Property = namedtuple("Property", "attribute value")


def element_tuple(name, fields):
    """One of the elements, all of which end alike; both options may be missing."""
    return namedtuple(name, f"kind {fields} properties flags plex", defaults=(None, None))


Shape = element_tuple("Shape", "layer type points")
Path = element_tuple("Path", "layer type path_type width begin end points")
Text = element_tuple("Text", "layer type vertical horizontal reflection magnification degrees origin string")
Reference = element_tuple("Reference", "name columns rows reflection magnification degrees sine cosine origin column row")
Box = element_tuple("Box", "layer type first second")

NOTHING = Coordinate(ABSENT, 0, 0)


class Ill(Exception):
    """The form fails: at which byte, and why. `pairs` is true where the fault is in the pairs (a cell's refusal 4, else 5)."""

    def __init__(self, at, why, block=0, pairs=False):
        super().__init__(f"byte {at}: {why}")
        self.at, self.why, self.block, self.pairs = at, why, block, pairs


def bits_of(x):
    return struct.unpack(">Q", struct.pack(">d", x))[0]


def double_of(bits):
    return struct.unpack(">d", struct.pack(">Q", bits))[0]


def box_points(first, second):
    """The five points of a box, `GdsBox::points` in gdsr: each corner has x and y, and they are taken as they stand."""
    return [first, (second[0], first[1]), second, (first[0], second[1]), first]


# ---- reading


class Reader:
    """Bytes from `at` up to `end`, taken from the front."""

    def __init__(self, data, at, end, block):
        self.data, self.at, self.end, self.block = data, at, end, block

    def ill(self, why, at=None):
        return Ill(self.at if at is None else at, f"{why} (block {self.block})", self.block)

    def take(self, count, what):
        if self.end - self.at < count:
            raise self.ill(f"{what} needs {count} bytes, {self.end - self.at} are left in the block")
        self.at += count
        return self.data[self.at - count:self.at]

    def number(self, size, what, signed=False):
        return int.from_bytes(self.take(size, what), "big", signed=signed)

    def code(self, allowed, what):
        value = self.number(1, what)
        if value not in allowed:
            raise self.ill(f"{what} {value} is unknown", self.at - 1)
        return value

    def string(self, what):
        return self.take(self.number(2, f"the length of {what}"), what)

    def double(self, what):
        return self.number(8, what)

    def coordinate(self, what):
        start = self.at
        kind = self.code((INTEGER, DOUBLE, ABSENT), f"the kind of {what}")
        value, unit = self.take(8, what), self.number(8, f"the unit of {what}")
        if kind == INTEGER:
            if value[:4] != bytes(4):
                raise self.ill(f"{what} is an integer whose upper four bytes are not zero", start + 1)
            return Coordinate(kind, int.from_bytes(value[4:], "big", signed=True), unit)
        if kind == ABSENT and (value != bytes(8) or unit):
            raise self.ill(f"{what} is absent, but a byte after its kind is not zero", start + 1)
        return Coordinate(kind, int.from_bytes(value, "big"), unit)

    def present(self, what):
        start = self.at
        found = self.coordinate(what)
        if found.kind == ABSENT:
            raise self.ill(f"{what} may not be absent", start)
        return found

    def point(self, what):
        return self.present(f"{what} x"), self.present(f"{what} y")

    def spacing(self, what):
        start = self.at
        x, y = self.coordinate(f"{what} x"), self.coordinate(f"{what} y")
        if (x.kind == ABSENT) != (y.kind == ABSENT):
            raise self.ill(f"one coordinate of {what} is absent and the other is not", start)
        return x, y

    def points(self):
        return [self.point(f"point {k}") for k in range(self.number(2, "the point count"))]

    def properties(self):
        count = self.number(2, "the property count")
        return [Property(self.number(2, "an attribute"), self.string("a property value")) for _ in range(count)]

    def done(self, found):
        if self.at != self.end:
            raise self.ill(f"{self.end - self.at} bytes too many")
        return found


def stamps_form(r):
    return [r.number(2, "a stamp number") for _ in range(12)]


def head_form(r):
    return r.string("the cell's name"), stamps_form(r)


def library_head_form(r):
    return r.string("the library's name"), r.double("the user unit"), stamps_form(r)


def shape_form(r, kind):
    return Shape(kind, r.number(2, "the layer"), r.number(2, "the type"), r.points(), r.properties())


def path_form(r, kind):
    return Path(kind, r.number(2, "the layer"), r.number(2, "the type"), r.code((0, 1, 2, NO_PATH_TYPE), "path type"),
                r.coordinate("the width"), r.coordinate("the begin extension"), r.coordinate("the end extension"),
                r.points(), r.properties())


def text_form(r, kind):
    return Text(kind, r.number(2, "the layer"), r.number(2, "the type"), r.code(range(3), "vertical"),
                r.code(range(3), "horizontal"), r.code(range(2), "reflection"), r.double("the magnification"),
                r.double("the degrees"), r.point("the origin"), r.string("the text"), r.properties())


def reference_form(r, kind):
    return Reference(kind, r.string("the called name"), r.number(4, "the columns"), r.number(4, "the rows"),
                     r.code(range(2), "reflection"), r.double("the magnification"), r.double("the degrees"),
                     r.double("the sine"), r.double("the cosine"), r.point("the origin"),
                     r.spacing("the column spacing"), r.spacing("the row spacing"), r.properties())


def box_form(r, kind):
    return Box(kind, r.number(2, "the layer"), r.number(2, "the type"), r.point("the first corner"), r.point("the second corner"), r.properties())


FORMS = {POLYGON: shape_form, PATH: path_form, TEXT: text_form, NODE: shape_form, REFERENCE: reference_form, BOX: box_form}


def kind_of(byte):
    """The kind that a kind byte has without what raises it; none where the byte is unknown."""
    kind = byte & ~(WITH_FLAGS | WITH_PLEX)
    return kind if kind in FORMS else None


def element_form(r):
    byte = r.number(1, "the element kind")
    kind = kind_of(byte)
    if kind is None:
        raise r.ill(f"element kind {byte} is unknown: it is 1 to 6, raised by {WITH_FLAGS} with flags and by {WITH_PLEX} with a plex number", r.at - 1)
    flags = r.number(2, "the flags") if byte & WITH_FLAGS else None
    plex = r.number(4, "the plex number", signed=True) if byte & WITH_PLEX else None
    return FORMS[kind](r, kind)._replace(flags=flags, plex=plex)


def read_pairs(sheet):
    """(offset, length) of each block of a sheet; refusal 4 where they are ill-formed, of a library's sheet 23."""
    if len(sheet) < 4:
        raise Ill(len(sheet), "the sheet is too short for its pair count", pairs=True)
    n = int.from_bytes(sheet[:4], "big")
    if not 1 <= n <= MAX_PAIRS:
        raise Ill(0, f"pair count {n} is outside 1 to {MAX_PAIRS:,}", pairs=True)
    if len(sheet) < 4 + 8 * n:
        raise Ill(len(sheet), f"{n} pairs need {4 + 8 * n} bytes", pairs=True)
    pairs, at = [], 4 + 8 * n
    for k in range(n):
        offset, length = struct.unpack_from(">II", sheet, 4 + 8 * k)
        if offset != at or length < 1:
            raise Ill(4 + 8 * k, f"block {k} should start at {at} with a length of at least 1, not {offset} with {length}", pairs=True)
        at += length
        pairs.append((offset, length))
    if at != len(sheet):
        raise Ill(4 + 8 * (n - 1), f"the blocks end at byte {at}, the sheet at {len(sheet)}", pairs=True)
    return pairs


def read_head(sheet, pair):
    r = Reader(sheet, pair[0], sum(pair), 0)
    return r.done(head_form(r))


def read_element(sheet, pair, block):
    r = Reader(sheet, pair[0], sum(pair), block)
    return r.done(element_form(r))


def read_sheet(sheet):
    pairs = read_pairs(sheet)
    name, stamps = read_head(sheet, pairs[0])
    elements = progress.track(pairs[1:], len(pairs) - 1, "reading the sheet")
    return Cell(name, stamps, [read_element(sheet, pair, k + 1) for k, pair in enumerate(elements)])


def read_library_head(sheet, pair):
    """(name, the user unit's bits, stamps)"""
    r = Reader(sheet, pair[0], sum(pair), 0)
    return r.done(library_head_form(r))


def read_cell_of(sheet, pair, number):
    """A cell of a library sheet; a fault's byte is counted from the library sheet's first."""
    try:
        return read_sheet(sheet[pair[0]:sum(pair)])
    except Ill as ill:
        raise Ill(pair[0] + ill.at, f"{ill.why}, in cell {number}", ill.block, ill.pairs) from None


def read_library(sheet):
    pairs = read_pairs(sheet)
    name, unit, stamps = read_library_head(sheet, pairs[0])
    return Library(name, unit, stamps, [read_cell_of(sheet, pair, k) for k, pair in enumerate(pairs[1:])])


# ---- writing


def string_bytes(s):
    return struct.pack(">H", len(s)) + s


def coordinate_bytes(c):
    value = struct.pack(">ii", 0, c.value) if c.kind == INTEGER else struct.pack(">Q", c.value)
    return bytes([c.kind]) + value + struct.pack(">Q", c.unit)


def point_bytes(p):
    return coordinate_bytes(p[0]) + coordinate_bytes(p[1])


def points_bytes(points):
    return struct.pack(">H", len(points)) + b"".join(map(point_bytes, points))


def properties_bytes(properties):
    return struct.pack(">H", len(properties)) + b"".join(struct.pack(">H", p.attribute) + string_bytes(p.value) for p in properties)


def head_bytes(name, stamps):
    return string_bytes(name) + struct.pack(">12H", *stamps)


def library_head_bytes(name, unit, stamps):
    return string_bytes(name) + struct.pack(">Q12H", unit, *stamps)


def kind_bytes(e):
    """The kind byte, and the options that it is raised for."""
    byte, options = e.kind, b""
    if e.flags is not None:
        byte, options = byte | WITH_FLAGS, struct.pack(">H", e.flags)
    if e.plex is not None:
        byte, options = byte | WITH_PLEX, options + struct.pack(">i", e.plex)
    return bytes([byte]) + options


def body_bytes(e):
    if e.kind in (POLYGON, NODE):
        return struct.pack(">HH", e.layer, e.type) + points_bytes(e.points)
    if e.kind == BOX:
        return struct.pack(">HH", e.layer, e.type) + point_bytes(e.first) + point_bytes(e.second)
    if e.kind == PATH:
        lengths = b"".join(map(coordinate_bytes, (e.width, e.begin, e.end)))
        return struct.pack(">HHB", e.layer, e.type, e.path_type) + lengths + points_bytes(e.points)
    if e.kind == TEXT:
        return struct.pack(">HHBBBQQ", e.layer, e.type, e.vertical, e.horizontal, e.reflection, e.magnification,
                           e.degrees) + point_bytes(e.origin) + string_bytes(e.string)
    return (string_bytes(e.name)
            + struct.pack(">IIBQQQQ", e.columns, e.rows, e.reflection, e.magnification, e.degrees, e.sine, e.cosine)
            + point_bytes(e.origin) + point_bytes(e.column) + point_bytes(e.row))


def element_bytes(e):
    return kind_bytes(e) + body_bytes(e) + properties_bytes(e.properties)


def sheet_of_blocks(blocks):
    at, pairs = 4 + 8 * len(blocks), b""
    for block in blocks:
        pairs += struct.pack(">II", at, len(block))
        at += len(block)
    return struct.pack(">I", len(blocks)) + pairs + b"".join(blocks)


def sheet_bytes(cell):
    return sheet_of_blocks([head_bytes(cell.name, cell.stamps)] + [element_bytes(e) for e in cell.elements])


def library_bytes(library):
    return sheet_of_blocks([library_head_bytes(library.name, library.unit, library.stamps)] + [sheet_bytes(c) for c in library.cells])
