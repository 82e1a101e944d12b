"""A GDSII structure or library file, and report entries, as readable text.

A structure is read by the grammar of document 01 ("What a structure draws") with the BOX of document 02, request 3, and the
ELFLAGS and PLEX of its request 5; a library file is HEADER, BGNLIB, LIBNAME, UNITS, structures, ENDLIB. Each record gets a
line: the byte where it starts, its name, and what it holds. Eight-byte reals are written as exact decimals, long ones of
UNITS as the shortest decimal of the double. Zero bytes after ENDLIB are no damage: a line says how many. The lines that the
program `structure` prints, and a stored library's, are read too.
Of an entry's error the magnitude is told, and on which side of the physical value the database value lies: above or below.
Entries, and a greatest error, that this writer never gives are turned back with their place.
"""
import math
import re
import struct
from fractions import Fraction

from . import progress
from .cell_text import quoted
from .inputs import Unreadable, raw, unhexed

# code: name, data type, size of the data (None: any even number; -8: any multiple of 8)
RECORDS = {
    0x05: ("BGNSTR", 2, 24), 0x06: ("STRNAME", 6, None), 0x07: ("ENDSTR", 0, 0), 0x08: ("BOUNDARY", 0, 0), 0x09: ("PATH", 0, 0),
    0x0a: ("SREF", 0, 0), 0x0b: ("AREF", 0, 0), 0x0c: ("TEXT", 0, 0), 0x0d: ("LAYER", 2, 2), 0x0e: ("DATATYPE", 2, 2),
    0x0f: ("WIDTH", 3, 4), 0x10: ("XY", 3, -8), 0x11: ("ENDEL", 0, 0), 0x12: ("SNAME", 6, None), 0x13: ("COLROW", 2, 4),
    0x15: ("NODE", 0, 0), 0x16: ("TEXTTYPE", 2, 2), 0x17: ("PRESENTATION", 1, 2), 0x19: ("STRING", 6, None), 0x1a: ("STRANS", 1, 2),
    0x1b: ("MAG", 5, 8), 0x1c: ("ANGLE", 5, 8), 0x21: ("PATHTYPE", 2, 2), 0x26: ("ELFLAGS", 1, 2), 0x2a: ("NODETYPE", 2, 2),
    0x2b: ("PROPATTR", 2, 2), 0x2c: ("PROPVALUE", 6, None), 0x2d: ("BOX", 0, 0), 0x2e: ("BOXTYPE", 2, 2), 0x2f: ("PLEX", 3, 4),
    0x30: ("BGNEXTN", 3, 4), 0x31: ("ENDEXTN", 3, 4),
}
# those that stand in a library file beside its structures'
LIBRARY_RECORDS = {0x00: ("HEADER", 2, 2), 0x01: ("BGNLIB", 2, 24), 0x02: ("LIBNAME", 6, None), 0x03: ("UNITS", 5, 16), 0x04: ("ENDLIB", 0, 0)}
HEADER = 0x00
OPTIONS = ["ELFLAGS?", "PLEX?"]
TRANSFORM = ["STRANS?", "MAG?", "ANGLE?"]
# the records of each element after its first, `?` where one may be missing; properties and ENDEL follow
ELEMENTS = {
    "BOUNDARY": [*OPTIONS, "LAYER", "DATATYPE", "XY"],
    "NODE": [*OPTIONS, "LAYER", "NODETYPE", "XY"],
    "PATH": [*OPTIONS, "LAYER", "DATATYPE", "PATHTYPE?", "WIDTH?", "BGNEXTN?", "ENDEXTN?", "XY"],
    "TEXT": [*OPTIONS, "LAYER", "TEXTTYPE", "PRESENTATION?", *TRANSFORM, "XY", "STRING"],
    "SREF": [*OPTIONS, "SNAME", *TRANSFORM, "XY"],
    "AREF": [*OPTIONS, "SNAME", *TRANSFORM, "COLROW", "XY"],
    "BOX": [*OPTIONS, "LAYER", "BOXTYPE", "XY"],
}
FLAGS = {1: "template", 2: "external", 3: "template, external"}  # by the manual's two bits
POINTS = {"TEXT": 1, "SREF": 1, "AREF": 3}
KINDS = {1: "polygon", 2: "path", 3: "text", 4: "node", 5: "reference", 6: "box"}
KIND_OF = {"BOUNDARY": 1, "PATH": 2, "TEXT": 3, "NODE": 4, "SREF": 5, "AREF": 5, "BOX": 6}
FIELDS = ("point", "width", "begin extension", "end extension", "origin", "turned column spacing", "turned row spacing",
          "column endpoint", "row endpoint")
FIELDS_OF = {1: (0,), 2: (0, 1, 2, 3), 3: (4,), 4: (0,), 5: (4, 5, 6, 7, 8), 6: (0,)}  # of each kind
BOX_SPOTS = ((0, 0), (0, 1), (1, 0), (2, 1))  # point and axis where a coordinate of a box's corners stands first
AXES = ("x", "y", "")
ENTRY, LIBRARY_ENTRY = 33, 37
NO_SIGN = "; was this report made before errors had a sign?"


class Damage(Unreadable):
    """A stream is not of the grammar, and at which byte."""


# ---- numbers


def decimal(x):
    """A fraction whose denominator is a power of 2, as an exact decimal."""
    if x < 0:
        return "-" + decimal(-x)
    places = x.denominator.bit_length() - 1
    digits = str(x.numerator * 5**places).rjust(places + 1, "0")
    return digits if places == 0 else f"{digits[:-places]}.{digits[-places:]}"


def real8(data):
    """What an eight-byte real is worth."""
    size = Fraction(int.from_bytes(data[1:], "big"), 2**56) * Fraction(16) ** ((data[0] & 127) - 64)
    return -size if data[0] & 128 else size


def unit(data):
    """A real of UNITS, whose exact decimal may have hundreds of digits."""
    worth = real8(data)
    exact, short = decimal(worth), float(worth)
    return exact if len(exact) < 20 else f"{'' if Fraction(short) == worth else 'nearly '}{short!r}"


def longs(data):
    return struct.unpack(f">{len(data) // 4}i", data)


def points(data):
    values = longs(data)
    return list(zip(values[::2], values[1::2]))


# ---- one record in words


def many(count, what):
    return f"{count} {what}" if count == 1 else f"{count} {what}s"


def stamp(data):
    first, second = struct.unpack(">6H", data[:12]), struct.unpack(">6H", data[12:])
    if not any(first + second):
        return "zero stamps"
    return ", ".join("{:04d}-{:02d}-{:02d} {:02d}:{:02d}:{:02d}".format(*s) for s in (first, second))


def presentation(data):
    value = int.from_bytes(data, "big")
    return f"{value} (vertical {value >> 2 & 3}, horizontal {value & 3})"


def element_flags(data):
    value = int.from_bytes(data, "big")
    return f"{value} ({FLAGS[value]})" if value in FLAGS else str(value)


def words_of(name, data):
    if name in ("BGNSTR", "BGNLIB"):
        return stamp(data)
    if name == "UNITS":
        return f"{unit(data[:8])} (user unit), {unit(data[8:])} (database unit)"
    if name == "XY":
        return " ".join(f"({x}, {y})" for x, y in points(data))
    if name == "COLROW":
        columns, rows = struct.unpack(">HH", data)
        return f"{many(columns, 'column')}, {many(rows, 'row')}"
    if name == "ELFLAGS":
        return element_flags(data)
    if name == "PRESENTATION":
        return presentation(data)
    if name == "STRANS":
        return {0x8000: "reflected", 0: "not reflected"}.get(int.from_bytes(data, "big"), f"0x{data.hex()}")
    if name in ("MAG", "ANGLE"):
        return decimal(real8(data))
    if name in ("LIBNAME", "STRNAME", "SNAME", "STRING", "PROPVALUE"):
        return quoted(data)
    if name in ("PLEX", "WIDTH", "BGNEXTN", "ENDEXTN"):
        return str(longs(data)[0])
    return str(int.from_bytes(data, "big")) if data else ""


# ---- records and the grammar


def sized(data, size):
    return len(data) % 8 == 0 if size == -8 else size is None or len(data) == size


def next_record(stream, at, records=RECORDS):
    """(name, data) of the record at a byte, one of `records`."""
    left = len(stream) - at
    if left < 4:
        raise Damage(f"byte {at}: a record's head has 4 bytes, {left} are left")
    length, code, kind = struct.unpack_from(">HBB", stream, at)
    if length < 4 or length % 2:
        raise Damage(f"byte {at}: a record's length is even and at least 4, not {length}")
    if code not in records:
        raise Damage(f"byte {at + 2}: record code 0x{code:02x} is none of a {'structure' if records is RECORDS else 'library'}'s")
    name, data_type, size = records[code]
    if kind != data_type:
        raise Damage(f"byte {at + 3}: {name} has data type {data_type}, not {kind}")
    if length > left:
        raise Damage(f"byte {at}: {name} has a length of {length} bytes, {left} are left")
    data = stream[at + 4:at + length]
    if not sized(data, size):
        wants = "a multiple of 8" if size == -8 else size
        raise Damage(f"byte {at + 4}: {name} has {wants} bytes of data, not {len(data)}")
    return name, data


def is_library(stream):
    """Whether a stream's first record is to be a HEADER."""
    return stream[2:3] == bytes([HEADER])


class Walk:
    """The records of a stream in turn; each that is taken gets a line. `structures` has each one's name and elements."""

    def __init__(self, stream, say):
        self.stream, self.at, self.last, self.say = stream, 0, 0, say
        self.records, self.depth, self.structures = RECORDS, 0, []

    def peek(self):
        return next_record(self.stream, self.at, self.records)

    def take(self, *expected, indent=2):
        name, data = self.peek()
        if name not in expected:
            raise Damage(f"byte {self.at}: {name} stands where {' or '.join(expected)} belongs")
        progress.tick("reading the stream", self.at, len(self.stream))
        self.say(f"{self.at:6}{' ' * indent}{name:<{18 + self.depth - indent}}{words_of(name, data)}".rstrip())
        self.last, self.at = self.at, self.at + 4 + len(data)
        return name, data

    def whole(self):
        """A library file where it starts with a HEADER, else one structure."""
        if is_library(self.stream):
            self.file()
            return
        self.take("BGNSTR")
        self.structure()
        if self.at != len(self.stream):
            raise Damage(f"byte {self.at}: {len(self.stream) - self.at} bytes follow ENDSTR")

    def file(self):
        self.records, self.depth = {**RECORDS, **LIBRARY_RECORDS}, 2
        for name in ("HEADER", "BGNLIB", "LIBNAME", "UNITS"):
            self.take(name)
        while self.take("BGNSTR", "ENDLIB", indent=4 if self.peek()[0] == "BGNSTR" else 2)[0] == "BGNSTR":
            self.structure()
        rest = self.stream[self.at:]
        if any(rest):
            raise Damage(f"byte {self.at}: {len(rest)} bytes follow ENDLIB, not all zero")
        if rest:
            self.say(f"{self.at:6}  {many(len(rest), 'zero byte')} after ENDLIB: padding, as to the end of a tape block, and no part of the library")

    def structure(self):
        """From its STRNAME on."""
        elements = []
        self.structures.append((self.take("STRNAME", indent=2 + self.depth)[1].rstrip(b"\0"), elements))
        name, _ = self.take(*ELEMENTS, "ENDSTR", indent=2 + self.depth)
        while name != "ENDSTR":
            elements.append((name, self.element(name)))
            name, _ = self.take(*ELEMENTS, "ENDSTR", indent=2 + self.depth)

    def element(self, kind):
        """The data of each of its records, up to its properties."""
        found = {}
        for name in ELEMENTS[kind]:
            wanted = name.rstrip("?")
            if wanted != name and (self.peek()[0] != wanted or wanted in ("MAG", "ANGLE") and "STRANS" not in found):
                continue
            found[wanted] = self.take(wanted, indent=4 + self.depth)[1]
            self.check(kind, wanted, found)
        while self.take("PROPATTR", "ENDEL", indent=4 + self.depth)[0] == "PROPATTR":
            self.take("PROPVALUE", indent=4 + self.depth)
        return found

    def check(self, kind, name, found):
        data = found[name]
        if name == "STRANS" and data not in (b"\x80\0", b"\0\0"):
            raise Damage(f"byte {self.last + 4}: STRANS is 0x8000 or 0, not 0x{data.hex()}")
        if name == "COLROW" and 0 in struct.unpack(">HH", data):
            raise Damage(f"byte {self.last + 4}: an array has 1 or more columns and rows")
        if name == "XY" and len(data) // 8 != POINTS.get(kind, len(data) // 8):
            raise Damage(f"byte {self.last + 4}: XY of {kind} has {POINTS[kind]} points, not {len(data) // 8}")
        if name == "XY" and kind == "AREF":
            self.steps(points(data), struct.unpack(">HH", found["COLROW"]))

    def steps(self, corners, counts):
        steps = []
        for corner, count, what in zip(corners[1:], counts, ("column", "row")):
            difference = [corner[k] - corners[0][k] for k in (0, 1)]
            if difference[0] % count or difference[1] % count:
                raise Damage(f"byte {self.last + 4}: the {what} step {tuple(difference)} / {count} is not whole")
            steps.append(f"{what} step ({difference[0] // count}, {difference[1] // count})")
        self.say(" " * (24 + self.depth) + ", ".join(steps))


# ---- report entries


def no_spot(kind, field, axis, place):
    """(byte of an entry, what this writer never has there), or None."""
    if kind not in KINDS:
        return 4, f"element kind {kind} is unknown"
    if field not in FIELDS_OF[kind]:
        return 5, f"a {KINDS[kind]} has no field {field}"
    if axis >= len(AXES):
        return 6, f"axis {axis} is unknown"
    if KINDS[kind] == "box" and (place, axis) not in BOX_SPOTS:
        return 6, f"axis {axis} of point {place}; a box's entry is of point 0 x or y, point 1 x or point 2 y"
    return None


def no_deviation(p, q, error):
    """The same of its values."""
    if not math.isfinite(p):
        return 13, f"p {p!r} is not finite"
    if not (error > 0 or error < 0):
        return 25, f"error {error!r} is neither above nor below 0"
    # what no d above 0 gives: q * d lies on q's side of 0, so q * d - p is -p or lies on that side of -p
    if q > 0 and error < -p or q < 0 and error > -p or q == 0 and error != -p:
        bound = "at least " if q > 0 else "at most " if q < 0 else ""
        hint = NO_SIGN if q == 0 and error == abs(p) else ""
        return 25, f"error {error!r} is not q * d - p, which is {bound}{0 - p!r} where q is {q}{hint}"
    return None


def entry_words(data, at, structure):
    """A cell's entry in words; it must be of an element that the structure has, where that is known."""
    index, kind, field, axis, place, count, p, q, error = struct.unpack(">IBBBHIdid", data)
    fault = no_spot(kind, field, axis, place) or no_deviation(p, q, error)
    if fault:
        # in an entry of a library an index starts where a cell's has its kind
        hint = "; a library's report is shown with its file" if kind not in KINDS and not structure else ""
        raise Damage(f"byte {at + fault[0]}: report entry: {fault[1]}{hint}")
    if structure and (index >= len(structure[1]) or KIND_OF[structure[1][index][0]] != kind):
        raise Damage(f"byte {at}: report entry: structure {quoted(structure[0])} has no element {index} that is a {KINDS[kind]}, so this is another's report")
    spot = f"point {place} {AXES[axis]}" if field == 0 else f"{FIELDS[field]} {AXES[axis]}".rstrip()
    side = "above" if error > 0 else "below"
    return f"element {index} ({KINDS[kind]}): {many(count, 'value')} affected, worst {spot}: p {p!r}, q {q}, error {abs(error)!r} {side}"


def library_entry_words(data, at, structures):
    cell = int.from_bytes(data[:4], "big")
    if cell >= len(structures):
        raise Damage(f"byte {at}: report entry: cell {cell}, and the library has {many(len(structures), 'cell')}")
    return f"cell {cell} ({quoted(structures[cell][0])}), {entry_words(data[4:], at + 4, structures[cell])}"


def any_entry_words(data, at, shown):
    library, structures = shown
    return library_entry_words(data, at, structures) if library else entry_words(data, at, structures[0])


def entries(data, say, shown=None):
    """Entries in words, all or none; `shown` is what `stream_lines` gave of their stream."""
    shown = shown or (False, [None])
    size, lines = LIBRARY_ENTRY if shown[0] else ENTRY, []
    for at in range(0, len(data), size):
        if len(data) - at < size:
            raise Damage(f"byte {at}: a report entry has {size} bytes, {len(data) - at} are left")
        lines.append(any_entry_words(data[at:at + size], at, shown))
    for line in lines:
        say(line)


# ---- input


def stream_lines(stream, say):
    """(whether it is a library file, its structures), record by record."""
    walk = Walk(stream, say)
    walk.whole()
    return is_library(stream), walk.structures


def check_sizes(found, size):
    """Entries that have lines of their own, from the third on."""
    for line, entry in enumerate(found, 3):
        if len(entry) != size:
            raise Damage(f"line {line}: a report entry has {size} bytes, not {len(entry)}")


def checked_greatest(bits, found):
    """The greatest error: bit for bit the largest magnitude among the entries' errors, each an entry's last 8 bytes."""
    greatest, *errors = [struct.unpack(">d", data[-8:])[0] for data in (bits, *found)]
    # a NaN has no magnitude, and is turned back with its entry
    largest = max((abs(error) for error in errors if not math.isnan(error)), default=0.0)
    if bits != struct.pack(">d", largest):
        wanted = f"the largest magnitude among the entries is {largest!r}" if found else f"without an entry it is {largest!r}"
        raise Damage(f"line 1: greatest error {greatest!r}; {wanted}")
    return greatest


def line_entry_words(line, data, shown):
    """An entry in words that has a line of its own, which a fault names."""
    try:
        return any_entry_words(data, 0, shown)
    except Damage as damage:
        raise Damage(f"line {line}, {damage}") from None


def accepted(lines, say):
    """Nothing is said before the first line is held to the others."""
    _, length, count, error = lines[0].split(" ")
    stream = unhexed(lines[1], "line 2")
    rest = [unhexed(line, f"line {k}") for k, line in enumerate(lines[2:], 3)]
    if str(len(stream)) != length or str(len(rest)) != count:
        raise Damage(f"line 1 says {length} bytes and {count} entries; there are {len(stream)} and {len(rest)}")
    check_sizes(rest, LIBRARY_ENTRY if is_library(stream) else ENTRY)
    greatest = checked_greatest(unhexed(error, "line 1"), rest)
    say(f"accepted: {many(len(stream), 'byte')}, {many(len(rest), 'report entry').replace('entrys', 'entries')}, greatest error {greatest!r}")
    shown = stream_lines(stream, say)
    for words in [line_entry_words(k, entry, shown) for k, entry in enumerate(rest, 3)]:
        say(words)
    return shown


NO_ANSWER = {"short": "no answer: under 9 bytes of input", "long": "no answer: over 24,576 bytes of sheet"}


def program_lines(lines, say):
    """The lines of the program, or of a stored library: `ok`, the stream, the entries; or a refusal."""
    first = lines[0]
    if re.fullmatch(r"ok \d+ \d+ [0-9a-f]{16}", first) and len(lines) > 1:
        return accepted(lines, say)
    if first in NO_ANSWER:
        say(NO_ANSWER[first])
    elif re.fullmatch(r"no \d+ \d+", first):
        say("refused: number {1}, block {2} (`ravenvanity refusal {1} {2}` says what that means)".format(*first.split(" ")))
    elif re.fullmatch(r"no \d+ \d+ \d+", first):
        say("refused: number {1}, cell {2}, block {3} (`ravenvanity refusal {1} {2} {3}` says what that means)".format(*first.split(" ")))
    else:
        raise Damage(f"line 1: `ok` with length, entries and error bits, then a stream, or `no` with number and block, not `{first[:60]}`")
    return None


def explain(data, say):
    """What is in a file: a stream, or the program's lines. What `stream_lines` gives, if there is a stream."""
    if data[:3] in (b"ok ", b"no ") or data.strip() in (b"short", b"long"):
        return program_lines(data.decode("ascii", "replace").rstrip("\n").split("\n"), say)
    return stream_lines(raw(data), say)
