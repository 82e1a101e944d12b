#!/usr/bin/env python3
"""An independent model of the program `structure`, and of writing libraries, for stored results. A convenience, outside the proof.

It follows document 01, requests 1 to 3, 5 and 6 of document 02, and gdsr's write/mod.rs, gds_box.rs, validation.rs and
conversion.rs, and shares no code with the proved writer. Products, quotients and differences are Python's, IEEE doubles;
mul_add, rounding to whole numbers and eight-byte reals are worked out over exact fractions; one step is taken from bit
patterns.

    model.py CASES      compares the answers stored in a file of cases (tools/case_files.py) with the model's, and counts
    model.py            reads the program's input from standard input and prints the program's lines

Exit status: 0 where no answer differs, 1 where one does or the file cannot be read, 2 where it was called wrongly.
"""
import math
import re
import struct
from fractions import Fraction

import called
from case_files import CELL, FRONT, LIBRARY, no_answer, read_cases
from ravenvanity import files
from ravenvanity import sheet as form
from ravenvanity.sheet import bits_of, double_of

OUTPUT, REPORT, MAX_SHEET = 16384, 8192, 16777216
LIBRARY_OUTPUT, LIBRARY_REPORT, NO_CELL, LONGEST_NAME = 65536, 16384, 4294967295, 65530  # the first two: buffers of stored libraries
LAST_ATTRIBUTE, LONGEST_VALUE = 127, 126  # the manual's, since gdsr takes any attribute and values up to LONGEST_NAME
NEAREST, FLOOR, CEILING, STRICT = range(4)
POINT, WIDTH, BEGIN, END, ORIGIN, COLUMN, ROW, COLUMN_END, ROW_END = range(9)
X, Y, NONE = range(3)


class Refused(Exception):
    def __init__(self, number, block=0, cell=NO_CELL):
        super().__init__(number, block, cell)
        self.number, self.block, self.cell = number, block, cell


def need(test, number):
    if not test:
        raise Refused(number)


# ---- doubles


def mul_add(a, b, c):
    """a * b + c, rounded once; zeros and infinities as IEEE 754 has them."""
    if not (math.isfinite(a) and math.isfinite(b)):
        return a * b + c
    if not math.isfinite(c):
        return c
    product = Fraction(a) * Fraction(b)
    exact = product + Fraction(c)
    if exact == 0:
        return 0.0 if product else a * b + c
    try:
        return float(exact)
    except OverflowError:
        return math.inf if exact > 0 else -math.inf


def ordered(x):
    """The place of x in the order of the doubles, -0 just below 0."""
    b = bits_of(x)
    return (1 << 64) - 1 - b if b >> 63 else b + (1 << 63)


def one_step(x, y):
    return abs(ordered(x) - ordered(y)) <= 1


def positive(x):
    return math.isfinite(x) and x > 0


def real8(x):
    """The eight bytes, 14 hex digits after sign and exponent; 14 where there are none."""
    need(math.isfinite(x), 14)
    if x == 0:
        return bytes(8)
    size, exponent = abs(Fraction(x)), 0
    while size >= Fraction(16) ** exponent:
        exponent += 1
    while size < Fraction(16) ** (exponent - 1):
        exponent -= 1
    need(0 <= exponent + 64 <= 127, 14)
    digits = size / Fraction(16) ** (exponent - 14)
    assert digits.denominator == 1
    return bytes([(x < 0) << 7 | exponent + 64]) + int(digits).to_bytes(7, "big")


# ---- conversion: write/conversion.rs


def nearest(s):
    """The whole number nearest to s, halves away from zero."""
    size = math.floor(abs(Fraction(s)) + Fraction(1, 2))
    return -size if s < 0 else size


def rounded(policy, s):
    n = nearest(s)
    if policy == NEAREST or one_step(s, math.copysign(float(n), s)):
        return n
    need(policy != STRICT, 18)
    return math.floor(Fraction(s)) if policy == FLOOR else math.ceil(Fraction(s))


class Converter:
    """The policy, the database unit, and an element's entry so far."""

    def __init__(self, policy, d, index, kind):
        self.policy, self.d, self.index, self.kind = policy, d, index, kind
        self.count, self.worst = 0, None

    def database(self, q, p, spot):
        need(-2**31 <= q < 2**31, 19)
        deviation = float(q) * self.d - p  # its sign says on which side of p the database value lies
        if abs(deviation) > 0 and not one_step(p / self.d, float(q)):
            self.count += 1
            if self.worst is None or abs(deviation) > abs(self.worst[0]):
                self.worst = deviation, p, q, spot
        return q

    def physical(self, c):
        unit = double_of(c.unit)
        need(positive(unit), 16)
        p = (float(c.value) if c.kind == form.INTEGER else double_of(c.value)) * unit
        need(math.isfinite(p), 17)
        return p

    def convert_physical(self, p, spot):
        need(math.isfinite(p), 17)
        s = p / self.d
        need(math.isfinite(s), 17)
        return self.database(rounded(self.policy, s), p, spot)

    def convert(self, c, field, axis, place=0):
        if c.kind == form.INTEGER and double_of(c.unit) == self.d:
            return c.value
        return self.convert_physical(self.physical(c), (field, axis, place))

    def point(self, p, field, place=0):
        return self.convert(p[0], field, X, place), self.convert(p[1], field, Y, place)

    def pair(self, p, field):
        return [self.convert_physical(p[axis], (field, axis, 0)) for axis in (X, Y)]

    def endpoint(self, origin, step, count, field, p):
        need(math.isfinite(p), 17)
        return self.database(origin + step * count, p, field)

    def entry(self):
        if not self.count:
            return []
        deviation, p, q, (field, axis, place) = self.worst
        entry = struct.pack(">IBBBHIdid", self.index, self.kind, field, axis, place, self.count, p, q, deviation)
        return [(abs(deviation), entry)]


# ---- records: write/mod.rs


def record(code, kind, data=b""):
    return struct.pack(">HBB", 4 + len(data), code, kind) + data


def words(code, *values):
    return record(code, 2, struct.pack(f">{len(values)}H", *values))


def bit_array(code, value):
    return record(code, 1, struct.pack(">H", value))


def longs(code, values):
    return record(code, 3, struct.pack(f">{len(values)}i", *values))


def string(code, s):
    return record(code, 6, s + bytes(len(s) % 2))


def xy(points):
    return longs(0x10, [q for p in points for q in p])


def is_name(s):
    return 1 <= len(s) <= 32 and re.fullmatch(rb"[A-Za-z0-9_?$]+", s) is not None


def layer_and_type(e):
    need(e.layer <= 255, 9)
    need(e.type <= 255, 9)


def tail(properties):
    parts = []
    for p in properties:
        need(1 <= p.attribute <= LAST_ATTRIBUTE, 27)
        need(len(p.value) <= LONGEST_VALUE, 10)
        parts.append(words(0x2b, p.attribute) + string(0x2c, p.value))
    return b"".join(parts) + record(0x11, 0)


def transform(e):
    magnification, degrees, reals = double_of(e.magnification), double_of(e.degrees), b""
    if magnification != 1:
        need(not magnification <= 0 or math.isinf(magnification), 13)
        reals += record(0x1b, 5, real8(magnification))
    if degrees != 0:
        reals += record(0x1c, 5, real8(degrees))
    return bit_array(0x1a, e.reflection << 15) + reals if reals or e.reflection else b""


def first(e, code):
    """An element's first record, and ELFLAGS and PLEX where it has them: the manual's, since gdsr has neither."""
    out = record(code, 0)
    if e.flags is not None:
        out += bit_array(0x26, e.flags)
    if e.plex is not None:
        out += longs(0x2f, [e.plex])
    return out


def outlined(e, c, points, code, type_code):
    layer_and_type(e)
    written = [c.point(p, POINT, k) for k, p in enumerate(points)]
    need(e.kind == form.NODE or written[0] == written[-1], 20)
    return first(e, code) + words(0x0d, e.layer) + words(type_code, e.type) + xy(written)


def shape(e, c):
    least, most, code, type_code = (4, 8191, 0x08, 0x0e) if e.kind == form.POLYGON else (1, 50, 0x15, 0x2a)
    need(least <= len(e.points) <= most, 8)
    return outlined(e, c, e.points, code, type_code)


def box(e, c):
    return outlined(e, c, form.box_points(e.first, e.second), 0x2d, 0x2e)


def path(e, c):
    need(2 <= len(e.points) <= 8191, 8)
    layer_and_type(e)
    out = first(e, 0x09) + words(0x0d, e.layer) + words(0x0e, e.type)
    if e.path_type != form.NO_PATH_TYPE:
        out += words(0x21, e.path_type)
    for code, field, length in ((0x0f, WIDTH, e.width), (0x30, BEGIN, e.begin), (0x31, END, e.end)):
        if length.kind != form.ABSENT:
            out += longs(code, [c.convert(length, field, NONE)])
    return out + xy([c.point(p, POINT, k) for k, p in enumerate(e.points)])


def text(e, c):
    layer_and_type(e)
    need(len(e.string) <= 512, 10)
    out = first(e, 0x0c) + words(0x0d, e.layer) + words(0x16, e.type) + bit_array(0x17, 4 * e.vertical + e.horizontal)
    return out + transform(e) + xy([c.point(e.origin, ORIGIN)]) + string(0x19, e.string)


def spacing(c, p):
    return (0.0, 0.0) if p[0].kind == form.ABSENT else (c.physical(p[0]), c.physical(p[1]))


def turned(a, b, sine, cosine):
    return mul_add(a, cosine, -(b * sine)), mul_add(a, sine, b * cosine)


def corners(e, c):
    """The three points of an array, in the order of the conversions in `write_reference_cell`."""
    sine, cosine = double_of(e.sine), double_of(e.cosine)
    need(-1 <= sine <= 1 and -1 <= cosine <= 1, 15)
    po = c.physical(e.origin[0]), c.physical(e.origin[1])
    o = c.pair(po, ORIGIN)
    column, row = spacing(c, e.column), spacing(c, e.row)
    pa, pb = turned(*column, sine, cosine), turned(*row, sine, cosine)
    a, b = c.pair(pa, COLUMN), c.pair(pb, ROW)
    points = [o]
    for field, count, step, p in ((COLUMN_END, e.columns, a, pa), (ROW_END, e.rows, b, pb)):
        points.append([c.endpoint(o[k], step[k], count, (field, k, 0), mul_add(p[k], float(count), po[k])) for k in (X, Y)])
    return points


def reference(e, c):
    need(is_name(e.name), 7)
    need(1 <= e.columns <= 32767 and 1 <= e.rows <= 32767, 11)
    need(e.columns == 1 or e.column[0].kind != form.ABSENT, 12)
    need(e.rows == 1 or e.row[0].kind != form.ABSENT, 12)
    single = e.columns == 1 and e.rows == 1
    out = first(e, 0x0a if single else 0x0b) + string(0x12, e.name) + transform(e)
    if single:
        return out + xy([c.point(e.origin, ORIGIN)])
    return out + words(0x13, e.columns, e.rows) + xy(corners(e, c))


WRITERS = {form.POLYGON: shape, form.PATH: path, form.TEXT: text, form.NODE: shape, form.REFERENCE: reference, form.BOX: box}


# ---- the cell


def leap(year):
    return year % 4 == 0 and year % 100 != 0 or year % 400 == 0


def is_date(year, month, day, hour, minute, second):
    if not (1 <= year <= 9999 and 1 <= month <= 12):
        return False
    days = (31, 29 if leap(year) else 28, 31, 30, 31, 30, 31, 31, 30, 31, 30, 31)[month - 1]
    return 1 <= day <= days and hour <= 23 and minute <= 59 and second <= 59


def write_block(policy, d, sheet, pair, k):
    try:
        e = form.read_element(sheet, pair, k)
        need(e.flags is None or e.flags <= 3, 26)
        c = Converter(policy, d, k - 1, e.kind)
        return WRITERS[e.kind](e, c) + tail(e.properties), c.entry()
    except form.Ill:
        raise Refused(5, k) from None
    except Refused as refused:
        raise Refused(refused.number, k) from None


def stamped(stamps):
    return not any(stamps) or is_date(*stamps[:6]) and is_date(*stamps[6:])


def write_structure(policy, d, sheet):
    """(structure, entries with their errors) of a cell from its 4 on, or Refused."""
    try:
        pairs = form.read_pairs(sheet)
        name, stamps = form.read_head(sheet, pairs[0])
    except form.Ill as ill:
        raise Refused(4 if ill.pairs else 5) from None
    need(stamped(stamps), 6)
    need(is_name(name), 7)
    parts, found = [words(0x05, *stamps), string(0x06, name)], []
    for k, pair in enumerate(pairs[1:], 1):
        part, entry = write_block(policy, d, sheet, pair, k)
        parts.append(part)
        found += entry
    return b"".join(parts) + record(0x07, 0), found


def check_call(policy, d, sheet):
    need(policy <= 3, 1)
    need(positive(d), 2)
    need(len(sheet) <= MAX_SHEET, 3)


def fitted(stream, found, output, report):
    """(stream, entries, greatest error) where both fit their buffers."""
    entries = [entry for _, entry in found]
    need(len(stream) <= output, 21)
    need(sum(map(len, entries)) <= report, 22)
    return stream, entries, max([error for error, _ in found], default=0.0)


def write_cell(policy, d, sheet, output=OUTPUT, report=REPORT):
    """(structure, entries, greatest error), or Refused."""
    check_call(policy, d, sheet)
    return fitted(*write_structure(policy, d, sheet), output, report)


# ---- the library: document 02, request 1, and `write_gds_head_to_file`


def units(user, d):
    need(positive(user), 24)
    try:
        return record(0x03, 5, real8(user) + real8(d))
    except Refused:
        raise Refused(24) from None


def library_front(d, sheet):
    """(HEADER, BGNLIB, LIBNAME and UNITS, the pairs of the cells)"""
    try:
        head, *cells = form.read_pairs(sheet)
        name, user, stamps = form.read_library_head(sheet, head)
    except form.Ill:
        raise Refused(23) from None
    need(stamped(stamps), 6)
    reals = units(double_of(user), d)
    need(len(name) <= LONGEST_NAME, 25)
    return words(0x00, 0x0258) + words(0x01, *stamps) + string(0x02, name) + reals, cells


def library(policy, d, sheet, output=LIBRARY_OUTPUT, report=LIBRARY_REPORT):
    """(file, entries, greatest error), or Refused with the cell."""
    check_call(policy, d, sheet)
    front, cells = library_front(d, sheet)
    parts, found = [front], []
    for k, (offset, length) in enumerate(cells):
        try:
            structure, entries = write_structure(policy, d, sheet[offset:offset + length])
        except Refused as refused:
            raise Refused(refused.number, refused.block, k) from None
        parts.append(structure)
        found += [(error, struct.pack(">I", k) + entry) for error, entry in entries]
    return fitted(b"".join(parts) + record(0x04, 0), found, output, report)


# ---- stored answers


def accepted_lines(stream, entries, greatest):
    return [f"ok {len(stream)} {len(entries)} {bits_of(greatest):016x}", stream.hex()] + [e.hex() for e in entries]


def call_of(given):
    """(policy, d, sheet)"""
    return given[0], struct.unpack(">d", given[1:FRONT])[0], given[FRONT:]


def answer(given):
    """The lines that the program prints."""
    if word := no_answer(CELL, given):
        return [word]
    try:
        return accepted_lines(*write_cell(*call_of(given)))
    except Refused as refused:
        return [f"no {refused.number} {refused.block}"]


def library_answer(given):
    """The lines of a stored library."""
    if word := no_answer(LIBRARY, given):
        return [word]
    try:
        return accepted_lines(*library(*call_of(given)))
    except Refused as refused:
        return [f"no {refused.number} {refused.cell} {refused.block}"]


JOBS = {CELL: answer, LIBRARY: library_answer}


def compare(path):
    """Whether a stored answer is not the model's."""
    cases, wrong = read_cases(path), 0
    for case in cases:
        found = JOBS[case.job](case.given)
        if found != case.lines:
            wrong += 1
            print(f"{case.name}: stored {case.lines[0]}, model {found[0]}")
    print(f"{len(cases)} cases, {wrong} differ")
    return wrong != 0


def main(words):
    called.no_option(words)
    if len(words) > 1:
        raise called.Wrong("it takes one file of cases, or none")
    if words:
        return compare(words[0])
    print("\n".join(answer(files.read_input(files.STANDARD))))


if __name__ == "__main__":
    called.run(main, __doc__)
