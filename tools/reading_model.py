#!/usr/bin/env python3
"""An independent model of reading a structure back to a cell sheet (document 02, request 8; ELFLAGS and PLEX: its request
5; text types and properties: its request 6), for stored results. A convenience, outside the proof.

It goes over the records once and looks at each as the papers say: first whether a well-formed record is there, then
whether the grammar has it there, then whether its data are refused. What an eight-byte real is worth is worked out over
exact fractions.

    reading_model.py [STRUCTURE]    reads the bytes of one structure, from a file or standard input, and prints `ok`,
                                    the sheet's length and the sheet in hex, or `no`, number and block

Exit status: 0 with a sheet or a refusal, 1 where the file cannot be read, 2 where it was called wrongly.
"""
import struct
from fractions import Fraction

import called
import model
from ravenvanity import files
from ravenvanity import sheet as form
from ravenvanity import show as stream

NO_RECORD, NOT_OF_GRAMMAR = "no_record", "not_of_grammar"
KINDS = {"BOUNDARY": form.POLYGON, "NODE": form.NODE, "PATH": form.PATH, "TEXT": form.TEXT, "SREF": form.REFERENCE, "AREF": form.REFERENCE,
         "BOX": form.BOX}
COUNTS = {"BOUNDARY": (4, 8191), "PATH": (2, 8191), "NODE": (1, 50)}
MOST_PROPERTIES, MOST_ELEMENTS = 65535, 16383
ONE, ZERO = form.bits_of(1.0), form.bits_of(0.0)


class Stop(Exception):
    """A fault: NO_RECORD, NOT_OF_GRAMMAR or a refusal's number; and its block."""

    def __init__(self, fault):
        super().__init__(fault)
        self.fault, self.block = fault, 0

    def number(self):
        return 28 if self.fault in (NO_RECORD, NOT_OF_GRAMMAR) else self.fault


def need(test, fault):
    if not test:
        raise Stop(fault)


# ---- what a record holds


def number(data):
    return int.from_bytes(data, "big")


def dropped(data):
    """A string without its one final zero byte."""
    return data[:-1] if data[-1:] == b"\0" else data


def double(data):
    """The double that equals eight bytes, a zero without its sign; none where no double does."""
    worth = stream.real8(data)
    nearest = float(worth)
    return nearest if Fraction(nearest) == worth else None


def integer(value):
    return form.Coordinate(form.INTEGER, value, ONE)


def point(p):
    return integer(p[0]), integer(p[1])


# ---- what a sheet holds of each record


def real_limit(name, data):
    value = double(data)
    need(value is not None, 29)
    need(name != "MAG" or value > 0, 13)
    try:
        model.real8(value)
    except model.Refused as refused:
        raise Stop(refused.number) from None


def points_limit(kind, points):
    if kind in COUNTS:
        need(COUNTS[kind][0] <= len(points) <= COUNTS[kind][1], 8)
    if kind == "BOUNDARY":
        need(points[0] == points[-1], 20)
    if kind == "BOX":  # how many points it has is no part of the grammar alone
        need(len(points) == 5 and points == form.box_points(points[0], points[2]), NOT_OF_GRAMMAR)


def limit(kind, name, data, place):
    """`kind` is the element's first record; `place` counts the elements before it, or the properties before."""
    if name in KINDS:
        need(place < MOST_ELEMENTS, 4)
    elif name == "BGNSTR":
        need(model.stamped(struct.unpack(">12H", data)), 6)
    elif name in ("STRNAME", "SNAME"):
        need(model.is_name(dropped(data)), 7)
    elif name == "ELFLAGS":
        need(number(data) <= 3, 26)
    elif name in ("LAYER", "DATATYPE", "TEXTTYPE", "NODETYPE", "BOXTYPE"):
        need(number(data) <= 255, 9)
    elif name == "PATHTYPE":
        need(number(data) <= 2, NOT_OF_GRAMMAR)
    elif name == "PRESENTATION":
        need(number(data) in (0, 1, 2, 4, 5, 6, 8, 9, 10), NOT_OF_GRAMMAR)
    elif name in ("MAG", "ANGLE"):
        real_limit(name, data)
    elif name == "COLROW":
        need(all(1 <= n <= 32767 for n in struct.unpack(">HH", data)), 11)
    elif name == "XY":
        points_limit(kind, stream.points(data))
    elif name == "STRING":
        need(len(dropped(data)) <= 512, 10)
    elif name == "PROPATTR":
        need(place < MOST_PROPERTIES, 5)
        need(1 <= number(data) <= model.LAST_ATTRIBUTE, 27)
    elif name == "PROPVALUE":
        need(len(dropped(data)) <= model.LONGEST_VALUE, 10)


# ---- the walk


class Walk:
    """The records of one structure in turn; `limited` where they are read to a sheet, and not for the grammar alone."""

    def __init__(self, data, limited):
        self.data, self.at, self.limited = data, 0, limited

    def peek(self):
        try:
            return stream.next_record(self.data, self.at)
        except stream.Damage:
            raise Stop(NO_RECORD) from None

    def take(self, wanted, kind=None, place=0):
        name, data = self.peek()
        need(name == wanted, NOT_OF_GRAMMAR)
        if self.limited:
            limit(kind, name, data, place)
        self.at += 4 + len(data)
        return data

    def take_if(self, wanted, kind, place=0):
        return self.take(wanted, kind, place) if self.peek()[0] == wanted else None

    def parts(self, kind):
        """The data of each record of an element, up to its properties."""
        found = {}
        for name in stream.ELEMENTS[kind]:
            wanted = name.rstrip("?")
            if wanted in ("MAG", "ANGLE") and found["STRANS"] is None:
                found[wanted] = None
                continue
            found[wanted] = self.take(wanted, kind) if wanted == name else self.take_if(wanted, kind)
            self.grammar(kind, wanted, found)
        return found

    def grammar(self, kind, name, found):
        data = found[name]
        if name == "STRANS" and data is not None:
            need(data in (b"\x80\0", b"\0\0"), NOT_OF_GRAMMAR)
        if name == "COLROW":
            need(0 not in struct.unpack(">HH", data), 11)
        if name == "XY" and kind in stream.POINTS:
            need(len(data) // 8 == stream.POINTS[kind], NOT_OF_GRAMMAR)
        if name == "XY" and kind == "AREF":
            found["steps"] = self.steps(stream.points(data), struct.unpack(">HH", found["COLROW"]))

    def steps(self, corners, counts):
        found = []
        for corner, count in zip(corners[1:], counts):
            for k in (0, 1):
                step, left = divmod(corner[k] - corners[0][k], count)
                need(left == 0 and (not self.limited or -2**31 <= step < 2**31), 30)
                found.append(step)
        return found[:2], found[2:]

    def properties(self, kind):
        found = []
        while self.take_if("ENDEL", kind) is None:
            attribute = number(self.take("PROPATTR", kind, len(found)))
            found.append(form.Property(attribute, dropped(self.take("PROPVALUE", kind, len(found)))))
        return found

    def structure(self):
        stamps = self.take("BGNSTR")
        name = self.take("STRNAME")
        elements = []
        while self.peek()[0] != "ENDSTR":
            kind = self.peek()[0]
            need(kind in KINDS, NOT_OF_GRAMMAR)
            try:
                self.take(kind, kind, len(elements))
                found = self.parts(kind)
                found["properties"] = self.properties(kind)
            except Stop as stop:
                stop.block = len(elements) + 1
                raise
            elements.append((kind, found))
        self.take("ENDSTR")
        need(self.at == len(self.data), NOT_OF_GRAMMAR)
        return stamps, name, elements


# ---- the cell


def transform(found):
    if found["STRANS"] is None:
        return 0, ONE, ZERO
    reals = [form.bits_of(double(found[name])) if found[name] is not None else missing for name, missing in (("MAG", ONE), ("ANGLE", ZERO))]
    return (found["STRANS"][0] >> 7, *reals)


def length(data):
    return form.NOTHING if data is None else integer(stream.longs(data)[0])


def body(kind, found):
    """An element without its options."""
    points, properties = [point(p) for p in stream.points(found["XY"])], found["properties"]
    if kind in ("BOUNDARY", "NODE"):
        kind_of_type = "DATATYPE" if kind == "BOUNDARY" else "NODETYPE"
        return form.Shape(KINDS[kind], number(found["LAYER"]), number(found[kind_of_type]), points, properties)
    if kind == "BOX":
        return form.Box(form.BOX, number(found["LAYER"]), number(found["BOXTYPE"]), points[0], points[2], properties)
    if kind == "PATH":
        path_type = form.NO_PATH_TYPE if found["PATHTYPE"] is None else number(found["PATHTYPE"])
        lengths = [length(found[name]) for name in ("WIDTH", "BGNEXTN", "ENDEXTN")]
        return form.Path(form.PATH, number(found["LAYER"]), number(found["DATATYPE"]), path_type, *lengths, points, properties)
    if kind == "TEXT":
        presentation = number(found["PRESENTATION"] or b"\0")
        return form.Text(form.TEXT, number(found["LAYER"]), number(found["TEXTTYPE"]), presentation // 4, presentation % 4, *transform(found),
                         points[0], dropped(found["STRING"]), properties)
    columns, rows = struct.unpack(">HH", found["COLROW"]) if kind == "AREF" else (1, 1)
    spacings = [2 * [form.NOTHING]] * 2 if columns == rows == 1 else [point(p) for p in found["steps"]]
    return form.Reference(form.REFERENCE, dropped(found["SNAME"]), columns, rows, *transform(found), ZERO, ONE, points[0], *spacings, properties)


def element(kind, found):
    flags, plex = found["ELFLAGS"], found["PLEX"]
    return body(kind, found)._replace(flags=None if flags is None else number(flags), plex=None if plex is None else stream.longs(plex)[0])


def read(data):
    """("no", number, block), or ("ok", sheet)."""
    try:
        stamps, name, elements = Walk(data, True).structure()
    except Stop as stop:
        return "no", stop.number(), stop.block
    cell = form.Cell(dropped(name), struct.unpack(">12H", stamps), [element(*e) for e in elements])
    made = form.sheet_bytes(cell)
    return ("ok", made) if len(made) <= model.MAX_SHEET else ("no", 3, 0)


def grammar_fault(data):
    """The fault that the grammar alone finds: NO_RECORD, NOT_OF_GRAMMAR, 11 or 30; none where it finds a structure."""
    try:
        Walk(data, False).structure()
    except Stop as stop:
        return stop.fault
    return None


def main(words):
    called.no_option(words)
    if len(words) > 1:
        raise called.Wrong("it takes one structure")
    answer = read(files.read_input(words[0] if words else files.STANDARD))
    print(f"ok {len(answer[1])} {answer[1].hex()}" if answer[0] == "ok" else "no {} {}".format(*answer[1:]))


if __name__ == "__main__":
    called.run(main, __doc__)
