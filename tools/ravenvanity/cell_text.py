"""The text form of a cell, read and written; docs/COMMAND.md describes it."""
import functools
import math
import re

from . import progress
from . import sheet as form
from .sheet import DOUBLE, INTEGER, NOTHING, Coordinate, Property, bits_of, double_of

ELEMENTS = {"polygon": form.POLYGON, "path": form.PATH, "text": form.TEXT, "node": form.NODE, "reference": form.REFERENCE, "box": form.BOX}
WORDS = {kind: word for word, kind in ELEMENTS.items()}
MAX_STRING = MAX_COUNT = 65535
MAX_ELEMENTS = form.MAX_PAIRS - 1
DECIMAL = re.compile(r"[+-]?(\d+\.?\d*|\.\d+)([eE][+-]?\d+)?", re.ASCII)
WHOLE = re.compile(r"[+-]?\d+", re.ASCII)
BITS = re.compile(r"0x[0-9a-fA-F]{16}", re.ASCII)
PIECE = re.compile(r'\s*(?:(#.*)|"((?:[^"\\]|\\.)*)"|([^\s"#]+))', re.DOTALL)
ESCAPE = re.compile(r'\\(x[0-9a-fA-F]{2}|["\\]|.?)', re.DOTALL)


class Bad(Exception):
    """A line that is not of the text form."""

    def __init__(self, line, why):
        super().__init__(f"line {line}: {why}")


class Wrong(Exception):
    """A fault in a line whose number is not known here."""


# ---- tokens


def unescaped(body):
    out, at = b"", 0
    for found in ESCAPE.finditer(body):
        out += body[at:found.start()].encode() + one_escape(found.group(1))
        at = found.end()
    out += body[at:].encode()
    if len(out) > MAX_STRING:
        raise Wrong(f"a string of {len(out)} bytes; a sheet's strings have at most {MAX_STRING:,}")
    return out


def one_escape(what):
    if what in ('"', "\\"):
        return what.encode()
    if len(what) == 3:
        return bytes([int(what[1:], 16)])
    raise Wrong(f'unknown escape \\{what}: there are \\" \\\\ and \\xHH')


def pieces(line):
    """The words (str) and strings (bytes) of a line."""
    found, at = [], 0
    line = line.rstrip()
    while at < len(line):
        match = PIECE.match(line, at)
        if not match:
            raise Wrong('a string has no closing "')
        comment, body, word = match.groups()
        at = match.end()
        if comment is None:
            found.append(word if body is None else unescaped(body))
    return found


def number(token, least, most, what):
    if isinstance(token, bytes) or not WHOLE.fullmatch(token):
        raise Wrong(f"{what} is a whole number, not {shown(token)}")
    value = int(token) if len(token) < 40 else most + 1
    if not least <= value <= most:
        raise Wrong(f"{what} is from {least} to {most}, not {token}")
    return value


def double(token, what):
    """The bits of a double."""
    if isinstance(token, str):
        if DECIMAL.fullmatch(token):
            if math.isinf(float(token)):
                raise Wrong(f"{what} {token} is beyond the doubles; infinity is written inf")
            return bits_of(float(token))
        if BITS.fullmatch(token):
            return int(token, 16)
        if token in ("inf", "-inf", "nan"):
            return bits_of(float(token))
    raise Wrong(f"{what} is a decimal, inf, -inf, nan, or 0x and 16 hex digits, not {shown(token)}")


@functools.lru_cache(maxsize=64)  # a layout has few units, and each stands at every coordinate
def unit_bits(token):
    return double(token, "a unit")


def coordinate(token):
    value, mark, unit = token.partition("@") if isinstance(token, str) else ("", "", "")
    if not mark:
        raise Wrong(f"a coordinate is VALUE@UNIT, not {shown(token)}")
    if WHOLE.fullmatch(value):
        return Coordinate(INTEGER, number(value, -2**31, 2**31 - 1, "an integer coordinate"), unit_bits(unit))
    return Coordinate(DOUBLE, double(value, "a coordinate"), unit_bits(unit))


def shown(token):
    return "a string" if isinstance(token, bytes) else token if len(token) < 60 else token[:57] + "..."


def arity(tokens, *counts):
    if len(tokens) - 1 not in counts:
        raise Wrong(f"`{tokens[0]}` takes {' or '.join(map(str, counts))} {'value' if counts == (1,) else 'values'}, not {len(tokens) - 1}")


def string(token, what):
    if not isinstance(token, bytes):
        raise Wrong(f'{what} is a string in "", not {shown(token)}')
    return token


# ---- reading lines


def a_point(tokens):
    arity(tokens, 2)
    return coordinate(tokens[1]), coordinate(tokens[2])


def a_spacing(tokens):
    return (NOTHING, NOTHING) if tokens[1:] == ["absent"] else a_point(tokens)


def a_length(tokens):
    arity(tokens, 1)
    return NOTHING if tokens[1] == "absent" else coordinate(tokens[1])


def a_double(tokens):
    arity(tokens, 1)
    return double(tokens[1], tokens[0])


def a_number(least, most):
    def read(tokens):
        arity(tokens, 1)
        return number(tokens[1], least, most, tokens[0])
    return read


# flags above 3 are refused, but a sheet can have them
OPTIONS = {"flags": ("flags", a_number(0, 65535)), "plex": ("plex", a_number(-2**31, 2**31 - 1))}
CODE = a_number(0, 2)
TURNED = {"at": ("origin", a_point), "reflection": ("reflection", a_number(0, 1)), "magnification": ("magnification", a_double),
          "degrees": ("degrees", a_double)}
# of each kind its lines that stand once at most, in the order in which they are written
DETAILS = {
    "polygon": OPTIONS,
    "node": OPTIONS,
    "path": {**OPTIONS, "pathtype": ("path_type", CODE), "width": ("width", a_length), "begin": ("begin", a_length), "end": ("end", a_length)},
    "text": {**OPTIONS, **TURNED, "vertical": ("vertical", CODE), "horizontal": ("horizontal", CODE)},
    "reference": {**OPTIONS, **TURNED, "column": ("column", a_spacing), "row": ("row", a_spacing), "sine": ("sine", a_double), "cosine": ("cosine", a_double)},
    "box": {**OPTIONS, "first": ("first", a_point), "second": ("second", a_point)},
}
NEEDED = {"text": ("at",), "reference": ("at",), "box": ("first", "second")}  # lines that must be there
LINES = {"point", "property", *(word for lines in DETAILS.values() for word in lines)}
ONE, NOUGHT = bits_of(1.0), bits_of(0.0)
ABOUT = {"reflection": 0, "magnification": ONE, "degrees": NOUGHT}
MISSING = {
    "polygon": {},
    "node": {},
    "path": {"path_type": form.NO_PATH_TYPE, "width": NOTHING, "begin": NOTHING, "end": NOTHING},
    "text": {**ABOUT, "vertical": 0, "horizontal": 0},
    "reference": {**ABOUT, "sine": NOUGHT, "cosine": ONE, "column": (NOTHING, NOTHING), "row": (NOTHING, NOTHING)},
    "box": {},
}
MADE = {"polygon": form.Shape, "node": form.Shape, "path": form.Path, "text": form.Text, "reference": form.Reference, "box": form.Box}
WITH_POINTS = ("polygon", "node", "path")


class Element:
    """An element while its lines are read."""

    def __init__(self, tokens, line):
        self.word, self.line, self.points, self.properties = tokens[0], line, [], []
        self.fields = {"kind": ELEMENTS[self.word]}
        if self.word == "reference":
            arity(tokens, 1, 3)
            counts = tokens[2:] or ["1", "1"]
            self.fields.update(name=string(tokens[1], "the called name"), columns=number(counts[0], 0, 2**32 - 1, "columns"),
                               rows=number(counts[1], 0, 2**32 - 1, "rows"))
            return
        arity(tokens, 3 if self.word == "text" else 2)
        self.fields.update(layer=number(tokens[1], 0, 65535, "a layer"), type=number(tokens[2], 0, 65535, "a type"))
        if self.word == "text":
            self.fields["string"] = string(tokens[3], "the text")

    def take(self, tokens):
        word = tokens[0]
        if word == "point" and self.word in WITH_POINTS:
            self.points.append(a_point(tokens))
            if len(self.points) > MAX_COUNT:
                raise Wrong(f"a sheet's element has at most {MAX_COUNT:,} points")
        elif word == "property":
            arity(tokens, 2)
            self.properties.append(Property(number(tokens[1], 0, 65535, "an attribute"), string(tokens[2], "a property value")))
            if len(self.properties) > MAX_COUNT:
                raise Wrong(f"a sheet's element has at most {MAX_COUNT:,} properties")
        else:
            self.take_once(word, tokens)

    def take_once(self, word, tokens):
        if word not in LINES:
            raise Wrong(f"there is no line `{shown(word)}` in the text form")
        if word not in DETAILS[self.word]:
            raise Wrong(f"`{word}` is no line of a {self.word}")
        field, read = DETAILS[self.word][word]
        if field in self.fields:
            raise Wrong(f"a second `{word}` in one {self.word}")
        self.fields[field] = read(tokens)

    def turn(self, sines):
        """Sine and cosine of a turned array that has no lines for them, as `sines` gives them."""
        given = [word for word in ("sine", "cosine") if word in self.fields]
        degrees = self.fields.get("degrees", NOUGHT)
        if not is_array(self.fields["columns"], self.fields["rows"]) or len(given) == 2 or not given and double_of(degrees) == 0:
            return {}
        if given:
            raise Bad(self.line, f"this array has a `{given[0]}` line alone; `sine` and `cosine` stand together")
        return dict(zip(("sine", "cosine"), sines(self.line, degrees)))

    def made(self, sines):
        fields = {**MISSING[self.word], **self.fields, "properties": self.properties}
        if self.word == "reference":
            fields.update(self.turn(sines))
        for word in NEEDED.get(self.word, ()):
            if DETAILS[self.word][word][0] not in fields:
                raise Bad(self.line, f"this {self.word} has no `{word}` line")
        if self.word in WITH_POINTS:
            fields["points"] = self.points
        return MADE[self.word](**fields)


def is_array(columns, rows):
    return (columns, rows) != (1, 1)


def is_quarter(degrees):
    """Whether these degrees have the same sine and cosine on all machines: 0, 1 and -1."""
    return double_of(degrees) % 90 == 0


def machine_turn(degrees):
    """(sine, cosine), each as bits, as this machine has them."""
    x = double_of(degrees)
    if is_quarter(degrees):
        quarters = int(x // 90) % 4
        return bits_of((0.0, 1.0, 0.0, -1.0)[quarters]), bits_of((1.0, 0.0, -1.0, 0.0)[quarters])
    return bits_of(math.sin(math.radians(x))), bits_of(math.cos(math.radians(x)))


def demanded(line, degrees):
    """What a text without sine and cosine is told."""
    if not math.isfinite(double_of(degrees)):
        raise Bad(line, "this array's degrees are not finite, and have no sine: give it the lines `sine` and `cosine`")
    sine, cosine = map(double_text, machine_turn(degrees))
    doubt = "" if is_quarter(degrees) else ", whose last bit may differ on another machine"
    raise Bad(line, f"this array is turned by {double_text(degrees)} degrees: give it the lines `sine` and `cosine`, the two doubles that every shop "
              f"is to use (here: sine {sine}, cosine {cosine}; --machine-sines takes these{doubt})")


def stamp_numbers(tokens):
    if tokens[1:] == ["zero"]:
        return [0] * 12
    arity(tokens, 12)
    return [number(t, 0, 65535, "a stamp number") for t in tokens[1:]]


class CellReader:
    def __init__(self):
        self.name, self.stamps, self.elements = None, None, []

    def take(self, tokens, line):
        word = tokens[0]
        if (self.name is None) != (word == "cell"):
            raise Wrong(f"the first line must be `cell`, not `{shown(word)}`" if self.name is None else "a second `cell`")
        if word == "cell":
            arity(tokens, 1)
            self.name = string(tokens[1], "the cell's name")
        elif word == "stamps":
            self.take_stamps(tokens)
        elif word in ELEMENTS:
            if len(self.elements) == MAX_ELEMENTS:
                raise Wrong(f"a sheet has at most {MAX_ELEMENTS:,} elements")
            self.elements.append(Element(tokens, line))
        elif self.elements:
            self.elements[-1].take(tokens)
        elif word in LINES:
            raise Wrong(f"`{word}` before the first element")
        else:
            raise Wrong(f"there is no line `{shown(word)}` in the text form")

    def take_stamps(self, tokens):
        if self.stamps is not None or self.elements:
            raise Wrong("`stamps` stands once, before the first element")
        self.stamps = stamp_numbers(tokens)

    def made(self, sines):
        return form.Cell(self.name, self.stamps or [0] * 12, [e.made(sines) for e in self.elements])


def read_lines(text, reader):
    """Hands a reader the pieces of each line, with its number; Bad where it takes one for Wrong. The last line's number."""
    line, lines = 1, text.split("\n")
    for line, content in enumerate(progress.track(lines, len(lines), "reading the text"), 1):
        try:
            tokens = pieces(content)
            if tokens and isinstance(tokens[0], bytes):
                raise Wrong("a line starts with a word, not with a string")
            if tokens:
                reader.take(tokens, line)
        except Wrong as wrong:
            raise Bad(line, str(wrong)) from None
    return line


def read_cell(text, sines=demanded):
    """The cell of a text; Bad with the line where it fails. `sines` gives a turned array's sine and cosine where it has no lines for them."""
    reader = CellReader()
    line = read_lines(text, reader)
    if reader.name is None:
        raise Bad(line, "there is no `cell` line")
    return reader.made(sines)


# ---- writing lines


def quoted(s):
    return '"' + "".join(chr(b) if 32 <= b < 127 and b not in b'"\\' else f"\\x{b:02x}" for b in s) + '"'


def double_text(bits):
    x = double_of(bits)
    return f"0x{bits:016x}" if math.isnan(x) else repr(x)


def coordinate_text(c):
    value = str(c.value) if c.kind == INTEGER else double_text(c.value)
    return f"{value}@{double_text(c.unit)}"


def point_text(p):
    return " ".join(map(coordinate_text, p))


def element_lines(e):
    word = WORDS[e.kind]
    if word == "reference":
        yield f"reference {quoted(e.name)} {e.columns} {e.rows}"
    else:
        yield f"{word} {e.layer} {e.type}" + (f" {quoted(e.string)}" if word == "text" else "")
    turned = word == "reference" and is_array(e.columns, e.rows) and (double_of(e.degrees) != 0 or (e.sine, e.cosine) != (NOUGHT, ONE))
    for line, (field, _) in DETAILS[word].items():
        value = getattr(e, field)
        if value == MISSING[word].get(field) and not (turned and field in ("sine", "cosine")):
            continue
        if isinstance(value, Coordinate):
            yield f"  {line} {coordinate_text(value)}"
        elif isinstance(value, tuple):
            yield f"  {line} {point_text(value)}"
        else:
            yield f"  {line} {double_text(value) if line in ('magnification', 'degrees', 'sine', 'cosine') else value}"
    for p in getattr(e, "points", ()):
        yield f"  point {point_text(p)}"
    for p in e.properties:
        yield f"  property {p.attribute} {quoted(p.value)}"


def stamps_line(stamps):
    return "stamps " + (" ".join(map(str, stamps)) if any(stamps) else "zero")


def cell_lines(cell):
    """The lines of a cell's text."""
    yield f"cell {quoted(cell.name)}"
    yield stamps_line(cell.stamps)
    for e in progress.track(cell.elements, len(cell.elements), "writing the text"):
        yield from element_lines(e)
