"""A GDSII structure, or one structure of a library file, as an SVG picture.

The y axis points upwards, and a grey cross marks the origin. Layers have colours, which the list beside the picture shows.
A path has its width, which is magnified with its structure unless it is negative; path type 1 ends round, 2 square, all
others flat; a path of width 0, or with none, is a thin line. Extensions of paths are not drawn. A text is its string at its
place, in letters of one size, not turned; a node is a dot at each point; a box is its outline in a line of two pixels, not
filled as polygons are; a polygon or a box without extent is a cross. ELFLAGS and PLEX change nothing in the picture. A called
structure that is in the file is drawn in its place: reflected, magnified, turned, then moved; of two of one name the first
is meant. Where it is not in the file, or calls itself, an instance is a cross with its name, and an array the outlines of
its instances: each is the field that one column step and one row step span, with a dot at the instance's place. An array of
one row or column has no second step, and its fields are square.

The picture's own numbers are pixels from its corner, so that a browser draws a plate of decimetres as well as a contact.
The work is bounded: an array of more than 1,024 instances is one outline with its counts, a call more than 64 deep is a
cross, and after 100,000 points, references and instances counted with them, nothing more is drawn. What is left out is
told.
"""
import colorsys
import math
import struct
from html import escape

from . import progress
from .cell_text import quoted
from .inputs import Unreadable, raw
from .show import Walk, longs, points, real8

PALETTE = ("#1f77b4", "#d62728", "#2ca02c", "#9467bd", "#ff7f0e", "#17becf", "#8c564b", "#e377c2", "#bcbd22", "#393b79")
MOST_INSTANCES, MOST_POINTS, MOST_DEEP, NEAREST, FARTHEST = 1024, 100000, 64, 1e-100, 1e100
SIZE, LETTER = 800, 20  # the longer side, and a letter, in pixels
MOST_LISTED, MOST_LETTERS = 40, 40  # layers beside the picture; letters of words in it
CAPS = {1: "round", 2: "square"}
SHAPES = {"BOUNDARY": "polygon", "NODE": "node", "BOX": "box"}
LAYERED = ("path", "text", *SHAPES.values())
NO_TURN = (1.0, 0.0, 0.0, 1.0, 0.0, 0.0)


class Fault(Unreadable):
    """There is nothing to draw, and why."""


# ---- turning and moving: x' = a x + c y + e, y' = b x + d y + f


def after(outer, inner):
    """First the inner, then the outer."""
    a, b, c, d, e, f = outer
    g, h, i, j, k, l = inner
    return (a * g + c * h, b * g + d * h, a * i + c * j, b * i + d * j, a * k + c * l + e, b * k + d * l + f)


def placed(turn, point):
    a, b, c, d, e, f = turn
    return a * point[0] + c * point[1] + e, b * point[0] + d * point[1] + f


def transform(found, origin):
    """What a reference does to its structure: reflected about the x axis, magnified, turned, moved."""
    magnification = float(real8(found["MAG"])) if "MAG" in found else 1.0
    angle = math.radians(float(real8(found["ANGLE"])) % 360) if "ANGLE" in found else 0.0
    sine, cosine = magnification * math.sin(angle), magnification * math.cos(angle)
    side = -1.0 if found.get("STRANS", b"\0\0")[0] else 1.0
    return cosine, sine, -side * sine, side * cosine, float(origin[0]), float(origin[1])


# ---- a structure as shapes


def number(data):
    return int.from_bytes(data, "big")


class Drawing:
    """The shapes of a structure, those of the called ones in their places."""

    def __init__(self, structures):
        self.structures = {}
        for name, elements in structures:
            self.structures.setdefault(name, elements)
        self.shapes, self.points, self.left_out, self.box = [], 0, {}, None

    def leave_out(self, what):
        self.left_out[what] = self.left_out.get(what, 0) + 1

    def spent(self, count, what):
        """Whether there is no more to be drawn; else so many points more are."""
        if self.points >= MOST_POINTS:
            self.leave_out(f"{what} after {MOST_POINTS:,} points")
            return True
        self.points += count
        return False

    def reach(self, at, margin):
        if not max(abs(at[0]), abs(at[1]), margin) < FARTHEST:
            raise Fault(f"a place or a width is beyond {FARTHEST:g}: magnifications multiply")
        left, low, right, high = self.box or (*at, *at)
        self.box = min(left, at[0] - margin), min(low, at[1] - margin), max(right, at[0] + margin), max(high, at[1] + margin)

    def add(self, kind, places, layer=0, margin=0.0, **others):
        if len(readable(others.get("string", b""))) > MOST_LETTERS:
            self.leave_out(f"words after {MOST_LETTERS} letters")
        for at in places:
            self.reach(at, margin)
        self.shapes.append((kind, places, layer, others))

    def structure(self, elements, turn, above):
        for kind, found in elements:
            progress.tick("drawing", min(self.points, MOST_POINTS), MOST_POINTS)
            if kind in ("SREF", "AREF"):
                self.reference(kind, found, turn, above)
            elif not self.spent(max(1, len(found["XY"]) // 8), "elements"):
                self.element(kind, found, turn)

    def element(self, kind, found, turn):
        places, layer = [placed(turn, p) for p in points(found["XY"])], number(found["LAYER"])
        if not places:
            self.leave_out("elements without points")
        elif kind == "PATH":
            if "BGNEXTN" in found or "ENDEXTN" in found:
                self.leave_out("paths' extensions")
            width = longs(found["WIDTH"])[0] if "WIDTH" in found else 0
            width = -width if width < 0 else width * math.hypot(turn[0], turn[1])
            self.add("path", places, layer, width, width=width, cap=CAPS.get(number(found.get("PATHTYPE", b"")), "butt"))
        elif kind == "TEXT":
            if "STRANS" in found:
                self.leave_out("texts' own turning, reflection and magnification")
            presentation = number(found.get("PRESENTATION", b""))
            self.add("text", places, layer, string=found["STRING"].rstrip(b"\0"), vertical=presentation >> 2 & 3, horizontal=presentation & 3)
        else:
            self.add(SHAPES[kind], places, layer)

    def reference(self, kind, found, turn, above):
        if self.spent(1, "references"):
            return
        name, corners = found["SNAME"].rstrip(b"\0"), points(found["XY"])
        columns, rows = struct.unpack(">HH", found["COLROW"]) if kind == "AREF" else (1, 1)
        if columns * rows > MOST_INSTANCES:
            self.leave_out(f"arrays of over {MOST_INSTANCES:,} instances, but for their outlines")
            self.outline(name, corners, (columns, rows), turn)
            return
        steps = [[(corner[k] - corners[0][k]) // count for k in (0, 1)] for corner, count in zip(corners[1:], (columns, rows))] or [[0, 0]] * 2
        fields = name not in self.structures or name in above
        if kind == "AREF" and fields:
            self.leave_out("arrays of structures that are not in the file, or call themselves, but for the outlines of their instances")
        for i in range(columns):
            for j in range(rows):
                at = [corners[0][k] + i * steps[0][k] + j * steps[1][k] for k in (0, 1)]
                if kind == "AREF" and fields:
                    self.field(name if i == j == 0 else b"", at, steps, turn)
                else:
                    self.instance(name, after(turn, transform(found, at)), above)

    def field(self, name, at, steps, turn):
        """The outline of an instance whose structure is not drawn."""
        if self.spent(1, "instances"):
            return
        column, row = [step if any(step) else None for step in steps]
        column = column or ([row[1], -row[0]] if row else [0, 0])
        row = row or [-column[1], column[0]]
        corners = at, [at[k] + column[k] for k in (0, 1)], [at[k] + column[k] + row[k] for k in (0, 1)], [at[k] + row[k] for k in (0, 1)]
        self.add("field", [placed(turn, p) for p in corners], string=name)

    def instance(self, name, turn, above):
        if self.spent(1, "instances"):
            return
        if name in self.structures and name not in above and len(above) <= MOST_DEEP:
            self.structure(self.structures[name], turn, above | {name})
            return
        self.leave_out("structures that are not in the file" if name not in self.structures else
                       "structures that call themselves" if name in above else f"structures called more than {MOST_DEEP} deep")
        self.add("cross", [placed(turn, (0, 0))], string=name)

    def outline(self, name, corners, counts, turn):
        first, column, row = corners
        far = column[0] + row[0] - first[0], column[1] + row[1] - first[1]
        words = b"%d x %d of %s" % (*counts, name)
        self.add("outline", [placed(turn, p) for p in (first, column, far, row)], string=words)


# ---- the picture


class Frame:
    """Where places come to lie, in pixels from the picture's corner."""

    def __init__(self, box):
        left, low, right, high = box
        side = max(right - left, high - low)
        margin = side / 20 if side > NEAREST else 1.0
        self.left, self.high, self.pixels = left - margin, high + margin, SIZE / (side + 2 * margin)
        self.width, self.height = ((extent + 2 * margin) * self.pixels for extent in (right - left, high - low))

    def spot(self, at):
        return (at[0] - self.left) * self.pixels, (self.high - at[1]) * self.pixels


def framed(drawing):
    """The frame; the origin is in it unless that more than trebles it."""
    box = drawing.box or (0.0, 0.0, 0.0, 0.0)
    wide = min(box[0], 0.0), min(box[1], 0.0), max(box[2], 0.0), max(box[3], 0.0)
    side, wide_side = (max(b[2] - b[0], b[3] - b[1]) for b in (box, wide))
    if side > 0 and wide_side > 3 * side:
        drawing.leave_out("the origin, which lies far off")
        return Frame(box)
    return Frame(wide)


def pair(spot):
    return f"{spot[0]:.2f},{spot[1]:.2f}"


def readable(string):
    """A string as its characters, or where it has none for some bytes as the text form has it."""
    try:
        text = string.decode("utf-8")
    except UnicodeDecodeError:
        text = ""
    return text if text.isprintable() and (text or not string) else quoted(string)[1:-1]


def colour_of(layer):
    """The palette's, then hues far from one another."""
    if layer < len(PALETTE):
        return PALETTE[layer]
    red, green, blue = colorsys.hls_to_rgb(layer * 0.381966 % 1, 0.42, 0.65)
    return f"#{round(255 * red):02x}{round(255 * green):02x}{round(255 * blue):02x}"


def shortened(words):
    return words if len(words) <= MOST_LETTERS else f"{words[:MOST_LETTERS]}\u2026"


def words_of(kind, others):
    """(words, anchor, how far they are moved down in letters) beside a shape, if it has any."""
    words = shortened(readable(others.get("string", b"")))
    if kind == "text":
        return words, ("start", "middle", "end", "end")[others["horizontal"]], (0.75, 0.35, 0.0, 0.0)[others["vertical"]]
    return words, "start", -0.6 if kind == "cross" else -0.3


def word_lines(kind, spot, colour, others):
    words, anchor, shift = words_of(kind, others)
    if words:
        yield (f'<text x="{spot[0]:.2f}" y="{spot[1] + shift * LETTER:.2f}" font-size="{LETTER}" text-anchor="{anchor}" fill="{colour}">'
               f"{escape(words)}</text>")


def shape_lines(kind, spots, colour, others, pixels):
    joined = " ".join(map(pair, spots))
    width = others.get("width", 0.0) * pixels
    if kind in ("polygon", "box", "path") and len(set(map(pair, spots))) == 1 and (width <= 0.5 or others["cap"] == "butt"):
        yield cross(spots[0], LETTER / 4, colour)
    elif kind == "polygon":
        yield f'<polygon points="{joined}" fill="{colour}" fill-opacity="0.35" stroke="{colour}" stroke-width="1"/>'
    elif kind == "box":
        yield f'<polygon points="{joined}" fill="none" stroke="{colour}" stroke-width="2"/>'
    elif kind == "path":
        how = f'stroke-opacity="0.5" stroke-width="{width:.2f}" stroke-linecap="{others["cap"]}"' if width > 0.5 else 'stroke-width="1"'
        yield f'<polyline points="{joined}" fill="none" stroke="{colour}" {how}/>'
    elif kind == "node":
        for x, y in spots:
            yield f'<circle cx="{x:.2f}" cy="{y:.2f}" r="{LETTER / 4}" fill="{colour}"/>'
    elif kind in ("outline", "field"):
        yield f'<polygon points="{joined}" fill="none" stroke="#555" stroke-dasharray="4" stroke-width="1"/>'
        if kind == "field":
            yield f'<circle cx="{spots[0][0]:.2f}" cy="{spots[0][1]:.2f}" r="{LETTER / 8}" fill="#555"/>'
    elif kind == "cross":
        yield cross(spots[0], LETTER / 2, "#555")


def cross(spot, arm, colour):
    x, y = spot
    return f'<path d="M{x - arm:.2f},{y:.2f}H{x + arm:.2f}M{x:.2f},{y - arm:.2f}V{y + arm:.2f}" stroke="{colour}" stroke-width="1"/>'


def overhang(drawing, frame):
    """How far words reach beyond the frame to the left and to the right."""
    left, right = 0.0, frame.width
    for kind, places, _, others in drawing.shapes:
        words, anchor, _ = words_of(kind, others)
        length, x = 0.6 * LETTER * len(words), frame.spot(places[0])[0]
        start = x - length * {"start": 0.0, "middle": 0.5, "end": 1.0}[anchor]
        left, right = min(left, start), max(right, start + length)
    return left, right


def listed(drawing):
    """(words, colour) for the list of layers."""
    layers = sorted({layer for kind, _, layer, _ in drawing.shapes if kind in LAYERED})
    return [(f"layer {layer}", colour_of(layer)) for layer in layers[:MOST_LISTED]] + [("and others", "#555")] * bool(layers[MOST_LISTED:])


def list_lines(words, left):
    for k, (word, colour) in enumerate(words):
        y = 1.5 * (k + 1) * LETTER
        yield f'<rect x="{left:.2f}" y="{y - LETTER:.2f}" width="{LETTER}" height="{LETTER}" fill="{colour}" fill-opacity="0.6"/>'
        yield f'<text x="{left + 1.4 * LETTER:.2f}" y="{y - 0.1 * LETTER:.2f}" font-size="{LETTER}" fill="#000">{word}</text>'


def picture(drawing, name):
    frame, words = framed(drawing), listed(drawing)
    left, right = overhang(drawing, frame)
    width, height = math.ceil(right - left + 7 * LETTER), math.ceil(max(frame.height, 1.5 * (len(words) + 1) * LETTER))
    yield (f'<svg xmlns="http://www.w3.org/2000/svg" width="{width}" height="{height}" '
           f'viewBox="{left:.2f} 0 {width} {height}" font-family="sans-serif">')
    yield f"<title>{escape(readable(name))}</title>"
    yield f'<rect x="{left:.2f}" y="0" width="{width}" height="{height}" fill="#fff"/>'
    for kind, places, layer, others in drawing.shapes:
        spots, colour = [frame.spot(at) for at in places], colour_of(layer) if kind in LAYERED else "#555"
        yield from shape_lines(kind, spots, colour, others, frame.pixels)
        yield from word_lines(kind, spots[0], colour, others)
    yield cross(frame.spot((0.0, 0.0)), LETTER, "#777")
    yield from list_lines(words, right)
    yield "</svg>"


# ---- the stream


def stream_of(data):
    """The stream in an input; of the program's lines it is the second."""
    if data[:3] in (b"ok ", b"no ") or data.strip() in (b"short", b"long"):
        lines = data.split(b"\n")
        if not lines[0].startswith(b"ok ") or len(lines) < 2:
            raise Fault(f"there is no stream to draw: {lines[0][:60].decode('ascii', 'replace')}")
        data = lines[1]
    return raw(data)


def draw(data, name=None):
    """(the picture's lines, what was left out)"""
    walk = Walk(stream_of(data), lambda line: None)
    walk.whole()
    names = [each for each, _ in walk.structures]
    if not names:
        raise Fault("the library has no structure to draw")
    if name is not None and name not in names:
        raise Fault(f"there is no structure {quoted(name)}; there are {', '.join(map(quoted, names[:20]))}{' and others' if names[20:] else ''}")
    wanted, elements = walk.structures[-1 if name is None else names.index(name)]
    drawing = Drawing(walk.structures)
    drawing.structure(elements, NO_TURN, frozenset([wanted]))
    return list(picture(drawing, wanted)), drawing.left_out
