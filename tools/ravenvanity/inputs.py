"""What the command is given: words that stand for numbers, and files that hold a text or a sheet."""
import re
import string
import struct

from . import cell_text, library_text
from . import sheet as form

POLICIES = {"nearest": 0, "floor": 1, "ceiling": 2, "strict": 3}
CELL, LIBRARY = "cell", "library"
WRITERS = {CELL: "write", LIBRARY: "library"}
MAX_SHEET = 2**32 - 1  # that the pairs' offsets can name
FRONT = 9  # bytes before the sheet in the input of the program `structure`
# of each: the text read, its sheet; the sheet read, its lines
TEXTS = {CELL: (cell_text.read_cell, form.sheet_bytes), LIBRARY: (library_text.read_library, form.library_bytes)}
SHEETS = {CELL: (form.read_sheet, cell_text.cell_lines), LIBRARY: (form.read_library, library_text.library_lines)}
HEX = re.compile(rb"[0-9a-fA-F\s]+")
FIRST_WORD = re.compile(r"(?:\s|#[^\n]*\n)*(\w*)")


class Wrong(Exception):
    """The command was called wrongly, and how."""


class Unreadable(Exception):
    """A file is not what it is to be, and where."""


# ---- words


def is_number(word, greatest):
    """Whether it is a whole number from 0 to the greatest, with no more digits than that has."""
    return word.isascii() and word.isdigit() and len(word) <= len(str(greatest)) and int(word) <= greatest


def number_of(word, greatest, what):
    if not is_number(word, greatest):
        raise Wrong(f"{what} is a whole number up to {greatest}, not {cell_text.shown(word)}")
    return int(word)


def policy_of(word):
    if word not in POLICIES and not is_number(word, 255):
        raise Wrong(f"the policy is nearest, floor, ceiling, strict or a number up to 255, not {cell_text.shown(word)}")
    return POLICIES[word] if word in POLICIES else int(word)


def value_of(word, what):
    try:
        return form.double_of(cell_text.double(word, what))
    except cell_text.Wrong as wrong:
        raise Wrong(str(wrong)) from None


# ---- files


def unhexed(text, what):
    for at, c in enumerate(text):
        if c not in string.hexdigits:
            raise Unreadable(f"{what}: digit {at} is {c!r}, no hex digit")
    if len(text) % 2:
        raise Unreadable(f"{what}: an odd number of hex digits, {len(text)}")
    return bytes.fromhex(text)


def raw(data):
    """Bytes that are given as hex digits; others as they are."""
    if not data.strip() or not HEX.fullmatch(data):
        return data
    return unhexed("".join(data.decode().split()), "hex digits")


def is_sheet(data):
    """A sheet's first byte is 0, since it has at most 16,384 pairs; no text starts so."""
    return data[:1] == b"\0"


def decoded(data, name):
    try:
        return data.decode("utf-8-sig")  # some editors put a mark before the first line
    except UnicodeDecodeError as fault:
        line = data.count(b"\n", 0, fault.start) + 1
        raise Unreadable(f"{name}, line {line}: byte 0x{data[fault.start]:02x} is not UTF-8") from None


def sheet_of_text(data, name, kind, sines):
    """The sheet of a text, whose first word says of what; `kind` is what it must be, where that is known."""
    text = decoded(data, name)
    word = FIRST_WORD.match(text).group(1)
    own = LIBRARY if word == LIBRARY else CELL
    if kind and kind != own and word in (CELL, LIBRARY):
        raise Unreadable(f"{name} is the text of a {own}, which `ravenvanity {WRITERS[own]}` writes")
    read_text, bytes_of = TEXTS[kind or own]
    try:
        return bytes_of(read_text(text, sines))
    except cell_text.Bad as bad:
        raise Unreadable(f"{name}, {bad}") from None
    except struct.error:
        raise Unreadable(f"{name}: the sheet is over {MAX_SHEET:,} bytes") from None


def kind_of(sheet):
    """Whether a sheet's block 0 is long enough, after its name, for a library's user unit."""
    try:
        offset, length = form.read_pairs(sheet)[0]
        name = int.from_bytes(sheet[offset:offset + 2], "big")
        return LIBRARY if length == name + form.LIBRARY_HEAD else CELL
    except form.Ill:
        return CELL


def lines_of(sheet, name, kind):
    """The text of a sheet."""
    read, lines = SHEETS[kind or kind_of(sheet)]
    try:
        return list(lines(read(sheet)))
    except form.Ill as ill:
        raise Unreadable(f"{name}, {ill}") from None
