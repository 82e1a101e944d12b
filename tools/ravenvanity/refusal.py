"""Refusals in words: what each means, who can cause it, where it comes in the order, and with which block or cell."""
CALLER, SHEET_MAKER, DESIGNER = "the caller", "the sheet maker", "the designer"
FIRST, LAST = "before anything else", "after every block has passed"

# number: who can cause it, what it means, where it comes in the order, which blocks it can name
ONCE, HEAD, ANY, ELEMENT, NO_CELL = "0", "0", "0 or more", "1 or more", "none"
OUTSIDE = 4294967295  # the cell's number where a library's refusal is of no cell
TABLE = {
    1: (CALLER, "the policy is above 3", FIRST, ONCE),
    2: (CALLER, "the database unit d is not finite and positive", "after 1", ONCE),
    3: (CALLER, "the sheet is over 16,777,216 bytes", "after 2", ONCE),
    4: (SHEET_MAKER, "the pairs are ill-formed: count outside 1 to 16,384, a pair missing, an offset that is not where the block "
        "before ends, a length of 0, or a last block that does not end with the sheet", "after 3; all pairs before any block", ONCE),
    5: (SHEET_MAKER, "the block is ill-formed: too short, too long, a code that is unknown (element kind, coordinate kind, path type, presentation, "
        "reflection), an integer whose four upper bytes are not zero, a coordinate absent where it may not be, or absent but not zero bytes", "first in its block", ANY),
    6: (DESIGNER, "a stamp is no date and time of the years 1 to 9999, and the twelve numbers are not all zero", "in the head, after its 5", HEAD),
    7: (DESIGNER, "a structure name is not 1 to 32 of A-Z a-z 0-9 _ ? $: in block 0 the cell's own, else the called one",
        "in the head after 6; in a reference first after its 5 and 26", ANY),
    8: (DESIGNER, "the point count: a polygon has 4 to 8,191, a path 2 to 8,191, a node 1 to 50", "in a polygon, path or node first after its 5 and 26", ELEMENT),
    9: (DESIGNER, "a layer or type is above 255", "after 8; in a text or a box first after its 5 and 26; the layer before the type", ELEMENT),
    10: (DESIGNER, "a string is too long: a text has at most 512 bytes, a property value at most 126",
         "in a text after 9; of a property value directly after the 27 of its property", ELEMENT),
    11: (DESIGNER, "columns or rows are outside 1 to 32,767", "in a reference after 7", ELEMENT),
    12: (DESIGNER, "more than one column without a column spacing, or more than one row without a row spacing", "after 11", ELEMENT),
    13: (DESIGNER, "the magnification is 0 or below (minus infinity is 14)", "in a text after 10, in a reference after 12", ELEMENT),
    14: (DESIGNER, "magnification or degrees are not finite, or no eight-byte real equals them: below 2^-260 in size and not 0, or from 2^252",
         "after 13; magnification before degrees", ELEMENT),
    15: (DESIGNER, "an array's sine or cosine is not within -1 to 1", "after 14, before every coordinate", ELEMENT),
    16: (DESIGNER, "a coordinate's unit is not finite and positive", "coordinate by coordinate, first of 16 to 19; in an array the origin's two come first, "
         "then the four of the spacings, each time 16 and 17 before 18 and 19", ELEMENT),
    17: (DESIGNER, "a physical value, or its quotient by d, is not finite", "coordinate by coordinate, after 16", ELEMENT),
    18: (DESIGNER, "a value is off the grid and the policy is strict", "coordinate by coordinate, after 17", ELEMENT),
    19: (DESIGNER, "a database value is beyond signed 32 bits", "coordinate by coordinate, after 18; array endpoints last", ELEMENT),
    20: (DESIGNER, "a polygon's first and last point differ after conversion", "after all points have been converted", ELEMENT),
    21: (CALLER, "the output is too short for what is to be written", LAST, ONCE),
    22: (CALLER, "the report is too short for the entries, 33 bytes each, of a library 37", "after 21", ONCE),
    23: (SHEET_MAKER, "the library's pairs are ill-formed, as a cell's in 4, or its block 0 is not a name, a user unit and twelve stamp numbers and no byte more",
         "of a library alone: after 3; all pairs before block 0", ONCE),
    24: (f"{DESIGNER}, for d {CALLER}", "the user unit is not finite and positive, or no eight-byte real equals it or d: below 2^-260, or from 2^252",
         "of a library alone: after 6 of the library's stamps", ONCE),
    25: (DESIGNER, "the library's name is over 65,530 bytes", "of a library alone: after 24, before every cell", ONCE),
    26: (DESIGNER, "an element's flags are above 3", "in an element directly after its 5", ELEMENT),
    27: (DESIGNER, "a property's attribute is outside 1 to 127", "last of all in its element, property by property, each time before the 10 of the property's value", ELEMENT),
    32: (CALLER, "the lower end is above the upper, or the policy is strict and the ends are not equal",
         "of two bounds alone: after 17 of an end that is not finite, before the ends' other checks", NO_CELL),
    33: (CALLER, "the number of places is not 1 to 65,536", "of a pitch survey alone: after 2, before 17 of a pitch that is not finite", NO_CELL),
}


OF_LIBRARY = (1, 2, 3, 6, 21, 22, 23, 24, 25)  # those that come outside a cell
OF_CELL = (*range(4, 21), 26, 27)
LIBRARY_ORDER = {4: "first in its cell, which comes after 25 and after the whole of every cell before it", 21: "after every cell has passed"}


def block_words(block):
    return "block 0 is the head, or no block at all" if block == 0 else f"block {block} is element {block - 1}, counted from 0"


def about_library(number, cell, block):
    """A library's refusal: its cell and its block."""
    who, meaning, order, blocks = TABLE[number]
    if cell == OUTSIDE:
        order = "in a library after 23" if number == 6 else LIBRARY_ORDER.get(number, order)
        where, right = "outside a cell, so of the call or of the library itself", number in OF_LIBRARY and block == 0
    else:
        order = LIBRARY_ORDER.get(number, order)
        where, right = f"in cell {cell}, counted from 0, which is block {cell + 1} of the library sheet; {block_words(block)}", number in OF_CELL
        right = right and (block == 0 if blocks == "0" else blocks == ANY or block > 0)
    lines = [f"refusal {number}: {meaning}", f"caused by: {who}", f"order: {order}", "both buffers stay as they were", where]
    return lines if right else lines + [f"but refusal {number} does not come with this cell and block: was this read rightly?"]


def about(number, block=None):
    who, meaning, order, blocks = TABLE[number]
    lines = [f"refusal {number}: {meaning}", f"caused by: {who}", f"order: {order}"]
    if 23 <= number <= 25 and block is not None:
        lines.append(f"but refusal {number} is of a library, and comes with a cell and a block: was this read rightly?")
    if blocks == NO_CELL:
        return lines + ([f"but refusal {number} is of no cell, and comes with no block: was this read rightly?"] if block is not None else [])
    lines.append("both buffers stay as they were")
    if block is not None:
        lines.append(block_words(block))
        if blocks == "0" and block or blocks == ELEMENT and not block:
            lines.append(f"but refusal {number} comes with block {blocks} alone: was this read rightly?")
    return lines


def table():
    """A line for each."""
    return [f"{number:2}  {who}: {meaning}. Order: {order}." for number, (who, meaning, order, _) in TABLE.items()]


def numbers():
    """Which there are, in words."""
    runs = []
    for number in TABLE:
        runs = runs[:-1] + [(runs[-1][0], number)] if runs and number == runs[-1][1] + 1 else runs + [(number, number)]
    return ", ".join(f"{first} to {last}" if first < last else str(first) for first, last in runs)
