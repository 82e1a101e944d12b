"""Cells and libraries measured and written by the proved library, and its answers in words."""
from . import again, proved, refusal
from . import sheet as form
from .cell_text import quoted
from .show import KINDS, many

NO_BLOCK = (1, 2, 3, 4, 21, 22)  # refusals of a cell that are of no block


def accepted_words(length, entries, greatest):
    return f"accepted: {many(length, 'byte')}, {many(entries, 'report entry').replace('entrys', 'entries')}, greatest error {greatest!r}"


def block_words(sheet, number, block):
    """Where in a cell sheet a refusal is; the kind is told as the block's first byte has it, without its options."""
    if number in NO_BLOCK:
        return []
    if not block:
        return ["block 0 (the head)"]
    try:
        kind = KINDS.get(form.kind_of(sheet[form.read_pairs(sheet)[block][0]]))
    except (form.Ill, IndexError):
        kind = None
    return [f"block {block} (element {block - 1}{f', a {kind}' if kind else ''})"]


def refusal_lines(number, where, found):
    yield f"{', '.join([f'refusal {number}', *where])}: {refusal.TABLE[number][1]}"
    if found:
        yield f"looked at again, outside the proof: {found}"


class Cell:
    """A cell sheet under a policy and a database unit."""
    what, entry = "structure", proved.ENTRY

    def __init__(self, library, policy, d, sheet):
        self.library, self.call, self.sheet = library, (policy, d), sheet

    def measured(self):
        """(refusal's number or 0, where, length, entries, greatest error)"""
        number, *place, length, entries, greatest = self.measure()(self.library, *self.call, self.sheet)
        return number, place, length, entries, greatest

    def measure(self):
        return proved.measure_cell

    def write(self):
        return proved.write_cell

    def written(self, length, entries):
        """(structure or file, report) in buffers of what was measured."""
        (number, *_), stream, report = self.write()(self.library, *self.call, self.sheet, (length, self.entry * entries))
        if number:
            raise AssertionError(f"refusal {number} in buffers of the measured lengths")
        return stream, report

    def refused(self, number, place):
        """The lines that tell a refusal."""
        block, = place
        found = None if number in (1, 2, 3, 21, 22) else again.in_cell(self, self.sheet, number, block)
        return refusal_lines(number, block_words(self.sheet, number, block), found)


class Library(Cell):
    """A library sheet."""
    what, entry = "library file", proved.LIBRARY_ENTRY

    def measure(self):
        return proved.measure_library

    def write(self):
        return proved.write_library

    def refused(self, number, place):
        cell, block = place
        if cell == refusal.OUTSIDE:
            return refusal_lines(number, ["outside a cell"], again.in_library(self.call[1], self.sheet, number) if number in (6, 23, 24, 25) else None)
        start, length = form.read_pairs(self.sheet)[cell + 1]
        sheet = self.sheet[start:start + length]
        where = [cell_words(sheet, cell), *block_words(sheet, number, block)]
        return refusal_lines(number, where, again.in_cell(self, sheet, number, block, start))


def cell_words(sheet, cell):
    """A cell's number, and its name where that can be read."""
    try:
        return f"cell {cell} ({quoted(form.read_head(sheet, form.read_pairs(sheet)[0])[0])})"
    except form.Ill:
        return f"cell {cell}"
