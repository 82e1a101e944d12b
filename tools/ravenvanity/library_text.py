"""The text form of a library, read and written; docs/COMMAND.md describes it."""
from . import sheet as form
from .cell_text import Bad, CellReader, Wrong, a_double, arity, cell_lines, demanded, double_text, quoted, read_lines, shown, stamp_numbers, stamps_line, string

MAX_CELLS = form.MAX_PAIRS - 1


class LibraryReader:
    def __init__(self):
        self.name, self.unit, self.stamps, self.cells, self.line = None, None, None, [], 1

    def take(self, tokens, line):
        word = tokens[0]
        if (self.name is None) != (word == "library"):
            raise Wrong(f"the first line must be `library`, not `{shown(word)}`" if self.name is None else "a second `library`")
        if word == "library":
            arity(tokens, 1)
            self.name, self.line = string(tokens[1], "the library's name"), line
        elif word == "cell":
            if len(self.cells) == MAX_CELLS:
                raise Wrong(f"a library sheet has at most {MAX_CELLS:,} cells")
            self.cells.append(CellReader())
            self.cells[-1].take(tokens, line)
        elif self.cells and word != "user_unit":
            self.cells[-1].take(tokens, line)
        else:
            self.take_own(word, tokens)

    def take_own(self, word, tokens):
        if word == "user_unit":
            if self.unit is not None or self.cells:
                raise Wrong("`user_unit` stands once, before the first cell")
            self.unit = a_double(tokens)
        elif word == "stamps":
            if self.stamps is not None:
                raise Wrong("a second `stamps` before the first cell")
            self.stamps = stamp_numbers(tokens)
        else:
            raise Wrong(f"`{shown(word)}` before the first cell")

    def made(self, sines):
        if self.unit is None:
            raise Bad(self.line, "this library has no `user_unit` line; there is no default")
        return form.Library(self.name, self.unit, self.stamps or [0] * 12, [c.made(sines) for c in self.cells])


def read_library(text, sines=demanded):
    """The library of a text; Bad with the line where it fails."""
    reader = LibraryReader()
    line = read_lines(text, reader)
    if reader.name is None:
        raise Bad(line, "there is no `library` line")
    return reader.made(sines)


def library_lines(library):
    """The lines of a library's text."""
    yield f"library {quoted(library.name)}"
    yield f"user_unit {double_text(library.unit)}"
    yield stamps_line(library.stamps)
    for cell in library.cells:
        yield ""
        yield from cell_lines(cell)
