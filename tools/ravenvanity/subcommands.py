"""What each subcommand does with what is given, and its exit status."""
import math
import os
import struct
import sys

from . import bounds, draw, files, inputs, progress, proved, refusal, show, survey, write
from .cell_text import demanded, double_text, is_quarter, machine_turn
from .inputs import CELL, LIBRARY, Unreadable, Wrong
from .progress import say
from .sheet import double_of

DONE, REFUSED, WRONG_USE = 0, 1, 2


# ---- what is given


class MachineSines:
    """Takes sines and cosines of turned arrays from this machine, and says so."""

    def __init__(self):
        self.taken = []

    def __call__(self, line, degrees):
        if not math.isfinite(double_of(degrees)):
            demanded(line, degrees)
        if not is_quarter(degrees):
            self.taken.append((line, degrees))
        return machine_turn(degrees)

    def tell(self):
        for line, degrees in self.taken[:3]:
            sine, cosine = map(double_text, machine_turn(degrees))
            say(f"line {line}: sine {sine} and cosine {cosine} of {double_text(degrees)} degrees are this machine's; their last bit may differ on another")
        if self.taken[3:]:
            say(f"and so are those of {len(self.taken) - 3} arrays more")


def sheet_in(given, data, kind):
    """The sheet of an input that is a text or a sheet."""
    if given.as_sheet or inputs.is_sheet(data):
        return data
    sines = MachineSines()
    sheet = inputs.sheet_of_text(data, files.name_of(given.input), kind, sines if given.machine_sines else demanded)
    sines.tell()
    return sheet


def call_of(given):
    return inputs.policy_of(given.policy), inputs.value_of(given.unit, "the database unit")


def is_file(path):
    """Whether writing to it takes the place of what it holds."""
    return path != files.STANDARD and files.is_replaced(path)


def same(one, other):
    """Whether two names are of one file, which may not be there yet."""
    if os.path.realpath(one) == os.path.realpath(other):
        return True
    return os.path.exists(one) and os.path.exists(other) and os.path.samefile(one, other)


def is_source(path, source):
    """Whether a file is the input, also where that is standard input."""
    if source != files.STANDARD:
        return same(path, source)
    return sys.stdin is not None and os.path.exists(path) and os.path.samestat(os.stat(path), os.fstat(sys.stdin.fileno()))


def outputs_apart(source, *outputs):
    """No output may take the place of the input or of another."""
    named = [path for path in outputs if path is not None]
    for path in named:
        with files.naming(path):
            lost = is_file(path) and is_source(path, source)
        if lost:
            raise Wrong(f"{path} is the input, and would be lost")
    if named == [files.STANDARD] * 2 or len(named) == 2 and is_file(named[0]) and same(*named):
        raise Wrong(f"{named[0]} cannot hold both outputs")


def read_bytes(path):
    """A file's bytes, which may be given as hex digits."""
    data = files.read_input(path)
    return in_file(path, lambda: inputs.raw(data))


def no_terminal(path, what):
    if path == files.STANDARD and sys.stdout.isatty():
        raise Wrong(f"{what} is bytes, which a terminal does not show: name a file by -o")


# ---- the subcommands: each takes what is given and returns its exit status


def measured(given, kind):
    """(job, length, entries, greatest error) of what is given; None after a refusal, which is told."""
    call, library = call_of(given), proved.load()
    sheet = sheet_in(given, read_bytes(given.input), kind)
    kind = kind or inputs.kind_of(sheet)
    job = (write.Library if kind == LIBRARY else write.Cell)(library, *call, sheet)
    number, place, *numbers = job.measured()
    if not number:
        return job, *numbers
    for line in job.refused(number, place):
        say(line)
    if kind == CELL and inputs.kind_of(sheet) == LIBRARY:
        say("the sheet's block 0 is a library's: `ravenvanity library` writes it")
    return None


def write_run(given):
    kind = given.kind
    progress.shown = not given.quiet
    outputs_apart(given.input, given.o, given.report)
    no_terminal(given.o, "a structure" if kind == CELL else "a library file")
    found = measured(given, kind)
    if found is None:
        return REFUSED
    job, length, entries, greatest = found
    stream, report = job.written(length, entries)
    files.write_all([(given.o, stream)] + [(given.report, report)] * (given.report is not None))
    words = write.accepted_words(length, entries, greatest)
    if given.quiet:
        return DONE
    if files.STANDARD in (given.o, given.report):
        say(words)
    else:
        print(words)
    return DONE


def measure_run(given):
    found = measured(given, given.kind)
    if found is None:
        return REFUSED
    job, length, entries, greatest = found
    print(write.accepted_words(length, entries, greatest))
    print(f"to be lent: {length} bytes for the {job.what}, {job.entry * entries} for the report")
    return DONE


def sheet_run(given):
    outputs_apart(given.input, given.o)
    if (given.policy is None) != (given.unit is None):
        raise Wrong("--policy and --unit go together")
    front = struct.pack(">Bd", *call_of(given)) if given.unit is not None else b""
    if front and given.program:
        raise Wrong("--program reads the program's input, which --policy and --unit make")
    data = read_bytes(given.input)
    if not front and (given.program or given.as_sheet or inputs.is_sheet(data)):
        if given.hex:
            raise Wrong("--hex is for a sheet that is written, and of a sheet a text is written")
        text = "".join(f"{line}\n" for line in text_of(data, given, given.kind))
        files.write_whole(given.o, text.encode())
        return DONE
    sheet = sheet_in(given, data, given.kind)
    if front and (given.kind or inputs.kind_of(sheet)) == LIBRARY:
        raise Wrong("this is a library, and the program `structure` writes cells")
    if not given.hex:
        no_terminal(given.o, "a sheet")
    files.write_whole(given.o, (front + sheet).hex().encode() + b"\n" if given.hex else front + sheet)
    return DONE


def text_of(data, given, kind):
    """The lines of a sheet's text."""
    name, comment = files.name_of(given.input), []
    if given.program:
        if len(data) < inputs.FRONT:
            raise Unreadable(f"{name}: the program's input has at least {inputs.FRONT} bytes, not {len(data)}")
        word = {number: word for word, number in inputs.POLICIES.items()}.get(data[0], "unknown")
        comment = [f"# policy {data[0]} ({word}), unit {double_text(int.from_bytes(data[1:inputs.FRONT], 'big'))}"]
        data = data[inputs.FRONT:]
    return comment + inputs.lines_of(data, name, kind)


def show_run(given):
    if given.input is None and given.report is None:
        raise Wrong("it takes a structure, a library file, or --report FILE")
    if given.input == given.report == files.STANDARD:
        raise Wrong("a stream and its report cannot both be standard input")
    progress.shown = not sys.stdout.isatty()
    structures = None
    if given.input is not None:
        data = files.read_input(given.input)
        structures = in_file(given.input, lambda: show.explain(data, print), sheet_hint(data))
    if given.report is not None:
        report = files.read_input(given.report)
        in_file(given.report, lambda: show.entries(inputs.raw(report), print, structures))
    return DONE


def sheet_hint(data):
    """A sheet starts with a pair count, a stream with a record's length."""
    return "; it may be a sheet, of which `ravenvanity sheet` makes a text" if data[:2] == b"\0\0" else ""


def in_file(path, run, hint=""):
    """What is wrong with a file's bytes is told with the file's name."""
    try:
        return run()
    except Unreadable as fault:
        sys.stdout.flush()
        raise Unreadable(f"{files.name_of(path)}, {fault}{hint}") from None


def refusal_run(given):
    if not given.numbers:
        print("\n".join(refusal.table()))
        return DONE
    if len(given.numbers) > 3:
        raise Wrong("it takes a number, a block if there is one, and before it the cell of a library")
    number, *places = [inputs.number_of(word, 2**32 - 1, what) for word, what in zip(given.numbers, ("a refusal", "a cell or a block", "a block"))]
    if number not in refusal.TABLE:
        raise Wrong(f"there is no refusal {number}; they are {refusal.numbers()}")
    print("\n".join(refusal.about_library(number, *places) if len(places) == 2 else refusal.about(number, *places)))
    return DONE


def draw_run(given):
    outputs_apart(given.input, given.o)
    data = files.read_input(given.input)
    name = None if given.structure is None else os.fsencode(given.structure)
    lines, left_out = in_file(given.input, lambda: draw.draw(data, name), sheet_hint(data))
    files.write_whole(given.o, "\n".join(lines).encode() + b"\n")
    for what, count in left_out.items():
        say(f"left out, {show.many(count, 'time')}: {what}")
    return DONE


def told(answer):
    words, refused = answer
    if refused:
        say(words)
        return REFUSED
    print(words)
    return DONE


def bounds_run(given):
    call = call_of(given)
    ends = inputs.value_of(given.lower, "the lower end"), inputs.value_of(given.upper, "the upper end")
    return told(bounds.told(proved.load(), *call, *ends))


def survey_run(given):
    call = call_of(given)
    pitch, places = inputs.value_of(given.pitch, "the pitch"), inputs.number_of(given.places, survey.MOST, "the number of places")
    return told(survey.told(proved.load(), *call, pitch, places))


def prepare_run(given):
    proved.load()
    return DONE
