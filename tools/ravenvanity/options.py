"""The words after the command: its subcommands and their options."""
import argparse
import os
import re
import sys

from . import files, proved
from . import subcommands as job
from .inputs import CELL, LIBRARY, Wrong
from .progress import say

EPILOG = """An INPUT or FILE is a file's name; - is standard input or standard output. A double is a decimal (the nearest double is
taken), inf, -inf, nan, or its bits: 0x and 16 hex digits. Exit status: 0 done; 1 a refusal, or an input that is not
what it is to be; 2 wrong use, a file that cannot be read or written, or the proved library is not built."""


class Parser(argparse.ArgumentParser):
    """One message for one mistake, and -1e-9 and -inf are numbers, not options."""

    def __init__(self, **words):
        super().__init__(allow_abbrev=False, **words)
        self._negative_number_matcher = re.compile(r"-(\d|\.\d|inf$)")

    def print_help(self, file=None):
        print(self.format_help(), end="", file=file)  # argparse's own is silent on a full disk

    def error(self, message):
        say(f"{message} (`{self.prog} --help` says how it is called)")
        sys.exit(job.WRONG_USE)


class Once(argparse.Action):
    """An option that is given twice is a mistake, whichever was meant."""

    def __call__(self, parser, given, value, option=None):
        if self.dest in getattr(given, "seen", ()):
            parser.error(f"{option} is given twice")
        given.seen = (*getattr(given, "seen", ()), self.dest)
        setattr(given, self.dest, value)


class Version(argparse.Action):
    """The proved library's sum, which two shops may compare."""

    def __init__(self, **words):
        super().__init__(nargs=0, **words)

    def __call__(self, parser, *_):
        print(f"{proved.archive_sum()}  {os.path.basename(proved.ARCHIVE)}")
        sys.exit(job.DONE)


def call_options(parser, required=True, more=""):
    parser.add_argument("--policy", action=Once, metavar="P", required=required, help="nearest, floor, ceiling, strict or a number up to 255")
    parser.add_argument("--unit", action=Once, metavar="D", required=required, help=f"the database unit, a double{more}")


def input_options(parser, what):
    parser.add_argument("input", metavar="INPUT", help=f"{what}; its first byte shows which")
    parser.add_argument("--as-sheet", action="store_true", help="the input is a sheet, whatever its first byte")
    parser.add_argument("--machine-sines", action="store_true", help="turned arrays without sine and cosine get this machine's, whose last bit may differ on another")


def kind_options(parser):
    kinds = parser.add_mutually_exclusive_group()
    kinds.add_argument("--cell", action="store_const", dest="kind", const=CELL, help="it is a cell; else its text, or the length of block 0, says what it is")
    kinds.add_argument("--library", action="store_const", dest="kind", const=LIBRARY, help="it is a library")


def writer(subcommands, name, what, length):
    parser = subcommands.add_parser(name, help=f"a {what} written as GDSII, with its report", description=f"Writes a {what}, with its report, or tells the refusal.", epilog=EPILOG)
    input_options(parser, f"the {what}: a sheet, as bytes or hex digits, or the text form")
    call_options(parser)
    parser.add_argument("-o", action=Once, metavar="FILE", required=True, help="where to write it")
    parser.add_argument("--report", action=Once, metavar="FILE", help=f"where to write the report's entries, {length} bytes each")
    parser.add_argument("-q", "--quiet", action="store_true", help="say nothing where it is accepted")
    parser.set_defaults(run=job.write_run, kind=what)


def asking(subcommands):
    """Those that ask the proved library and write no file."""
    parser = subcommands.add_parser("measure", help="what writing a cell or a library takes", description="What writing takes, or the refusal.", epilog=EPILOG)
    input_options(parser, "a cell or a library: its sheet, as bytes or hex digits, or its text form")
    kind_options(parser)
    call_options(parser)
    parser.set_defaults(run=job.measure_run)
    parser = subcommands.add_parser("bounds", help="where a length within bounds comes to lie", description="The least and the greatest database value of all doubles from LOWER to UPPER.", epilog=EPILOG)
    parser.add_argument("lower", metavar="LOWER", help="a physical value, included")
    parser.add_argument("upper", metavar="UPPER", help="a physical value, included")
    call_options(parser)
    parser.set_defaults(run=job.bounds_run)
    parser = subcommands.add_parser("survey", help="how many places of a row a pitch disturbs", description="Counts the places of a row, i times PITCH each, and shows which are disturbed.", epilog=EPILOG)
    parser.add_argument("pitch", metavar="PITCH", help="a physical value")
    parser.add_argument("places", metavar="N", help="how many places, 1 to 65536")
    call_options(parser)
    parser.set_defaults(run=job.survey_run)


def looking(subcommands):
    """Those that need no library."""
    parser = subcommands.add_parser("show", help="a structure or library file as text, record by record", description="Shows a stream record by record, and a report in words.", epilog=EPILOG)
    parser.add_argument("input", metavar="INPUT", nargs="?", help="a structure or a library file, as bytes or hex digits, or the lines of the program `structure`")
    parser.add_argument("--report", action=Once, metavar="FILE", help="its report; without an INPUT, the report of a cell")
    parser.set_defaults(run=job.show_run)
    parser = subcommands.add_parser("draw", help="a picture of a structure", description="Draws a structure, or one of a library file with what it calls, as SVG.", epilog=EPILOG)
    parser.add_argument("input", metavar="INPUT", help="as for show")
    parser.add_argument("--structure", action=Once, metavar="NAME", help="which structure of a library file; else the last")
    parser.add_argument("-o", action=Once, metavar="FILE", default=files.STANDARD, help="where to write; else to standard output")
    parser.set_defaults(run=job.draw_run)
    parser = subcommands.add_parser("sheet", help="text form to sheet, and back", description="Makes a sheet of a text form, or a text form of a sheet.", epilog=EPILOG)
    input_options(parser, "a text form, or a sheet, as bytes or hex digits")
    kind_options(parser)
    parser.add_argument("--hex", action="store_true", help="write the sheet as hex digits")
    parser.add_argument("--program", action="store_true", help="the input is that of the program `structure`: policy and unit stand before the sheet")
    call_options(parser, required=False, more="; with both, what is written is the input of the program `structure`")
    parser.add_argument("-o", action=Once, metavar="FILE", default=files.STANDARD, help="where to write; else to standard output")
    parser.set_defaults(run=job.sheet_run)
    parser = subcommands.add_parser("refusal", help="what a refusal means", description="Says what a refusal means, who can cause it, and where it comes in the order; without a number, of all.", epilog=EPILOG)
    parser.add_argument("numbers", metavar="N", nargs="*", help="its number; its block; of a library number, cell and block")
    parser.set_defaults(run=job.refusal_run)
    parser = subcommands.add_parser("prepare", help="link the proved library for this command, as the first use does", description="Links the shared object that the command loads.", epilog=EPILOG)
    parser.set_defaults(run=job.prepare_run)


def parser_of_all():
    parser = Parser(prog="ravenvanity", description="Writes GDSII cells and libraries by the proved writer. docs/COMMAND.md is the page to read.", epilog=EPILOG)
    parser.add_argument("--version", action=Version, help="the proved library's sha256, and nothing else")
    subcommands = parser.add_subparsers(title="commands", metavar="COMMAND", required=True)
    writer(subcommands, "write", CELL, proved.ENTRY)
    writer(subcommands, "library", LIBRARY, proved.LIBRARY_ENTRY)
    asking(subcommands)
    looking(subcommands)
    for name, own in subcommands.choices.items():
        own.set_defaults(own=own, writes=("o", "report") if name in ("write", "library") else ("o",))
    return parser


def parsed(words):
    """What is given; a word too many is told by the subcommand."""
    given, rest = parser_of_all().parse_known_args(words)
    if rest:
        given.own.error(f"there is no `{rest[0]}`")
    for name in ("input", "o", "report"):
        path = getattr(given, name, None)
        if path == "":
            raise Wrong("a file's name is empty")
        if path is not None and name in given.writes and files.is_output(path):
            setattr(given, name, files.STANDARD)
    return given
