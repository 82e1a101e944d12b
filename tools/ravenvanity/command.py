"""The command `ravenvanity`: cells and libraries written as GDSII by the proved library, and what is around that.

Results go to standard output or to the files that are named; messages, refusals among them, go to standard error. Files
are written whole or not at all. docs/COMMAND.md is its page.
"""
import os
import signal
import sys

from . import files, progress, proved
from .inputs import Unreadable, Wrong
from .options import parsed
from .progress import say
from .subcommands import REFUSED, WRONG_USE

ENDED_BY_PIPE, HUNG_UP, INTERRUPTED, TERMINATED = 141, 129, 130, 143


def run(words):
    """Runs a command and returns its exit status; a fault is one message."""
    try:
        given = parsed(words)
        return given.run(given)
    except (Wrong, proved.Missing) as fault:
        say(str(fault))
        return WRONG_USE
    except Unreadable as fault:
        say(str(fault))
        return REFUSED
    except BrokenPipeError:
        return ENDED_BY_PIPE
    except OSError as fault:
        say(files.plain(fault))
        return WRONG_USE
    except MemoryError:
        say("there is no memory for this")
        return WRONG_USE


def flushed(status):
    """What was printed reaches its reader, or that it does not is told."""
    try:
        sys.stdout.flush()
        return status
    except BrokenPipeError:
        return ENDED_BY_PIPE
    except OSError as fault:
        if status != WRONG_USE:
            say(files.plain(fault))
        return WRONG_USE


def main():
    """The command; a closed pipe, Ctrl-C or a signal ends it without a trace, and no file is left half made."""
    files.open_error_stream()
    if sys.stdout is None:
        say("standard output is closed")
        os._exit(WRONG_USE)
    progress.shown = True
    signal.signal(signal.SIGTERM, lambda *_: sys.exit(TERMINATED))
    signal.signal(signal.SIGHUP, lambda *_: sys.exit(HUNG_UP))
    try:
        signal.signal(signal.SIGINT, signal.default_int_handler)
        status = run(sys.argv[1:])
    except SystemExit as end:
        status = end.code
    except KeyboardInterrupt:
        status = INTERRUPTED
    signal.signal(signal.SIGINT, signal.SIG_DFL)
    os._exit(flushed(status))
