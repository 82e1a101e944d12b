"""The proved functions: target/staticlib/libravenvanity.a (`tools/build.sh ravenvanity`), linked into a shared object and loaded.

The answers are the library's: nothing is decided here. A C compiler links it, once for each build of the library.
"""
import contextlib
import ctypes
import glob
import hashlib
import os
import subprocess

ROOT = os.path.dirname(os.path.dirname(os.path.dirname(os.path.realpath(__file__))))
TARGET = os.path.join(ROOT, "target", "staticlib")
ARCHIVE = os.path.join(TARGET, "libravenvanity.a")
ENTRY, LIBRARY_ENTRY = 33, 37
BYTES, DOUBLE, SIZE = ctypes.c_char_p, ctypes.c_double, ctypes.c_size_t
LENT = [BYTES, SIZE]  # a slice: its address and its length
CALL = [ctypes.c_uint8, DOUBLE]  # policy and database unit
CELL, LIBRARY = [SIZE] * 3 + [DOUBLE], [SIZE] * 4 + [DOUBLE]  # where the answers go
FUNCTIONS = {
    "measure_cell": LENT + list(map(ctypes.POINTER, CELL)) + CALL,
    "write_cell": LENT * 3 + list(map(ctypes.POINTER, CELL)) + CALL,
    "measure_library": LENT + list(map(ctypes.POINTER, LIBRARY)) + CALL,
    "write_library": LENT * 3 + list(map(ctypes.POINTER, LIBRARY)) + CALL,
    "convert_bounds": [ctypes.POINTER(ctypes.c_int32)] * 2 + CALL + [DOUBLE] * 2,
    "survey_pitch": [ctypes.POINTER(ctypes.c_uint32)] * 3 + CALL + [DOUBLE, ctypes.c_uint32],
}


class Missing(Exception):
    """The library cannot be had, and why."""


def archive():
    """The static library's bytes."""
    if not os.path.exists(ARCHIVE):
        raise Missing(f"{os.path.relpath(ARCHIVE)} is not there: `./run`, or `tools/build.sh ravenvanity`, builds it")
    with open(ARCHIVE, "rb") as f:
        return f.read()


def archive_sum():
    return hashlib.sha256(archive()).hexdigest()


def linked(path):
    """Whether cc links the archive to this file, and what it says last."""
    command = ["cc", "-shared", "-o", path, "-Wl,--whole-archive", ARCHIVE, "-Wl,--no-whole-archive"]
    try:
        ran = subprocess.run(command, stdout=subprocess.PIPE, stderr=subprocess.STDOUT, text=True, errors="replace")
    except FileNotFoundError:
        raise Missing("cc is not on the PATH: a C compiler is needed to link the library") from None
    return ran.returncode == 0, "; ".join(ran.stdout.strip().splitlines()[-2:])


def link(shared):
    """Makes the shared object, whole or not at all, and removes those of other archives."""
    if not os.access(TARGET, os.W_OK):
        raise Missing(f"{os.path.relpath(TARGET)} cannot be written, and the shared object is to be linked there: `ravenvanity prepare`, by whoever may, does it")
    made = f"{shared}.{os.getpid()}"
    try:
        done, said = linked(made)
        if not done:
            raise Missing(f"cc does not link {os.path.relpath(ARCHIVE)}: {said}")
        os.replace(made, shared)
    finally:
        if os.path.exists(made):
            os.remove(made)
    for other in glob.glob(os.path.join(glob.escape(TARGET), "libravenvanity.*.so")):
        with contextlib.suppress(OSError):
            if other != shared:
                os.remove(other)


def load():
    """The library, in a shared object that is named for the archive it was linked from: none of another archive is ever loaded."""
    shared = os.path.join(TARGET, f"libravenvanity.{archive_sum()[:16]}.so")
    try:
        if not os.path.exists(shared):
            link(shared)
        library = ctypes.CDLL(shared)
    except OSError as fault:
        raise Missing(str(fault)) from None
    for name, types in FUNCTIONS.items():
        function = getattr(library, f"ravenvanity_{name}", None)
        if function is None:
            raise Missing(f"{os.path.relpath(ARCHIVE)} has no {name}: it is older than this command, and `./run` builds it anew")
        function.restype, function.argtypes = ctypes.c_uint8, types
    return library


def asked(function, before, places, after):
    """A call of the library: (the number returned, what it left in each place)"""
    left = [place() for place in places]
    number = function(*before, *map(ctypes.byref, left), *after)
    return number, *(place.value for place in left)


def written(function, sheet, lengths, places, call):
    """The answers of a writer, and the two buffers, of these lengths, afterwards"""
    buffers = [ctypes.create_string_buffer(length) for length in lengths]
    lent = [part for buffer in buffers for part in (buffer, len(buffer))]
    answers = asked(function, [sheet, len(sheet), *lent], places, call)
    return answers, *(buffer.raw for buffer in buffers)


def measure_cell(library, policy, d, sheet):
    """(0, 0, length, entries, greatest error), or (the refusal's number, block, ...)"""
    return asked(library.ravenvanity_measure_cell, [sheet, len(sheet)], CELL, (policy, d))


def write_cell(library, policy, d, sheet, lengths):
    """(the same values, structure, report), in buffers of these two lengths"""
    return written(library.ravenvanity_write_cell, sheet, lengths, CELL, (policy, d))


def measure_library(library, policy, d, sheet):
    """(0, 0, 0, length, entries, greatest error), or (the refusal's number, cell, block, ...)"""
    return asked(library.ravenvanity_measure_library, [sheet, len(sheet)], LIBRARY, (policy, d))


def write_library(library, policy, d, sheet, lengths):
    """(the same values, file, report), in buffers of these two lengths"""
    return written(library.ravenvanity_write_library, sheet, lengths, LIBRARY, (policy, d))


def convert_bounds(library, policy, d, lower, upper):
    """(0, least, greatest), or (the refusal's number, 0, 0)"""
    return asked(library.ravenvanity_convert_bounds, [], [ctypes.c_int32] * 2, (policy, d, lower, upper))


def survey_pitch(library, policy, d, pitch, n):
    """(0, clean, due, refused), or (the refusal's number, 0, 0, 0)"""
    return asked(library.ravenvanity_survey_pitch, [], [ctypes.c_uint32] * 3, (policy, d, pitch, n))
