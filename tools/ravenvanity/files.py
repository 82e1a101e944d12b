"""Files that are read, and files that are written whole or not at all."""
import contextlib
import errno
import os
import re
import shutil
import signal
import stat
import sys
import tempfile

STANDARD = "-"
STREAMS = {"stdin": 0, "stdout": 1, "stderr": 2}
DESCRIPTOR = re.compile(r"/+(?:dev/(stdin|stdout|stderr)|(?:dev|proc/self)/fd/(\d{1,9}))", re.ASCII)
ENDING = (signal.SIGINT, signal.SIGTERM, signal.SIGHUP)
BESIDE = ".ravenvanity."  # how the name of a file begins that is made beside another


def plain(fault):
    """What a fault says, without an error number."""
    if isinstance(fault, OSError):
        return f"{'standard output' if fault.filename is None else fault.filename}: {fault.strerror}"
    return str(fault)


def open_error_stream():
    """Where standard error is closed, what is said goes nowhere, and not to standard output."""
    if sys.stderr is None:
        sys.stderr = open(os.devnull, "w")


def end_with_the_pipe():
    """A reader that stops, such as `head`, ends the tool without a message."""
    signal.signal(signal.SIGPIPE, signal.SIG_DFL)


def name_of(path):
    return "standard input" if path == STANDARD else path


@contextlib.contextmanager
def naming(path):
    """An error of the system names the file that was asked for."""
    try:
        yield
    except OSError as fault:
        raise OSError(fault.errno, fault.strerror, path) from None


def read_input(path):
    """A file's bytes; `-` is standard input."""
    with naming(name_of(path)):
        if path != STANDARD:
            with open(path, "rb") as f:
                return f.read()
        if sys.stdin is None:
            raise OSError(errno.EBADF, "it is closed")
        return sys.stdin.buffer.read()


def write_output(data):
    """Bytes to standard output, at once, so that a full disk is seen here."""
    sys.stdout.flush()
    sys.stdout.buffer.write(data)
    sys.stdout.buffer.flush()


def descriptor_of(path):
    """The number of the open file that a name of the system's stands for, if it is such a name."""
    found = DESCRIPTOR.fullmatch(os.path.normpath(path))
    return None if found is None else STREAMS[found[1]] if found[1] else int(found[2])


def is_replaced(path):
    """Whether a file is made beside this one and takes its place; what is no file, a terminal for one, is written to as it is."""
    return descriptor_of(path) is None and (os.path.isfile(path) or not os.path.exists(path))


@contextlib.contextmanager
def held():
    """What would end the command waits."""
    before = signal.pthread_sigmask(signal.SIG_BLOCK, ENDING)
    try:
        yield
    finally:
        signal.pthread_sigmask(signal.SIG_SETMASK, before)


def is_output(path):
    """Whether a name stands for standard output: `-`, the system's own, or the pipe that it is."""
    if path == STANDARD or descriptor_of(path) == STREAMS["stdout"]:
        return True
    if not os.path.exists(path) or sys.stdout is None:
        return False
    found = os.stat(path)
    return stat.S_ISFIFO(found.st_mode) and os.path.samestat(found, os.fstat(sys.stdout.fileno()))


def take_over(target, made):
    """A file gets the permissions and, where that may be, the owner of the one whose place it takes, else what a new file gets."""
    if os.path.exists(target):
        found = os.stat(target)
        with contextlib.suppress(OSError):
            os.chown(made, found.st_uid, found.st_gid)
        os.chmod(made, stat.S_IMODE(found.st_mode))
    else:
        mask = os.umask(0)
        os.umask(mask)
        os.chmod(made, 0o666 & ~mask)


class Replacement:
    """A file that is made beside its place, takes it, and gives it back."""

    def __init__(self, path):
        self.path, self.target = path, os.path.realpath(path)
        self.made = self.kept = None
        self.taken = False

    def make(self, data):
        if os.path.exists(self.target) and not os.access(self.target, os.W_OK):
            raise OSError(errno.EACCES, os.strerror(errno.EACCES))
        try:
            with held():
                number, self.made = tempfile.mkstemp(prefix=BESIDE, dir=os.path.dirname(self.target))
        except PermissionError as fault:
            raise OSError(fault.errno, "its folder may not be written to, and a file is made beside its place") from None
        with open(number, "wb") as out:
            out.write(data)
            out.flush()
            os.fsync(out.fileno())
        take_over(self.target, self.made)

    def keep(self):
        """What was there gets a second name, for the case that another file cannot be written."""
        if os.path.exists(self.target):
            self.kept = f"{self.made}.kept"
            try:
                os.link(self.target, self.kept)
            except OSError:
                shutil.copy2(self.target, self.kept)

    def take(self):
        os.replace(self.made, self.target)
        self.made, self.taken = None, True

    def give_back(self):
        if self.kept:
            os.replace(self.kept, self.target)
            self.kept = None
        elif self.taken:
            os.remove(self.target)

    def clean(self):
        for name in (self.made, self.kept):
            with contextlib.suppress(OSError):
                if name:
                    os.remove(name)


def take_places(replacements):
    """All take their places, or none does."""
    try:
        for each in replacements:
            with naming(each.path):
                if len(replacements) > 1:
                    each.keep()
                each.take()
    except OSError:
        for each in replacements:
            if each.taken:
                each.give_back()
        raise


def opened(path):
    """What is no file, to be written to as it is."""
    number = descriptor_of(path)
    return open(path, "wb") if number is None else os.fdopen(os.dup(number), "wb")


def replacement(path):
    """That of a file, which a name with a slash at its end is not."""
    if path.endswith(os.sep):
        raise OSError(errno.EISDIR, os.strerror(errno.EISDIR))
    return Replacement(path)


def write_all(files):
    """Writes (path, bytes) of each, none unless there is room for all; `-` is standard output. What is no file is written before any takes its place."""
    replacements = []
    try:
        for path, data in files:
            if path != STANDARD and is_replaced(path):
                with naming(path):
                    replacements.append(replacement(path))
                    replacements[-1].make(data)
        for path, data in files:
            if path == STANDARD:
                write_output(data)
            elif not is_replaced(path):
                with naming(path), opened(path) as out:
                    out.write(data)
        with held():
            take_places(replacements)
    finally:
        with held():
            for each in replacements:
                each.clean()


def write_whole(path, data):
    write_all([(path, data)])
