"""What is said on standard error: messages, and from its second second on how far the work is."""
import contextlib
import sys
import time

shown = False  # the command turns it on; other tools stay quiet
started = time.monotonic()
due = started + 1


def say(line):
    """A message that nobody can be told does not change what is done."""
    with contextlib.suppress(OSError):
        print(f"ravenvanity: {line}", file=sys.stderr, flush=True)


def tick(what, done, total):
    """So much is done of the whole."""
    global due
    now = time.monotonic()
    if shown and now >= due:
        due = now + 1
        say(f"{what}, {100 * done // max(total, 1)} %, {now - started:.0f} s")


def track(steps, total, what):
    """Each step in turn; `total` of them make the whole."""
    for done, step in enumerate(steps):
        tick(what, done, total)
        yield step
