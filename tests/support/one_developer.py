"""For tests of tools over a desk with one developer: that desk, what the tools print, and a check that a folder stays
as it was."""
import time
from contextlib import contextmanager

from tests.support.program import T0, Ran, expect, make_desk, once

OK = Ran(0, b"ok\n", b"")
ALICE = "login=alice&name=Alice+Adams&status=current"
ROLL = b"Developers: 1\nCurrent: 1\nD: alice current Alice Adams\n"


def line_of(name, text):
    """A line that a tool writes on error output."""
    return f"gr-desk {name}: {text}\n".encode()


def fails(name, status, text):
    return Ran(status, b"", line_of(name, text))


def date(moment):
    return time.strftime("%Y-%m-%dT%H:%M:%SZ", time.gmtime(moment))


def new_desk(file):
    """A desk with one developer."""
    make_desk(file)
    once(file, T0, "/developers", ALICE, "ok 1")
    return file


def found_in(place):
    """What is in a folder: the bytes of each file."""
    return {path.name: path.read_bytes() if path.is_file() else None for path in place.iterdir()}


@contextmanager
def unchanged(what, place):
    """What is in a folder is still there afterwards, and nothing else."""
    held = found_in(place)
    yield
    expect(f"what is there after {what}", found_in(place), held)


def no_log(copy):
    """What restore warns of if a copy has no log."""
    warning = f"warning: {copy} has no log beside it; if it was copied without its log, acts are missing"
    return line_of("restore", warning)


def no_digest(copy):
    """What restore warns of if a copy has no digests."""
    warning = f"warning: {copy}.sha256 is not there, so nothing tells whether {copy} is as it was copied"
    return line_of("restore", warning)
