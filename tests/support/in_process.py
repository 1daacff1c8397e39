"""Modules of the tools in the process of a test, also of a tool whose name has no .py, and what these say on error
output. So a boundary is tried in no time, without the program."""
import os
import sys
import tempfile
from contextlib import contextmanager
from importlib import import_module
from unittest import mock

from tests.support.program import TOP, fail

TOOLS = TOP / "tools"
sys.path.insert(0, str(TOOLS))


def loaded(name):
    """The tool of this name as a module. Its words are not read, and it does not run."""
    return import_module(f"grdesk.commands.{name}")


@contextmanager
def under_umask(mask):
    """New files have no mode that this mask takes away, which the caller's does not add to."""
    before = os.umask(mask)
    try:
        yield
    finally:
        os.umask(before)


class Said:
    """What was said on error output."""

    def __init__(self, file):
        self.file = file

    def lines(self):
        self.file.seek(0)
        return self.file.read().split("\n")[:-1]


@contextmanager
def said():
    """Takes what a tool says on error output, which it writes there past the buffer."""
    with tempfile.TemporaryFile("w+") as file, mock.patch.object(sys, "stderr", file):
        with mock.patch.object(sys, "argv", ["gr-desk"]):
            yield Said(file)


def stopped(kind, call, *words):
    """The reason for which a call ends by a stop of this kind."""
    try:
        call(*words)
    except kind as stop:
        return str(stop)
    return fail(f"{call.__name__} of {words} did not end by {kind.__name__}")
