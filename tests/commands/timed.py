"""A desk with a folder for its copies, and a clock that tests move, for tests of the copies that a timer makes."""
import os
import shutil
import sys

from tests.support.program import DAY, T0, TOP, Ran, compile_tools, expect, make_desk, once, tool

sys.path.insert(0, str(TOP / "tools"))
from grdesk.desk.retention import name_at  # noqa: E402

QUARTER, HOUR = 900, 3_600
# 2026-02-10T00:00:00Z, when the copies begin.
AT = T0 + 40 * DAY
OK = Ran(0, b"ok\n", b"")

# Python runs this at its start where it finds it. The clock of a tool then shows what the test says, and moves as far
# as the tool sleeps.
CLOCK = """import os, time
moment, sleep = float(os.environ["CLOCK"]), time.sleep

def sleep_and_move(seconds):
    global moment
    sleep(seconds)
    moment += seconds

time.time, time.sleep = lambda: moment, sleep_and_move
"""


class Timed:
    """A desk, a folder for its copies, and a clock that is moved."""

    def __init__(self, work):
        compile_tools()
        self.work = work
        self.file, self.copies, self.clock = work / "desk.db", work / "backups", work / "clock"
        self.copies.mkdir()
        self.clock.mkdir()
        (self.clock / "sitecustomize.py").write_text(CLOCK)
        make_desk(self.file)
        self.count = 0

    def act(self, at, login):
        self.count += 1
        once(self.file, at, "/developers", f"login={login}&name=A+Name&status=current", f"ok {self.count}")

    def environment(self, at):
        """That of a tool at a moment of the clock."""
        return os.environ | {"PYTHONPATH": str(self.clock), "CLOCK": str(at)}

    def tool(self, at, name, *words, **environment):
        """Runs a tool at a moment of the clock."""
        return tool(name, *words, env=self.environment(at) | environment)

    def look(self, at):
        """What the timer runs. It says the same whatever it does. Gives the names of the copies."""
        expect("a look at the desk", self.tool(at, "backup", "--thin", self.file, self.copies), OK)
        expect("what is left in the folder", sorted(path.name for path in self.copies.glob(".desk-*")), [])
        return self.names()

    def names(self):
        return sorted(path.name for path in self.copies.iterdir() if not path.name.endswith(("-wal", ".sha256")))


def name_of(at):
    """That of a copy which was made at a moment."""
    return name_at("desk.db", at)


def few_programs(work):
    """A folder with the programs alone that a tool needs to begin, and the shell, as a PATH."""
    place = work / "bin"
    place.mkdir()
    (place / "python3").symlink_to(sys.executable)
    for program in "env", "sh", "cp", "cat":
        (place / program).symlink_to(shutil.which(program))
    return place


def write_program(place, name, text):
    """Puts a program of a few lines of shell into a folder."""
    (place / name).write_text(f"#!/bin/sh\n{text}\n")
    (place / name).chmod(0o755)
