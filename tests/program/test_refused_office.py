"""Refuses an office each allocation of an opening, of eighteen acts, of a list of these, of a migration and of the
opening of a file in turn, one a run. The tests of crates/gr_office_tests/src/tests/memory.rt and that of
crates/gr_desk_tests/src/tests/openings.rt lead it, and print what became of it: nothing but a right answer, where the
memory was not needed, or an outcome of those below, each of which is seen.

An opening is tried again and finds its desk. Where memory runs out in an act or in a list, the office is open, with the
desk before the command; or closed, and then an opening finds the desk before it or after it. The rest is done then, and
the desk has to be that of all commands. A migration leaves the desk in version 1, and then it is tried again; or
lifted, and then an opening finds it. The opening of a file gives back nothing, its files or its connection. The
programs of the tests are those that `rt ci` or `rt test` left."""
import os
import re
import subprocess
import tempfile
from concurrent.futures import ThreadPoolExecutor
from functools import cache
from itertools import groupby
from pathlib import Path
from typing import NamedTuple

from tests.support.case import Case
from tests.support.preloaded import library
from tests.support.program import PATIENCE, TOP, fail

# How many allocations are refused before it is looked whether there are more.
BATCH = 400

OFFICE, DESK = "gr_office_tests", "gr_desk_tests"
OUTCOMES = [
    "not-opened",
    "open",
    "closed-before",
    "closed-behind",
    "not-migrated-old",
    "not-migrated-new",
    "nothing-left",
    "files-left",
    "connection-left",
]
# What a test prints on one line. The `x` is the mark that its allocation was refused.
RIGHT = re.compile(rf"asked x(?:({'|'.join(OUTCOMES)}) )?answered +test result: ok ")


class Run(NamedTuple):
    """One with an allocation refused: its number, the status, and what was printed, as one line."""

    number: int
    status: int
    printed: str

    def is_of_the_office(self):
        """Whether the allocation was refused while the office was asked. Those before and after are not its own."""
        return "asked x" in self.printed

    def outcome(self):
        """What became of the office, or None where the answer was right all the same."""
        return RIGHT.fullmatch(self.printed)[1]


@cache
def tests_of(crate):
    """The program of a crate's tests, as the gate left it. Where a source is newer, the toolchain makes it, which
    checks the proofs."""
    program = TOP / "crates" / crate / "out" / f"{crate}_tests"
    if not os.access(program, os.X_OK) or is_older_than_a_source(program):
        ran = subprocess.run(["rt", "test"], cwd=TOP / "crates" / crate, capture_output=True, text=True, check=False)
        if ran.returncode != 0:
            fail(f"rt test in {crate}: {ran.stdout}{ran.stderr}")
    return program


def is_older_than_a_source(program):
    made = program.stat().st_mtime
    sources = (TOP / "crates").glob("*/**/*.rt")
    return any(path.stat().st_mtime > made for path in sources if "out" not in path.parts)


class RefusedOffice(Case):
    @classmethod
    def setUpClass(cls):
        cls.library = library(Path(__file__).with_name("refuse_allocation.c"), cls.shared_folder())

    def ran(self, crate, test, number):
        """Runs a test with this allocation refused, in a folder of its own."""
        own = {"LD_PRELOAD": str(self.library), "REFUSED_ALLOCATION": str(number), "REFUSED_MARK": "1"}
        with tempfile.TemporaryDirectory() as place:
            ran = subprocess.run(
                [tests_of(crate), f"tests::{test}"],
                cwd=place,
                env=os.environ | own,
                stdin=subprocess.DEVNULL,
                stdout=subprocess.PIPE,
                stderr=subprocess.DEVNULL,
                timeout=PATIENCE,
                check=False,
            )
        return Run(number, ran.returncode, ran.stdout.decode(errors="replace").replace("\n", " "))

    def runs(self, crate, test):
        """A test with each allocation refused in turn, up to the first one after its answer, if there is one."""
        tests_of(crate)
        runs, first = [], 1
        with ThreadPoolExecutor(len(os.sched_getaffinity(0))) as pool:
            while True:
                batch = [*pool.map(lambda number: self.ran(crate, test, number), range(first, first + BATCH))]
                runs += batch
                first += BATCH
                printed = " ".join(each.printed for each in batch)
                if "x" not in printed or "answered x" in printed:
                    return runs

    def bears(self, crate, test, *outcomes):
        """Refuses a test each allocation of the office in turn. Each of these outcomes is seen. Gives all, in turn."""
        asked = [each for each in self.runs(crate, test) if each.is_of_the_office()]
        wrong = [each for each in asked if each.status != 0 or not RIGHT.fullmatch(each.printed)]
        self.assertEqual(wrong, [])
        found = [each.outcome() for each in asked]
        for outcome in outcomes:
            self.assertIn(outcome, found)
        return found

    def test_an_opening_bears_that_memory_runs_out(self):
        self.bears(OFFICE, "memory::an_opening_bears_a_want_of_memory", "not-opened")

    def test_acts_bear_that_memory_runs_out(self):
        outcomes = "open", "closed-before", "closed-behind"
        self.bears(OFFICE, "memory::acts_bear_a_want_of_memory", *outcomes)

    def test_a_list_bears_that_memory_runs_out(self):
        outcomes = "open", "closed-before", "closed-behind"
        self.bears(OFFICE, "memory::a_list_bears_a_want_of_memory", *outcomes)

    def test_a_migration_bears_that_memory_runs_out(self):
        outcomes = "not-migrated-old", "not-migrated-new"
        self.bears(OFFICE, "memory::a_migration_bears_a_want_of_memory", *outcomes)

    def test_an_opening_of_a_file_gives_back_at_least_as_much_at_each_later_allocation(self):
        outcomes = "nothing-left", "files-left", "connection-left"
        found = self.bears(DESK, "openings::an_opening_of_a_file_bears_a_want_of_memory", *outcomes)
        self.assertEqual([outcome for outcome, _ in groupby(filter(None, found))], [*outcomes])
