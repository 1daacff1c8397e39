"""Refuses the built program each allocation of a line in turn, one a run, up to the run that needs no more: of the
stored request with no words and by `once`, an import, a help text, words that are wrong, and the roll of a file of no
bytes, and each tenth one of a sheet of a desk in a file and of the migration of one of version 1. The answer is the
right one; or status 3 with the line that memory ran out, on error output and nothing besides; or, to a request, the
response that memory ran out, with status 3. It is never another, for example words that are called wrong, or half a
text. Each of these is seen.

A sheet has more than four thousand allocations, nearly all of them to open its desk: the first four hundred are refused
in turn, and after those each tenth. test_refused_office.py refuses an opening each of its own, and a migration too."""
import os
import subprocess
from concurrent.futures import ThreadPoolExecutor
from pathlib import Path
from typing import NamedTuple

from tests.support.case import Case
from tests.support.preloaded import BUILT, library
from tests.support.program import PATIENCE, T0, TOP, Ran, build, copy_desk, expect, make_desk, once, response, run
from tests.support.version_1 import unpack

STORED = TOP / "crates" / "gr_main" / "stdin", TOP / "crates" / "gr_main" / "stdout"
ROLL_FILE = 'login,name,status\nalice,Alice Adams,current\nbob,"Brown, Bob",retired\n'
OLD_ROLL = "Developers: 4\nCurrent: 4\nD: d1 current One\nD: d2 current Two\nD: d3 current Three\nD: d4 current Four\n"

# How many allocations are refused before it is looked whether the line needs so many.
BATCH = 400

OUT_OF_MEMORY = "fault F1 Memory\n"
BY_LINE = Ran(3, b"", OUT_OF_MEMORY.encode())
BY_RESPONSE = Ran(3, response(503, OUT_OF_MEMORY), b"")


class Answer(NamedTuple):
    """What came of a run: the number of the allocation, whether one was refused, and `right`, `line` or `response`, or
    what is wrong."""

    number: int
    refused: bool
    came: str


def run_built(*words):
    """Runs a line of the built program with no allocation refused."""
    ran = subprocess.run([BUILT, *map(str, words)], stdin=subprocess.DEVNULL, capture_output=True, check=False)
    return Ran(ran.returncode, ran.stdout, ran.stderr)


class RefusedMemory(Case):
    @classmethod
    def setUpClass(cls):
        build()
        place = cls.shared_folder()
        cls.library = library(Path(__file__).with_name("refuse_allocation.c"), place)
        cls.csv, cls.desk, cls.old = place / "roll.csv", place / "desk.db", place / "old.db"
        cls.csv.write_text(ROLL_FILE)
        make_desk(cls.desk)
        imported = Ran(0, b"ok 1 added 2 changed 0 same 0\n", b"")
        expect("import", run("import", cls.desk, cls.csv, "--at", T0), imported)
        once(cls.desk, T0, "/resolutions", "author=@leader&summary=Red&text=First&ratio=1", "ok 2 resolution 1")
        unpack(cls.old)

    def ran(self, words, number=0):
        """Runs a line with this allocation refused. Gives what came of it, and whether one was refused."""
        reader, writer = os.pipe()
        own = {"LD_PRELOAD": str(self.library), "REFUSED_ALLOCATION": str(number), "REFUSED_MARK": str(writer)}
        line = [BUILT, *map(str, words)]
        with os.fdopen(reader, "rb") as mark, open(STORED[0], "rb") as given:
            try:
                ran = subprocess.run(
                    line,
                    stdin=given,
                    capture_output=True,
                    env=os.environ | own,
                    pass_fds=[writer],
                    timeout=PATIENCE,
                    check=False,
                )
            finally:
                os.close(writer)
            return Ran(ran.returncode, ran.stdout, ran.stderr), mark.read() == b"x"

    def answers(self, answer, step):
        """The answers to runs with each allocation refused in turn, up to a run that needs no more. After the first
        batch only each so many-th allocation is."""
        answers, first, by = [], 1, 1
        with ThreadPoolExecutor(len(os.sched_getaffinity(0))) as pool:
            while all(each.refused for each in answers[-BATCH:]):
                answers += pool.map(answer, range(first, first + BATCH * by, by))
                first, by = first + BATCH * by, step
        return answers

    def refuse_all(self, words, status, *outcomes, step=1, over=None, after=lambda desk, came: ""):
        """Refuses each allocation of a line in turn, and expects a right answer, which has this status, or one of these
        outcomes, all of which are seen. `words` gives those of the line, for a copy of the desk `over`, where it is
        over one. `after` looks at the copy, and gives what is wrong with it. Gives the right answer."""
        place = self.folder()

        def line_over(name):
            desk = copy_desk(over, place / f"{name}.db") if over else None
            return desk, words(desk)

        right, _ = self.ran(line_over("whole")[1])
        self.assertEqual(right.status, status, right)
        kinds = {right: "right", BY_LINE: "line"} | ({BY_RESPONSE: "response"} if "response" in outcomes else {})

        def answer(number):
            desk, line = line_over(number)
            ran, refused = self.ran(line, number)
            came = kinds.get(ran, str(ran))
            if desk:
                came += after(desk, came)
                for path in place.glob(f"{desk.name}*"):
                    path.unlink()
            return Answer(number, refused, came)

        answers = self.answers(answer, step)
        expected = {True: ("right", *outcomes), False: ("right",)}
        self.assertEqual([each for each in answers if each.came not in expected[each.refused]], [])
        for outcome in outcomes:
            self.assertIn(outcome, {each.came for each in answers})
        return right

    def is_the_same(self, desk, _):
        return "" if desk.read_bytes() == self.desk.read_bytes() else ", and the file is another"

    def test_the_stored_request_has_its_response_or_that_memory_ran_out(self):
        right = self.refuse_all(lambda _: [], 0, "line", "response")
        self.assertEqual(right.out, STORED[1].read_bytes())

    def test_once_has_the_stored_response_or_that_memory_ran_out(self):
        right = self.refuse_all(lambda _: ["once", ":memory:"], 0, "line", "response")
        self.assertEqual(right.out, STORED[1].read_bytes())

    def test_a_sheet_is_whole_or_memory_ran_out_and_the_file_is_as_it_was(self):
        # test_refused_office.py has each allocation of an opening.
        self.refuse_all(lambda desk: ["status", desk, 1], 0, "line", step=10, over=self.desk, after=self.is_the_same)

    def test_a_file_of_no_bytes_is_no_desk_or_memory_ran_out_and_it_stays_so(self):
        blank = self.folder() / "blank.db"
        blank.touch()

        def is_blank(desk, _):
            return ", and the file has bytes" if desk.stat().st_size else ""

        right = self.refuse_all(lambda desk: ["roll", desk], 3, "line", over=blank, after=is_blank)
        self.assertEqual(right.err, b"fault F6 NotADesk\n")

    def test_a_migration_is_whole_or_memory_ran_out_and_the_file_is_of_either_version_with_the_same_roll(self):
        versions = set()

        def is_migrated_at_last(desk, came):
            if came == "line":
                versions.add(1 if run_built("roll", desk).err == b"fault F7 TooOld\n" else 2)
            wrong = "" if run_built("migrate", desk) == Ran(0, b"ok schema 2\n", b"") else ", and it cannot be migrated"
            same = run_built("roll", desk) == Ran(0, OLD_ROLL.encode(), b"")
            return wrong if same else f"{wrong}, and its roll is another"

        self.refuse_all(lambda desk: ["migrate", desk], 0, "line", step=10, over=self.old, after=is_migrated_at_last)
        self.assertEqual(versions, {1, 2}, "the versions of files where memory ran out")

    def test_an_import_is_done_or_memory_ran_out(self):
        self.refuse_all(lambda _: ["import", ":memory:", self.csv, "--at", T0], 0, "line")

    def test_help_is_whole_or_memory_ran_out(self):
        self.refuse_all(lambda _: ["--help"], 0, "line")

    def test_wrong_words_are_reported_or_memory_ran_out_and_the_file_is_as_it_was(self):
        self.refuse_all(lambda desk: ["status", desk, 0], 2, "line", over=self.desk, after=self.is_the_same)
