"""Stops the tools that write a journal, by a small library that is loaded before the C library's (stop_tool.c). `act`,
`due` and `replay` are killed before each write, sync, rename and start of a program, and after half of each write. They
are killed too while a program that they have started goes on alone, without its request, with half of it and with all
of it. The next run goes on: the desk has each act that it would have had, and none twice, and the journal has each act
that the desk has. So it is where an act comes by another way just after the rename of a replay that was killed."""
import os
import shutil
import signal
import sqlite3
import subprocess
from concurrent.futures import ThreadPoolExecutor

from tests.commands.journal_case import JournalCase, entries_in
from tests.support.journaled import (
    CALL,
    CALLED,
    DISCUSSION,
    ENDED,
    Journaled,
    accepted_of,
    environment_of,
    reports,
    rows_of,
)
from tests.support.program import DAY, PATIENCE, T0, TOP, Ran, copy_desk, expect, fail, make_desk, once

# At most so many tools run at one moment.
TOGETHER = 2
SPONSOR = (T0 + 3 * DAY, ["sponsor", "1", "choice=1", "login=d3"])
NEWCOMER = ["developer", "login=d9", "name=Nine", "status=current"]
VARIED = (T0 + 5 * DAY, ["vary", "1", "days=7"], "", "ok 6")


class Line:
    """A tool that is stopped: what it is run over, its words, what is run next, and the rows that may be there then."""

    def __init__(self, name, desk, words, after, rows, is_late=False):
        self.name = name
        self.desk = desk
        self.words = words
        self.after = after
        self.rows = rows
        self.is_late = is_late

    def stops(self, steps):
        """The steps at which it is stopped, with their numbers. Of several in a private folder, one after the other, it
        is the first two, since nobody looks there; so it is of several writes to pipes, and of several starts of a
        program there, each with its request. And it may be those from the last start of a program on alone."""
        first = max(steps.rfind("x"), steps.rfind("X")) if self.is_late else 0
        for place, step in enumerate(steps[first:], start=first):
            before = steps[max(first, place - 2) : place]
            is_third = len(before) == 2 and (step.isupper() and before.isupper() or before == f"{step}{step}" == "pp")
            is_third_start = steps[:place].endswith({"X": "XpXp", "p": "XpXpX"}.get(step, "\0"))
            if not is_third and not is_third_start:
                yield place + 1, step

    def run(self, stops, desk, number=0, way=""):
        """Runs the tool, and stops it in this way. Gives what came, and the letters of its steps."""
        record = desk.file.with_suffix(".record")
        # What a tool that is killed leaves among temporary files goes with the folder of the test. Each run has its own
        # place for them, since a later one would say what it finds there, and have more steps.
        temporary = desk.file.with_suffix(".temporary")
        temporary.mkdir()
        own = {"STOP_AT": number, "STOP_WAY": way, "STOP_RECORD": record, "LD_PRELOAD": stops, "TMPDIR": temporary}
        words = [part.format(desk=desk.file, journal=desk.journal) for part in self.words]
        line = [TOP / "tools" / "gr-desk", *words]
        with subprocess.Popen(
            line, stdin=subprocess.DEVNULL, stdout=subprocess.PIPE, stderr=subprocess.PIPE, env=environment_of(own)
        ) as process:
            # A program that goes on alone has its own streams, so these end with the tool.
            out, err = process.communicate(timeout=PATIENCE)
        return Ran(process.returncode, out, err), record.read_bytes().rstrip(b"\0").decode()


def ways_of(step):
    """In which ways a step is stopped. After one on a file there is what there is before the next step; but a program
    that was started, or has got its request or half of it, goes on."""
    ways = {"w": ["before", "half"], "p": ["before", "half", "behind"], "x": ["before", "behind"]}
    return ways.get(step, ["before"])


# What is run after a stop.


def act_again(what, desk):
    """The next act goes on, and says what became of the one that was under way."""
    at, words = SPONSOR
    reports(f"{what}: the next act", desk.act("--at", at, *words), 0, "ok ")


def due_again(what, desk):
    reports(f"{what}: the next due", desk.tool("due"), 0)


def replay_again(what, desk):
    reports(f"{what}: the next replay", desk.tool("replay"), 0, "ok")


def replay_without_again(what, desk):
    """Where the copy had its place already, it lacks the act that had to be left out."""
    ran = desk.tool("replay", "--without", "6")
    if ran.status != 0:
        reports(f"{what}: the next replay", ran, 1, "6 is not one of the acts to enter")


# The lines.


def act_line(work):
    desk = Journaled.made(work, "act", DISCUSSION[:4])
    at, words, _, _ = DISCUSSION[4]
    after = [Journaled.made(work, f"act_{number}", DISCUSSION[:number]) for number in (4, 5)]
    for other in after:
        act_again("not stopped", other)
    line = ["act", "--desk", "{desk}", "--journal", "{journal}", "--at", str(at), *words]
    return Line("act", desk, line, act_again, [other.rows() for other in after])


def due_line(work):
    desk = Journaled.made(work, "due", DISCUSSION[:4])
    at, words, _, _ = DISCUSSION[4]
    reports("an act that waits", desk.act("--at", at, "--hold", "24h", *words), 0, "held 5")
    reports("a later one", desk.act("--at", SPONSOR[0], *SPONSOR[1]), 0, "held 6 behind 5")
    expected = Journaled.made(work, "due_whole", DISCUSSION)
    act_again("not stopped", expected)
    return Line("due", desk, ["journal", "due", "--journal", "{journal}"], due_again, [expected.rows()])


def replay_line(work):
    night = Journaled.made(work, "night", DISCUSSION)
    desk = Journaled.made(work, "replay", [*DISCUSSION, CALL])
    rows = desk.rows()
    copy_desk(night.file, desk.file)
    return Line("replay", desk, ["journal", "replay", "{journal}", "{desk}"], replay_again, [rows])


def without_line(work):
    night = Journaled.made(work, "early", DISCUSSION)
    called = (CALLED + 7 * DAY, CALL[1], "", f"ok 7 places 3 until {ENDED + 7 * DAY}")
    desk = Journaled.made(work, "without", [*DISCUSSION, VARIED, called])
    expected = Journaled.made(work, "without_whole", DISCUSSION)
    at, words, _, line = called
    expected.accepts([(at, words, "", line.replace("ok 7", "ok 6"))])
    copy_desk(night.file, desk.file)
    line = ["journal", "replay", "{journal}", "{desk}", "--without", "6"]
    # What comes before is as without these words.
    return Line("without", desk, line, replay_without_again, [expected.rows()], is_late=True)


class StopsOfALine:
    """The stops of one tool; each class below has its line."""

    make = None

    @classmethod
    def setUpClass(cls):
        super().setUpClass()
        cls.work = cls.shared_folder()
        cls.library = cls.work / "stop_tool.so"
        source = TOP / "tests" / "support" / "stop_tool.c"
        compiler = os.environ.get("CC", "cc")
        subprocess.run([compiler, "-shared", "-fPIC", "-O1", "-o", cls.library, source, "-ldl"], check=True)
        cls.line = cls.make(cls.work)
        cls.came, cls.steps = cls.line.run(cls.library, cls.line.desk.copied(cls.work, f"{cls.line.name}_whole"))

    def test_its_run_that_is_not_stopped_writes_to_files_and_pipes_syncs_and_starts_a_program(self):
        self.assertEqual(self.came.status, 0, self.came)
        for letter in "wpsx":
            with self.subTest(letter=letter):
                self.assertIn(letter, self.steps)

    def test_after_each_stop_the_next_run_goes_on_and_no_act_is_lost_or_doubled(self):
        jobs = [(number, way) for number, step in self.line.stops(self.steps) for way in ways_of(step.lower())]
        self.assertTrue(jobs, "its stops")
        if self.line.is_late:
            place = jobs[0][0] - 1
            found = self.steps[place], self.steps[place + 1 :].lower().count("x")
            self.assertEqual(found, ("x", 0), "where the stops begin, and starts of a program after it")
        halves = {self.steps[number - 1] for number, way in jobs if way == "half"}
        self.assertEqual(halves - {"W"}, {"w", "p"}, "what is cut in half")
        with ThreadPoolExecutor(TOGETHER) as pool:
            looks = [pool.submit(self.stopped, *job) for job in jobs]
        found = set()
        for (number, way), look in zip(jobs, looks):
            with self.subTest(step=number, letter=self.steps[number - 1], way=way):
                found.add(look.result())
        self.assertEqual(found, {*range(len(self.line.rows))}, "which kinds of rows were found")

    def stopped(self, number, way):
        """A run that is stopped at a step, and the next one after it. Gives which of the rows are there then. Where the
        machine had no memory, file or time for that, it is made once more, and a line says why."""
        what = f"{self.line.name}, stopped {way} step {number}"
        try:
            return self.rows_after(number, way, what)
        except (OSError, sqlite3.Error, subprocess.TimeoutExpired) as error:
            print(f"{what}: once more after {error!r}", flush=True)
        return self.rows_after(number, way, f"{what}, once more")

    def rows_after(self, number, way, what):
        desk = self.line.desk.copied(self.work, what.replace(" ", "_").replace(",", ""))
        came, _ = self.line.run(self.library, desk, number, way)
        expect(f"{what}: its status", came.status, -signal.SIGKILL)
        self.line.after(what, desk)
        found = rows_of(desk.file)
        if found not in self.line.rows:
            fail(f"{what}: the rows are {found}")
        look_at_journal(what, desk, found)
        shutil.rmtree(desk.file.with_suffix(".temporary"))
        for path in self.work.glob(f"{desk.file.stem}.*"):
            path.unlink()
        return self.line.rows.index(found)


def look_at_journal(what, desk, found):
    """The journal has each act that the desk has, under its number, and none twice."""
    accepted = entries_in(desk.journal).accepted
    expect(f"{what}: the acts of the journal", sorted(accepted), list(range(1, found["desk"][0][2] + 1)))
    numbers = [entry.number for entry in accepted.values()]
    expect(f"{what}: acts that it has twice", len(set(numbers)), len(numbers))
    last = accepted[max(accepted)]
    expect(f"{what}: the moment of the last one", last.moment, found["desk"][0][3])


class StopsOfAReplay(StopsOfALine):
    """A replay is also stopped just after its rename, and before the next step. Then an act comes by another way,
    before the next tool runs."""

    def test_a_replay_that_is_stopped_after_its_rename_is_found_done_where_an_act_came_by_another_way(self):
        desk = self.line.desk.copied(self.folder(), "renamed")
        came, _ = self.line.run(self.library, desk, self.steps.index("n") + 2, "before")
        self.assertEqual(came.status, -signal.SIGKILL, came)
        self.assertEqual(rows_of(desk.file), self.line.rows[0])
        count = accepted_of(desk.file)
        moment = self.line.rows[0]["desk"][0][3]
        once(desk.file, moment, "/developers", "login=e1&name=A&status=current", f"ok {count + 1}")
        ran = desk.act("--at", moment, "developer", "login=e2", "name=A", "status=current")
        reports("the next act", ran, 0, f"ok {count + 2}\n", "so it is done; acts have come by another way since\n")
        accepted = entries_in(desk.journal).accepted
        self.assertEqual(sorted(accepted), [*range(1, count + 1), count + 2], "the acts of the journal")
        self.assertEqual(len({entry.number for entry in accepted.values()}), count + 1, "without those it has twice")
        missing = "acts that came by another way are missing in the journal, so nobody can see"
        reports("a replay after it", desk.tool("replay"), 1, missing)
        copy = copy_desk(desk.file, self.folder() / "copy.db")
        reports("one from a copy", desk.tool("replay", "--from", copy), 0, "nothing is missing in the desk\n")

    def test_the_copy_is_on_the_disk_before_the_journal_says_that_it_takes_the_place_of_the_desk(self):
        last = max(self.steps.rfind("x"), self.steps.rfind("X"))
        steps = self.steps[last + 1 :].lstrip("p")
        self.assertEqual(steps[:6], "Stwsns", "a sync of the copy, a line, a rename and its folder")


class StopsOfAnAct(StopsOfALine, JournalCase):
    make = staticmethod(act_line)

    def test_the_folder_of_a_new_journal_is_on_the_disk_before_its_first_line(self):
        desk = Journaled(self.folder(), "new")
        make_desk(desk.file)
        words = ["act", "--desk", "{desk}", "--journal", "{journal}", "--at", str(T0), *NEWCOMER]
        came, steps = Line("new", desk, words, None, []).run(self.library, desk)
        self.assertEqual(came.status, 0, came)
        self.assertIn("s", steps[: steps.index("t")], "a sync of the folder before the first line")


class StopsOfDue(StopsOfALine, JournalCase):
    make = staticmethod(due_line)


class StopsOfAReplayOfAll(StopsOfAReplay, JournalCase):
    make = staticmethod(replay_line)


class StopsOfAReplayWithoutAnAct(StopsOfAReplay, JournalCase):
    make = staticmethod(without_line)
