"""Stops the program at its calls on the two files of a desk, by a small library that is loaded before the C library's
(stop_call.c). It is killed before each call, and after half of each write. Calls fail, once or from then on. From a
record of its writes and syncs the power is cut between any two of them. After each stop the program and stock SQLite
find the rows before the command or after it, in a sound file, and after it wherever the program had said that it was
accepted. A migration is such a command too: before it the file is of version 1, and a second one brings it to version
2. Then several runs begin at one moment.

Which calls fail is drawn by a seed, which each failure has. The environment variable STOPS_SEED sets it."""
import errno
import os
import random
import signal
import sqlite3
import subprocess
from concurrent.futures import ThreadPoolExecutor, wait
from contextlib import closing
from itertools import groupby, product
from operator import itemgetter
from pathlib import Path
from threading import Barrier

from tests.program.stop_lines import BUILT, Line, Served, lines_to_stop
from tests.support import version_1
from tests.support.case import Case
from tests.support.power_cuts import DESK, LOG, accepted_in, calls_of, images_of, is_copied_inside, whole
from tests.support.program import T0, Ran, bytes_of, copy_desk, expect, fail, make_desk, request, run

TABLES = "desk", "developer", "resolution", "choice", "sponsor", "ballot2"
# The rows of a new desk.
NEW = {table: [(1, 2, 0, 0)] if table == "desk" else [] for table in TABLES}
OK = Ran(0, b"ok\n", b"")
STORE = Ran(3, b"", b"fault F2 Store\n")
NOT_A_DESK = Ran(3, b"", b"fault F6 NotADesk\n")
TOO_OLD = Ran(3, b"", b"fault F7 TooOld\n")
OCCUPIED = Ran(3, b"", b"fault F8 Occupied\n")
SEED = int(os.environ.get("STOPS_SEED") or random.randrange(1_000_000))
# How many calls of a kind fail in each line.
DRAWN = 12
# And how many syncs fail in each before a cut of the power.
SYNCS = 8
ROUNDS = 10
TOGETHER = 4
PROCESSORS = len(os.sched_getaffinity(0))


class Place:
    """Where runs have their files: one desk each, with its log."""

    def __init__(self, work):
        self.work = work
        self.library = work / "stop_call.so"
        source = Path(__file__).with_name("stop_call.c")
        compiler = os.environ.get("CC", "cc")
        subprocess.run([compiler, "-shared", "-fPIC", "-O1", "-o", self.library, source], check=True)

    def desk(self, name, like=None):
        """The path of a desk, which is made like another one."""
        file = self.work / f"{name}.db"
        return copy_desk(like, file) if like else file

    def drop(self, file):
        for path in self.work.glob(f"{file.stem}.*"):
            path.unlink()

    def run(self, line, name, number=0, way="", error=0):
        """Runs a line over a desk of this name, and stops it in this way. Gives the desk, what came, and the calls. It
        begins again where another program took the port of a `serve`."""
        for _ in range(10):
            file = self.desk(name, line.before)
            record = file.with_suffix(".record")
            own = {"STOP_AT": number, "STOP_WAY": way, "STOP_ERROR": error, "STOP_DESK": file, "STOP_RECORD": record}
            loaded = {"LD_PRELOAD": self.library} | own
            came = line.run(file, os.environ | {variable: str(value) for variable, value in loaded.items()})
            if came.err != b"cannot listen\n":
                return file, came, calls_of(record.read_bytes())
            self.drop(file)
        fail(f"{line.name}: no port was free, of ten")


def rows_of(file):
    """The rows of a desk, as stock SQLite finds them in a sound file: of its tables, and of the one with the ballots of
    version 1, where they are there."""
    with closing(sqlite3.connect(file)) as conn:
        expect(f"integrity of {file.name}", conn.execute("PRAGMA integrity_check").fetchall(), [("ok",)])
        there = [name for (name,) in conn.execute("SELECT name FROM sqlite_schema WHERE type = 'table'")]
        tables = [table for table in (*TABLES, "ballot") if table in there]
        return {table: conn.execute(f"SELECT * FROM {table} ORDER BY 1, 2, 3").fetchall() for table in tables}


def look(place, file):
    """The rows of a desk: as stock SQLite finds them in a copy, and as the program does, which then closes the file, so
    that they stand in it alone. Where it says that they are of version 1, it brings them to version 2. None where it
    says that there is no desk, and then makes one."""
    copied = place.desk(f"{file.stem}_copied", file)
    ran = run("once", file, given=request("GET", "/roll"), executable=BUILT)
    if ran == NOT_A_DESK:
        place.drop(copied)
        make_desk(file)
        expect(f"the rows of {file.name}, after a second init", rows_of(file), NEW)
        return None
    if ran.status != 0 and ran != TOO_OLD:
        fail(f"{file.name} does not open: {ran}")
    found = rows_of(copied)
    place.drop(copied)
    if ran == TOO_OLD:
        expect(f"migrate of {file.name}", run("migrate", file, executable=BUILT), Ran(0, b"ok schema 2\n", b""))
        file.with_name(f"{file.name}-wal").unlink()
        expect(f"the rows of {file.name}, once migrated", rows_of(file), version_1.migrated(found))
        return found
    file.with_name(f"{file.name}-wal").unlink()
    expect(f"the rows of {file.name}, as the program found them", rows_of(file), found)
    return found


def judge(line, what, found, accepted):
    """The rows are those after what was accepted, or one command more. Gives whether it is one more."""
    if found not in line.rows[accepted : accepted + 2]:
        fail(f"{line.name}: {what}: {accepted} commands were accepted, and the rows are {found}")
    return found != line.rows[accepted]


def held_by(file):
    """What the two files of a desk hold: nothing where one is not there."""
    return [bytes_of(f"{file}{end}") or b"" for end in ("", "-wal")]


def initial_of(line):
    """What the two files hold before a line."""
    return held_by(line.before) if line.before else [b"", b""]


def is_recorded(line, what, left, calls):
    """What a run left is what its record makes of what was there before, byte for byte."""
    for kind, before, held, end in zip((DESK, LOG), initial_of(line), left, ("", "-wal")):
        if whole(before, kind, calls) != held:
            fail(f"{line.name}: {what}: the record of its calls does not make the file{end} that it left")


def run_whole(place, line):
    """Runs a line without a stop, and learns what it does on the files, and the rows after each of its commands."""
    file, line.came, line.calls = place.run(line, f"whole_{line.name}")
    line.left = held_by(file)
    line.rows = [look(place, place.desk(f"before_{line.name}", line.before)) if line.before else None]
    for accepted in range(1, line.commands):
        part = Served(line.name, line.before, line.forms[:accepted])
        line.rows.append(look(place, place.run(part, f"part_{line.name}")[0]))
    line.rows.append(look(place, file))


def stopped(place, line, number, way, error=0):
    """A run of a line that is stopped at a call. Gives whether the command that was under way was kept."""
    what = f"{way} {error or ''} at call {number}"
    file, came, calls = place.run(line, f"{line.name}_{way}{error}_{number}", number, way, error)
    if "x" not in [call.kind for call in calls]:
        fail(f"{line.name}: {what}: was not reached, and came {came}")
    accepted = accepted_in(calls)
    if error:
        is_whole_or_fault(line, what, came, accepted)
    else:
        expect(f"{line.name}: {what}: its status", came.status, -signal.SIGKILL)
        if way == "kill":
            is_recorded(line, what, held_by(file), calls)
    found = look(place, file)
    place.drop(file)
    return judge(line, what, found, accepted)


def is_whole_or_fault(line, what, came, accepted):
    """A run in which a call failed has done all, or says that its disk failed."""
    fault = b"fault F3 Closed\n" if came.out.startswith(b"listening ") else b"fault F2 Store\n"
    if accepted == line.commands:
        expect(f"{line.name}: {what}: its status", came.status, 0)
    elif came.status != 3 or fault not in came.out + came.err:
        fail(f"{line.name}: {what}: {accepted} commands were accepted, and came {came}")


def failures_of(kind):
    """In which ways a call of this kind fails: once or from then on, by which error. A read needs no room."""
    return product(("once", "forever"), (errno.EIO,) if kind == "r" else (errno.EIO, errno.ENOSPC))


def images_after_a_failed_sync(place, line, number):
    """What a cut of the power may leave after the end of a run whose sync with this number failed."""
    file, came, calls = place.run(line, f"{line.name}_sync_{number}", number, "once", errno.EIO)
    place.drop(file)
    is_whole_or_fault(line, f"a sync that fails at call {number}", came, accepted_in(calls))
    return images_of(f"sync_{number}_cut", *initial_of(line), calls, len(calls))


def opened(place, line, image):
    """The program opens what a cut of the power left. Gives whether the command that was under way was kept."""
    file = place.desk(f"{line.name}_{image.name}")
    file.write_bytes(image.desk.bytes())
    if image.log.length:
        file.with_name(f"{file.name}-wal").write_bytes(image.log.bytes())
    found = look(place, file)
    place.drop(file)
    return judge(line, image.what, found, image.accepted)


def at_one_moment(function):
    """What a function gives to several threads, which call it at the same instant with their numbers."""
    barrier = Barrier(TOGETHER)

    def wait_and_run(number):
        barrier.wait()
        return function(number)

    with ThreadPoolExecutor(TOGETHER) as pool:
        return list(pool.map(wait_and_run, range(TOGETHER)))


class Stops(Case):
    @classmethod
    def setUpClass(cls):
        cls.place = Place(cls.shared_folder().resolve())
        cls.lines = list(lines_to_stop(cls.place))
        for line in cls.lines:
            run_whole(cls.place, line)

    def times_kept(self, function, jobs):
        """How often a function says of these jobs that the command under way was kept. Several run at a time. A job is
        a line with what else the function takes, and those of a line are a subtest, with how many of them failed."""
        pool = ThreadPoolExecutor(PROCESSORS)
        try:
            runs = [(line, pool.submit(function, self.place, line, *words)) for line, *words in jobs]
            wait([run for _, run in runs])
        finally:
            # A signal ends the jobs too.
            pool.shutdown(cancel_futures=True)
        for line, of_line in groupby(runs, itemgetter(0)):
            wrong = [run.exception() for _, run in of_line if run.exception()]
            with self.subTest(line=line.name, failures=len(wrong)):
                if wrong:
                    raise wrong[0]
        return sum(run.result() for _, run in runs if not run.exception())

    def is_kept_of_some(self, function, jobs):
        """The same of all jobs of a kind, not of a few that were drawn: the command is kept after some of them, and not
        after all."""
        kept = self.times_kept(function, jobs)
        self.assertGreater(kept, 0, f"how often the command under way was kept, of {len(jobs)} times")
        self.assertLess(kept, len(jobs), "how often it was kept")

    def test_a_line_that_nothing_stops_accepts_its_commands_one_after_the_other(self):
        for line in self.lines:
            with self.subTest(line=line.name):
                self.assertEqual(line.came.status, 0)
                self.assertEqual(accepted_in(line.calls), line.commands)
                counts = [line.order(rows) if rows else -1 for rows in line.rows]
                self.assertEqual(counts, [*range(counts[0], counts[0] + len(counts))])

    def test_the_record_of_a_line_that_nothing_stops_makes_the_files_that_it_left(self):
        for line in self.lines:
            with self.subTest(line=line.name):
                is_recorded(line, "not stopped", line.left, line.calls)

    def test_the_log_is_copied_into_the_file_inside_an_act(self):
        self.assertTrue(is_copied_inside(self.lines[-1].calls))

    def test_a_kill_before_any_call_keeps_the_command_under_way_whole_or_not_at_all(self):
        jobs = [(line, number, "kill") for line in self.lines for number in line.numbers()]
        self.is_kept_of_some(stopped, jobs)

    def test_a_kill_after_half_of_any_write_keeps_the_command_under_way_whole_or_not_at_all(self):
        jobs = [(line, number, "half") for line in self.lines for number in line.numbers("w", 2)]
        self.assertTrue(jobs)
        self.times_kept(stopped, jobs)

    def test_a_call_that_fails_is_a_fault_and_keeps_the_command_under_way_whole_or_not_at_all(self):
        drawn, jobs = random.Random(SEED), []
        for line, kind in product(self.lines, "rwls"):
            could = product(Line.numbers(line, kind), failures_of(kind))
            failing = [(line, number, *failure) for number, failure in could]
            jobs += drawn.sample(failing, min(DRAWN, len(failing)))
        self.assertTrue(jobs)
        with self.subTest(seed=SEED):
            self.times_kept(stopped, jobs)

    def test_a_cut_of_the_power_at_any_time_keeps_the_command_under_way_whole_or_not_at_all(self):
        jobs = [(line, image) for line in self.lines for image in images_of("cut", *initial_of(line), line.calls)]
        self.is_kept_of_some(opened, jobs)

    def test_a_cut_of_the_power_after_a_sync_that_failed_keeps_the_command_whole_or_not_at_all(self):
        drawn, jobs = random.Random(SEED), []
        for line in self.lines:
            for number in drawn.sample(line.numbers("s"), SYNCS):
                with self.subTest(seed=SEED, line=line.name, sync=number):
                    jobs += [(line, image) for image in images_after_a_failed_sync(self.place, line, number)]
        self.assertTrue(jobs)
        with self.subTest(seed=SEED):
            self.times_kept(opened, jobs)

    def test_one_of_several_init_at_one_moment_makes_the_desk(self):
        for number in range(ROUNDS):
            with self.subTest(round=number):
                file = self.place.desk(f"init{number}")
                came = at_one_moment(lambda _: run("init", file))
                self.assertEqual(came.count(OK), 1, came)
                self.assertLessEqual({ran for ran in came if ran.status}, {STORE, OCCUPIED})
                self.assertEqual(look(self.place, file), NEW)

    def test_the_roll_has_what_was_accepted_of_several_once_at_one_moment(self):
        given = [request("POST", "/developers", f"login=d{it}&name=A&status=current") for it in range(TOGETHER)]
        taken = 0
        for number in range(ROUNDS):
            with self.subTest(round=number):
                file = self.place.desk(f"once{number}")
                make_desk(file)
                came = at_one_moment(lambda it: run("once", file, "--at", T0, given=given[it]))
                logins = [f"d{it}" for it, ran in enumerate(came) if ran.out.startswith(b"HTTP/1.1 200 ")]
                self.assertLessEqual({ran for ran in came if ran.status}, {STORE})
                self.assertEqual([login for login, *_ in look(self.place, file)["developer"]], logins)
                taken += len(logins)
        self.assertGreater(taken, 0)
