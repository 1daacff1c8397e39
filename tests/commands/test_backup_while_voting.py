"""Copies a desk two hundred times by gr-desk backup, one after the other, while votes come in one stream: by `serve`,
which is killed now and then, by `once`, and with an `import` between them. Each copy is looked at, and each twentieth
one is put in the place of a desk that is gone, by gr-desk restore."""
import os
import re
import signal
import sqlite3
import subprocess
import time
from collections import Counter
from contextlib import closing
from threading import Event, Thread
from typing import NamedTuple

from tests.support.case import Case
from tests.support.program import (
    DAY,
    PATIENCE,
    PRIVATE,
    T0,
    TOP,
    Ran,
    compile_tools,
    copy_desk,
    expect,
    make_desk,
    modes_of,
    once,
    receipt,
    request,
    response,
    run,
    serve,
)

COPIES = 200
LEAST_MET = 10
# So many copies, one after the other, have one among them that is held up in its midst until the log has begun anew.
HELD_UP = 5
# So many have one among them that is restored.
RESTORED = 20
VOTERS = 100
# The votes of a `serve`, of two kinds: the log of the greater one begins anew by itself, after some 250 votes.
FEW, MANY = 25, 320
ONCES = 8

CALLED, ENDED = T0 + 14 * DAY, T0 + 21 * DAY
LOGINS = [f"d{number:03}" for number in range(VOTERS)]
ROLL_FILE = "login,name,status\n" + "".join(f"{login},A Name,current\n" for login in LOGINS)
# Resolutions with long texts, so that a copy takes its time; a vote is called on the first one.
RESOLUTIONS = 40
# The commands before the stream: an import, these proposals and a call.
FIRST = RESOLUTIONS + 2

OK = Ran(0, b"ok\n", b"")
# What a copy says of itself: at which try it was made, and in how many tries the log began anew.
SAID = re.compile(r"\Agr-desk backup: copied at try (\d+); the log began anew in (\d+)\n\Z")


def new_desk(work):
    """A desk on which a vote is called, with many texts."""
    file = work / "desk.db"
    (work / "roll.csv").write_text(ROLL_FILE)
    make_desk(file)
    added = f"ok 1 added {VOTERS} changed 0 same 0\n"
    expect("import", run("import", file, work / "roll.csv", "--at", T0), Ran(0, added.encode(), b""))
    form = f"author=@leader&summary=Red&text={'The+desk+is+painted+red.+' * 790}&ratio=1"
    with serve(file, RESOLUTIONS, "--at", T0) as desk:
        for number in range(1, RESOLUTIONS + 1):
            desk.accepts("/resolutions", form, f"ok {number + 1} resolution {number}")
        desk.ended()
    once(file, CALLED, "/resolutions/1/call", "days=7", f"ok {FIRST} places 2 until {ENDED}")
    return file


class Stream(Thread):
    """Commands one after the other, until it must end. What came of each is looked at."""

    def __init__(self, file, csv):
        super().__init__(daemon=True)
        self.file, self.csv = file, csv
        # The ballot of each command after the first ones, or None for an import; the last one may be under way.
        self.planned = []
        # How often each voter has voted.
        self.votes = Counter()
        self.acknowledged = FIRST
        self.enough = Event()
        self.wrong = None
        self.runs = {"serve": 0, "kill": 0, "once": 0, "import": 0}

    def run(self):
        try:
            while not self.enough.is_set():
                self.stream_by_serve(MANY if self.runs["serve"] % 4 == 0 else FEW)
                for _ in range(ONCES):
                    self.vote_by_once()
                self.import_roll()
        except (SystemExit, Exception) as wrong:
            self.wrong = f"the stream ended: {wrong!r}"

    def next_vote(self):
        """The form of the next vote, and the line of its response."""
        number = self.acknowledged + 1
        login, ranks, token = LOGINS[number * 7 % VOTERS], "12-1"[number % 3 :][:2], f"token{number:05}"
        self.votes[login] += 1
        ballot = login, ranks, receipt(1, login, token), self.votes[login]
        self.planned.append(ballot)
        return f"login={login}&ranks={ranks}&token={token}", f"ok {number} receipt {ballot[2]}"

    def stream_by_serve(self, votes):
        is_killed = self.runs["serve"] % 3 == 2
        with serve(self.file, 1_000_000 if is_killed else votes, "--at", CALLED) as desk:
            for _ in range(votes):
                form, line = self.next_vote()
                desk.accepts("/resolutions/1/vote", form, line)
                self.acknowledged += 1
            if is_killed:
                desk.kill()
                self.runs["kill"] += 1
            else:
                expect("serve: its end", desk.ended(), Ran(0, b"", b""))
        self.runs["serve"] += 1

    def vote_by_once(self):
        form, line = self.next_vote()
        given = request("POST", "/resolutions/1/vote", form)
        ran = run("once", self.file, "--at", CALLED, given=given)
        expect(f"once with {form}", ran, Ran(0, response(200, f"{line}\n"), b""))
        self.acknowledged += 1
        self.runs["once"] += 1

    def import_roll(self):
        self.planned.append(None)
        line = f"ok {self.acknowledged + 1} added 0 changed 0 same {VOTERS}\n"
        expect("import", run("import", self.file, self.csv, "--at", CALLED), Ran(0, line.encode(), b""))
        self.acknowledged += 1
        self.runs["import"] += 1

    def ballots(self, accepted):
        """The ballots after so many commands."""
        last = {ballot[0]: ballot for ballot in self.planned[: accepted - FIRST] if ballot}
        return [last[login] for login in sorted(last)]


def tool(name, *words, held_up_by=None):
    """Runs a tool to its end. It may be held up while it copies, until the log of this desk has begun anew."""
    pipe = subprocess.PIPE
    line = [TOP / "tools" / "gr-desk", name, *words]
    with subprocess.Popen(line, stdin=subprocess.DEVNULL, stdout=pipe, stderr=pipe) as process:
        try:
            if held_up_by:
                hold_up(process, held_up_by, words[-1].parent)
            out, err = process.communicate(timeout=PATIENCE)
        finally:
            process.kill()
    return Ran(process.returncode, out, err)


def hold_up(process, desk, place):
    """Stops a tool as soon as its copy is begun, and lets it go on when the log of the desk has another head."""
    while process.poll() is None and not any(os.path.exists(f"{place}/{name}/desk") for name in os.listdir(place)):
        pass
    process.send_signal(signal.SIGSTOP)
    head = head_of(desk)
    limit = time.monotonic() + PATIENCE
    while head_of(desk) == head and time.monotonic() < limit:
        time.sleep(0.001)
    process.send_signal(signal.SIGCONT)


def head_of(desk):
    with open(f"{desk}-wal", "rb") as log:
        return log.read(32)


class Copy(NamedTuple):
    """What was found of a copy: how it was made, how many commands were acknowledged before it began, and by its end
    with the one that was under way. Then its modes and the outcome of sha256sum; and by stock SQLite whether it is
    sound, how many commands it has, its clock and its ballots."""

    name: str
    ran: Ran
    least: int
    most: int
    modes: list
    summed: Ran
    integrity: list
    accepted: int
    clock: int
    ballots: list


def found(copy, ran, least, most):
    line = ["sha256sum", "-c", f"{copy.name}.sha256"]
    said = subprocess.run(line, cwd=copy.parent, capture_output=True, check=False)
    summed = Ran(said.returncode, said.stdout, said.stderr)
    # Stock SQLite would take away the log of a copy, so it reads one of the copy.
    with closing(sqlite3.connect(copy_desk(copy, copy.parent.parent / "read.db"))) as conn:
        integrity = conn.execute("PRAGMA integrity_check").fetchall()
        [(accepted, clock)] = conn.execute("SELECT accepted, clock FROM desk")
        ballots = conn.execute("SELECT login, ranks, receipt, received FROM ballot2 ORDER BY login").fetchall()
    return Copy(copy.name, ran, least, most, modes_of(copy), summed, integrity, accepted, clock, ballots)


class Restored(NamedTuple):
    """What came of a restore of a copy, of the close of its vote, and of its tally."""

    copy: Copy
    restore: Ran
    close: Ran
    tally: Ran


def restored(copy, path):
    """Puts a copy in the place of a desk that is gone, and closes its vote. That desk is gone afterwards."""
    desk = path.with_name("restored.db")
    restore = tool("restore", path, desk)
    close = run("once", desk, "--at", ENDED, given=request("POST", "/resolutions/1/close"))
    tally = run("tally", desk, 1)
    for each in desk.parent.glob("restored.db*"):
        each.unlink()
    return Restored(copy, restore, close, tally)


class Copies(Case):
    @classmethod
    def setUpClass(cls):
        compile_tools()
        work = cls.shared_folder()
        file = new_desk(work)
        cls.place = work / "copies"
        cls.place.mkdir()
        # The copies that were made, those of them that were restored, what stood beside each in its folder, and what
        # came of the other runs.
        cls.copies, cls.restored, cls.beside, cls.failed = [], [], {}, []
        cls.stream = Stream(file, work / "roll.csv")
        cls.stream.start()
        try:
            for number in range(COPIES):
                if cls.stream.is_alive():
                    cls.copy(number, file)
        finally:
            cls.stream.enough.set()
            cls.stream.join(PATIENCE)

    @classmethod
    def copy(cls, number, file):
        """Makes a copy, and looks at it. It is gone afterwards."""
        path = cls.place / f"copy{number}.db"
        least = cls.stream.acknowledged
        ran = tool("backup", "--verbose", file, path, held_up_by=file if number % HELD_UP == 0 else None)
        most = cls.stream.acknowledged + 1
        if ran.status != 0:
            cls.failed.append((path.name, ran))
            return
        copy = found(path, ran, least, most)
        cls.copies.append(copy)
        if number % RESTORED == RESTORED - 1:
            cls.restored.append(restored(copy, path))
        cls.beside[path.name] = sorted(each.name for each in cls.place.iterdir())
        for each in cls.place.iterdir():
            each.unlink()

    def made(self):
        """The copies that were made, of which there are some."""
        self.assertTrue(self.copies, "no copy was made")
        return self.copies

    def test_the_stream_goes_on_until_the_last_copy_and_ends(self):
        self.assertIsNone(self.stream.wrong)
        self.assertFalse(self.stream.is_alive(), "the stream does not end")

    def test_the_stream_has_commands_of_each_kind(self):
        for kind, count in self.stream.runs.items():
            with self.subTest(kind=kind):
                self.assertGreaterEqual(count, 2)

    def test_each_run_makes_a_copy_and_says_at_which_try(self):
        self.assertEqual(self.failed, [])
        self.assertEqual(len(self.copies), COPIES)
        for copy in self.copies:
            with self.subTest(copy=copy.name):
                self.assertEqual(copy.ran.out, b"ok\n")
                self.assertRegex(copy.ran.err.decode(), SAID)

    def test_copies_meet_a_log_that_began_anew(self):
        said = [SAID.match(copy.ran.err.decode()) for copy in self.copies]
        self.assertGreaterEqual(sum(each is not None and each[2] != "0" for each in said), LEAST_MET)

    def test_a_copy_has_three_files_and_nothing_else_is_left(self):
        self.assertEqual(len(self.beside), len(self.made()))
        for name, beside in self.beside.items():
            with self.subTest(copy=name):
                self.assertEqual(beside, [name, f"{name}-wal", f"{name}.sha256"])

    def test_a_copy_is_private(self):
        for copy in self.made():
            with self.subTest(copy=copy.name):
                self.assertEqual(copy.modes, PRIVATE)

    def test_the_digests_of_a_copy_are_right(self):
        for copy in self.made():
            with self.subTest(copy=copy.name):
                self.assertEqual((copy.summed.status, copy.summed.err), (0, b""))

    def test_a_copy_is_sound(self):
        for copy in self.made():
            with self.subTest(copy=copy.name):
                self.assertEqual(copy.integrity, [("ok",)])

    def test_a_copy_has_the_commands_up_to_a_moment_between_its_beginning_and_its_end(self):
        for copy in self.made():
            with self.subTest(copy=copy.name):
                self.assertLessEqual(copy.least, copy.accepted)
                self.assertLessEqual(copy.accepted, copy.most)
                self.assertEqual(copy.clock, CALLED)
                self.assertEqual(copy.ballots, self.stream.ballots(copy.accepted))

    def test_a_copy_in_the_place_of_a_desk_goes_on_and_its_tally_has_its_ballots(self):
        self.assertEqual(len(self.restored), COPIES // RESTORED)
        for copy, restore, close, tally in self.restored:
            with self.subTest(copy=copy.name):
                self.assertEqual(restore, OK)
                self.assertEqual(close, Ran(0, response(200, f"ok {copy.accepted + 1}\n"), b""))
                ballots = sorted((digits, ranks) for _, ranks, digits, _ in self.stream.ballots(copy.accepted))
                lines = "".join(f"V: {ranks} {digits}\n" for digits, ranks in ballots)
                head = f"Tally of resolution 1\nOption 1: Red\nOption 2: None of the above\nBallots: {len(ballots)}\n"
                self.assertEqual(tally, Ran(0, f"{head}{lines}".encode(), b""))
