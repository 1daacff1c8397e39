"""Turns single bits, drawn by a seed, in the file of a desk whose pages end in sums, and in that of an equal desk
without; then in logs that a kill has left: what stands after such a bit is dropped, so that the desk is that of an
earlier act. At last it looks at copies of a desk with sums. The files in which bits turn lie in memory, where the
machine has a folder there, and several are looked at at a time."""
import os
import random
import sqlite3
import subprocess
import sys
from collections import Counter
from concurrent.futures import ThreadPoolExecutor
from contextlib import closing
from pathlib import Path
from tempfile import TemporaryDirectory

from tests.support.case import Case
from tests.support.eighteen import SCRIPT
from tests.support.journaled import DISCUSSION, Journaled
from tests.support.program import TOP, Ran, copy_desk, expect, fail, request, run, serve, tool

sys.path.insert(0, str(TOP / "tools"))
from grdesk.desk.copy import copied_again, log_of  # noqa: E402
from grdesk.desk.program import program  # noqa: E402
from grdesk.desk.row import rows_in  # noqa: E402
from grdesk.error import Failed  # noqa: E402

# How many bits are turned in the file of each of the two desks, and in a log of each.
BITS, OF_A_LOG = 2_000, 100
SEED = 58
# A folder in memory, where a write costs little.
IN_MEMORY = "/dev/shm"
# Where the file says how many bytes of each page are kept free for its sum, and how many that are.
KEPT_FREE = 20
OF_A_SUM = 8
STORE = Ran(3, b"", b"fault F2 Store\n")
OK = Ran(0, b"ok\n", b"")
# What becomes of a desk in which a bit turned.
SAME, EARLIER, ANOTHER = "the same desk", "an earlier desk", "another desk"


def new_desk(file, *words):
    """A desk with eighteen acts, made by `init` with these words."""
    expect("init", run("init", *words, file), OK)
    for at, path, form in SCRIPT:
        ran = run("once", file, "--at", at, given=request("POST", path, form))
        if ran.status != 0:
            fail(f"once {path}: {ran}")
    return file


def folder_of_copies(case):
    """A folder in memory, or otherwise one beside all that is temporary. It is gone after the tests of the class."""
    is_there = os.path.isdir(IN_MEMORY) and os.access(IN_MEMORY, os.W_OK | os.X_OK)
    place = TemporaryDirectory(dir=IN_MEMORY if is_there else None)
    case.addClassCleanup(place.cleanup)
    return place.name


def rows_of(file):
    """The rows of a desk by stock SQLite, or None where that finds none. It may write what it reads."""
    read = copied_again(str(file), "read")
    try:
        return rows_in(read, file)
    except Failed:
        return None


def sheets_of(file):
    return [run(*words) for words in (["roll", file], *([sheet, file, 1] for sheet in ("status", "tally", "result")))]


def roll(file):
    """What `roll` says of a file. So many runs are of the program itself, which was built before."""
    ran = subprocess.run([program(), "roll", file], stdin=subprocess.DEVNULL, capture_output=True, check=False)
    return Ran(ran.returncode, ran.stdout, ran.stderr)


def kept_free(file):
    return file.read_bytes()[KEPT_FREE]


def turn(content, bit):
    """The content with a bit turned."""
    turned = bytearray(content)
    turned[bit // 8] ^= 1 << bit % 8
    return bytes(turned)


def each_turned(content, count, copies, look):
    """Turns so many bits, each in a content of its own, and gives how often a look at it came to what. A look has a
    folder of its own, and several go on at a time."""

    def look_at(bit):
        with TemporaryDirectory(dir=copies) as own:
            return look(turn(content, bit), Path(own) / "turned.db")

    bits = random.Random(SEED).sample(range(8 * len(content)), count)
    with ThreadPoolExecutor(len(os.sched_getaffinity(0))) as pool:
        return Counter(pool.map(look_at, bits))


class Files(Case):
    """A desk whose pages end in sums, and an equal one without."""

    @classmethod
    def setUpClass(cls):
        work = cls.shared_folder()
        cls.plain, cls.summed = new_desk(work / "plain.db"), new_desk(work / "summed.db", "--sums")
        cls.copies = folder_of_copies(cls)

    def test_stock_sqlite_finds_both_sound(self):
        for file in self.plain, self.summed:
            with self.subTest(desk=file.stem):
                with closing(sqlite3.connect(copied_again(str(file), "checked"))) as conn:
                    self.assertEqual(conn.execute("PRAGMA integrity_check").fetchall(), [("ok",)])

    def test_each_has_room_for_sums_or_not_also_after_a_migration(self):
        for file, count in (self.plain, 0), (self.summed, OF_A_SUM):
            with self.subTest(desk=file.stem):
                self.assertEqual(kept_free(file), count)
                copy = copy_desk(file, self.folder() / file.name)
                self.assertEqual(run("migrate", copy), Ran(0, b"ok schema 2\n", b""))
                self.assertEqual(kept_free(copy), count)

    def test_both_have_the_same_rows_and_say_the_same(self):
        self.assertEqual(rows_of(self.summed), rows_of(self.plain))
        self.assertEqual(sheets_of(self.summed), sheets_of(self.plain))
        self.assertEqual(tool("voters", self.summed, 1), tool("voters", self.plain, 1))
        self.assertEqual(tool("clock", self.summed).status, tool("clock", self.plain).status)

    def test_a_turned_bit_of_a_desk_with_sums_is_a_fault_and_the_file_stays_as_it_is(self):
        def look(turned, file):
            file.write_bytes(turned)
            return roll(file), file.read_bytes() == turned

        found = each_turned(self.summed.read_bytes(), BITS, self.copies, look)
        self.assertEqual(found, {(STORE, True): BITS})

    def test_a_turned_bit_of_a_desk_without_sums_is_a_fault_or_makes_a_desk_which_may_be_another(self):
        rows = rows_of(self.plain)

        def look(turned, file):
            file.write_bytes(turned)
            ran = roll(file)
            if ran.status == 0:
                return SAME if rows_of(file) == rows else ANOTHER
            return ran

        found = each_turned(self.plain.read_bytes(), BITS, self.copies, look)
        for ran in found.keys() - {SAME, ANOTHER}:
            with self.subTest(ran=ran):
                self.assertEqual((ran.status, ran.out), (3, b""))
        self.assertGreater(found[ANOTHER], 0, "there was no need of sums")


class LogWithoutSums(Case):
    """Bits that turn in the log of a desk that a kill left, with a journal of its acts."""

    words = []

    @classmethod
    def setUpClass(cls):
        cls.desk, cls.rows = cls.stopped(cls.shared_folder())
        # The logs with a turned bit after which the desk has some of its acts, not all.
        cls.earlier = []
        content = Path(log_of(cls.desk.file)).read_bytes()
        cls.found = each_turned(content, OF_A_LOG, folder_of_copies(cls), cls.outcome)

    @classmethod
    def stopped(cls, work):
        """A desk which a kill left with acts in its log, and the rows after each number of its acts."""
        desk = Journaled(work, "desk")
        expect("init", run("init", *cls.words, desk.file), OK)
        rows = [rows_of(desk.file)]
        with serve(desk.file, 99) as served:
            for _, words, given, _ in DISCUSSION[:3]:
                ran = desk.run("act", "--port", served.port, "--journal", desk.journal, *words, given=given)
                expect(f"act {words[0]}", ran.status, 0)
                rows.append(rows_of(desk.file))
            served.kill()
        return desk, rows

    @classmethod
    def outcome(cls, turned, file):
        """What becomes of the desk with a turned bit in its log: the line of the program, or which desk it is."""
        copy_desk(cls.desk.file, file)
        Path(log_of(file)).write_bytes(turned)
        ran = roll(file)
        if ran.status != 0:
            return ran.err.decode().strip()
        read = rows_of(file)
        if read not in cls.rows:
            return ANOTHER
        count = cls.rows.index(read)
        if 0 < count < len(cls.rows) - 1:
            cls.earlier.append(turned)
        return SAME if count == len(cls.rows) - 1 else EARLIER

    def desk_with_an_earlier_log(self):
        """The desk and its journal, with a log that took an act away and left one."""
        self.assertTrue(self.earlier, "no bit of the log took an act away and left one")
        desk = self.desk.copied(self.folder(), "desk")
        Path(log_of(desk.file)).write_bytes(self.earlier[0])
        return desk

    def test_a_turned_bit_makes_no_other_desk_than_one_that_was(self):
        self.assertEqual(self.found.total(), OF_A_LOG)
        self.assertEqual(self.found[ANOTHER], 0, self.found)
        self.assertGreater(self.found[EARLIER], 0, self.found)

    def test_the_tools_that_have_the_journal_report_a_desk_that_lacks_acts(self):
        desk = self.desk_with_an_earlier_log()
        for name, words in (
            ("clock", [desk.file, "--journal", desk.journal]),
            ("journal", ["check", desk.journal, desk.file]),
            ("act", ["--desk", desk.file, "--journal", desk.journal, "sponsor", "1", "choice=1", "login=d3"]),
        ):
            with self.subTest(tool=name):
                ran = tool(name, *words)
                self.assertEqual(ran.status, 1, ran)
                self.assertIn(f"{desk.file} lacks acts that {desk.journal} has", ran.err.decode())

    def test_a_replay_brings_back_the_acts_that_a_desk_lacks_and_keeps_its_sums(self):
        desk = self.desk_with_an_earlier_log()
        count = kept_free(desk.file)
        self.assertEqual(desk.run("journal", "replay", desk.journal, desk.file).status, 0)
        self.assertEqual(kept_free(desk.file), count)
        self.assertEqual(tool("clock", desk.file, "--journal", desk.journal).status, 0)


class LogWithSums(LogWithoutSums):
    words = ["--sums"]


class Copies(Case):
    """Copies of a desk with sums."""

    @classmethod
    def setUpClass(cls):
        cls.summed = new_desk(cls.shared_folder() / "summed.db", "--sums")

    def test_a_copy_of_a_desk_with_sums_has_them(self):
        work = self.folder()
        copy, again = work / "copy.db", work / "again.db"
        self.assertEqual(tool("backup", self.summed, copy), OK)
        self.assertEqual(tool("restore", copy, again), OK)
        self.assertEqual(sheets_of(again), sheets_of(self.summed))
        self.assertEqual(kept_free(again), OF_A_SUM)

    def test_of_a_damaged_desk_no_copy_is_made_and_none_of_the_older_ones_goes(self):
        work = self.folder()
        desk, copies, damaged = copy_desk(self.summed, work / "desk.db"), work / "backups", work / "damaged.db"
        copies.mkdir()
        for words in ["--keep", 3], ["--thin"]:
            self.assertEqual(tool("backup", *words, desk, copies), OK)
        kept = sorted(path.name for path in copies.iterdir())
        content = desk.read_bytes()
        desk.write_bytes(turn(content, 8 * (len(content) - 100)))
        for words, to in (["--keep", 1], copies), (["--thin"], copies), ([], damaged):
            with self.subTest(words=words):
                ran = tool("backup", *words, desk, to)
                self.assertEqual((ran.status, ran.out), (3, b""))
                self.assertIn(b"the copy does not open, and is not kept", ran.err)
                self.assertEqual(sorted(path.name for path in copies.iterdir()), kept)
                self.assertFalse(damaged.exists())
