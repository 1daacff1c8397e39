"""Holds the file of a desk against other programs. While `serve` runs, stock SQLite reports that the file is locked,
and so does a second run of the program; `serve` goes on undisturbed. While nobody holds the file it is sound to stock
SQLite and has the rows of what was accepted: without its log after the end of `serve`, `once` and `import`, and with it
right after a kill. Stock SQLite is Python's, and the command sqlite3 where there is one."""
import shutil
import sqlite3
import unittest
from contextlib import closing
from typing import NamedTuple

from tests.support.case import Case
from tests.support.program import T0, Ran, copy_desk, expect, free_port, make_desk, once, run, runs, serve

COMMAND = shutil.which("sqlite3")
needs_the_command = unittest.skipUnless(COMMAND, "sqlite3 is not installed")
NEW = "name=A+Name&status=current"
NOTHING = Ran(0, b"", b"")

# What stock SQLite is kept from.
STATEMENTS = ["SELECT * FROM developer", "DELETE FROM developer", "BEGIN EXCLUSIVE", "PRAGMA wal_checkpoint"]


def lines_over(file, csv):
    """A line of each subcommand."""
    return [
        ["init", file],
        ["once", file],
        ["serve", file, "--port", free_port(), "--count", 1],
        ["import", file, csv],
        ["roll", file],
        ["status", file, 1],
        ["tally", file, 1],
        ["result", file, 1],
        ["migrate", file],
    ]


def by_stock_sqlite(file, statement):
    """What Python's SQLite finds by a statement, or what it reports."""
    with closing(sqlite3.connect(file, timeout=0, isolation_level=None)) as conn:
        try:
            return conn.execute(statement).fetchall()
        except sqlite3.OperationalError as error:
            return str(error)


class HeldFiles(Case):
    """While `serve` runs, before its first act, after one, and after three. What came of others then is kept by the
    number of acts and by what they tried."""

    @classmethod
    def setUpClass(cls):
        place = cls.shared_folder()
        cls.file, cls.csv = place / "desk.db", place / "roll.csv"
        cls.csv.write_text("login,name,status\ndave,A Name,current\n")
        make_desk(cls.file)
        cls.by_python, cls.by_command, cls.by_program = {}, {}, {}
        with serve(cls.file, 4, "--at", T0) as desk:
            cls.try_all(0)
            cls.acts = [desk.ask("POST", "/developers", f"login=alice&{NEW}")]
            cls.try_all(1)
            cls.acts += [desk.ask("POST", "/developers", f"login=bob&{NEW}") for _ in range(2)]
            cls.try_all(3)
            cls.sheet = desk.ask("GET", "/status/1")
            cls.ended = desk.ended()

    @classmethod
    def try_all(cls, acts):
        for statement in STATEMENTS:
            cls.by_python[acts, statement] = by_stock_sqlite(cls.file, statement)
            if COMMAND:
                cls.by_command[acts, statement] = runs([COMMAND, cls.file, statement])
        for line in lines_over(cls.file, cls.csv):
            cls.by_program[acts, line[0]] = run(*line)

    def test_stock_sqlite_reports_that_a_served_file_is_locked(self):
        for (acts, statement), came in self.by_python.items():
            with self.subTest(statement, acts=acts):
                self.assertEqual(came, "database is locked")

    @needs_the_command
    def test_the_command_sqlite3_reports_that_a_served_file_is_locked(self):
        for (acts, statement), ran in self.by_command.items():
            with self.subTest(statement, acts=acts):
                self.assertNotEqual(ran.status, 0)
                self.assertIn(b"database is locked", ran.err)

    def test_each_line_of_the_program_reports_the_fault_of_the_store_over_a_served_file(self):
        for (acts, subcommand), ran in self.by_program.items():
            with self.subTest(subcommand, acts=acts):
                self.assertEqual(ran, Ran(3, b"", b"fault F2 Store\n"))

    def test_serve_goes_on_undisturbed(self):
        self.assertEqual(self.acts, [(200, f"ok {number}\n") for number in (1, 2, 3)])
        self.assertEqual(self.sheet, (409, "refused 9 NoResolution\n"))
        self.assertEqual(self.ended, NOTHING)


class Freed(NamedTuple):
    """A file that nobody holds any more, how many acts it has, and its developers."""

    file: object
    accepted: int
    logins: list


class FreeFiles(Case):
    """While nobody holds the file. Each of the files is only copied."""

    @classmethod
    def setUpClass(cls):
        place = cls.shared_folder()
        csv = place / "roll.csv"
        csv.write_text("login,name,status\ndave,A Name,current\n")
        served = Freed(place / "served.db", 3, ["alice", "bob"])
        cls.by_serve(served.file)
        once_more = Freed(copy_desk(served.file, place / "once.db"), 4, [*served.logins, "carol"])
        once(once_more.file, T0, "/developers", f"login=carol&{NEW}", "ok 4")
        imported = Freed(copy_desk(served.file, place / "import.db"), 4, [*served.logins, "dave"])
        line = b"ok 4 added 1 changed 0 same 0\n"
        expect("import", run("import", imported.file, csv, "--at", T0), Ran(0, line, b""))
        cls.killed = Freed(copy_desk(served.file, place / "killed.db"), 4, [*served.logins, "erin"])
        with serve(cls.killed.file, 9, "--at", T0) as desk:
            desk.accepts("/developers", f"login=erin&{NEW}", "ok 4")
            desk.kill()
        cls.ended = {"serve": served, "once": once_more, "import": imported}
        cls.csv = csv

    @classmethod
    def by_serve(cls, file):
        """Makes a desk and has `serve` take three acts, up to its end."""
        make_desk(file)
        with serve(file, 3, "--at", T0) as desk:
            for number, login in enumerate(["alice", "bob", "bob"], start=1):
                desk.accepts("/developers", f"login={login}&{NEW}", f"ok {number}")
            expect("the end of serve", desk.ended(), NOTHING)

    def copy_alone(self, freed):
        """A copy of a file without its log."""
        return freed._replace(file=shutil.copyfile(freed.file, self.folder() / "desk.db"))

    def copy(self, freed):
        """A copy of a file, with its log beside it."""
        return freed._replace(file=copy_desk(freed.file, self.folder() / "desk.db"))

    def copies(self):
        """Copies of the files, by what came before."""
        for name, freed in self.ended.items():
            yield f"{name}, the file alone", self.copy_alone(freed)
        yield "serve", self.copy(self.ended["serve"])
        yield "a kill", self.copy(self.killed)

    def is_sound(self, freed):
        """Python's SQLite finds the rows."""
        with closing(sqlite3.connect(freed.file, timeout=0)) as conn:
            self.assertEqual(conn.execute("PRAGMA integrity_check").fetchall(), [("ok",)])
            self.assertEqual(conn.execute("SELECT * FROM desk").fetchall(), [(1, 2, freed.accepted, T0)])
            rows = [(login, "A Name", 1) for login in freed.logins]
            self.assertEqual(conn.execute("SELECT * FROM developer ORDER BY login").fetchall(), rows)

    def has_the_roll(self, freed):
        """The program finds the developers."""
        lines = "".join(f"D: {login} current A Name\n" for login in freed.logins)
        text = f"Developers: {len(freed.logins)}\nCurrent: {len(freed.logins)}\n{lines}"
        self.assertEqual(run("roll", freed.file), Ran(0, text.encode(), b""))

    def test_a_killed_serve_leaves_a_log(self):
        self.assertGreater(self.killed.file.with_name("killed.db-wal").stat().st_size, 0)

    def test_a_file_is_sound_to_stock_sqlite_and_has_its_rows(self):
        for after, freed in self.copies():
            with self.subTest(after):
                self.is_sound(freed)

    @needs_the_command
    def test_the_command_sqlite3_finds_a_file_sound_with_its_rows(self):
        statements = "PRAGMA integrity_check; SELECT login FROM developer ORDER BY login"
        for after, freed in self.copies():
            with self.subTest(after):
                ran = runs([COMMAND, freed.file, statements])
                self.assertEqual((ran.status, ran.out.decode().splitlines()), (0, ["ok", *freed.logins]), ran.err)

    def test_the_program_finds_the_rows(self):
        for after, freed in self.copies():
            with self.subTest(after):
                self.has_the_roll(freed)

    def test_a_killed_desk_goes_on_after_what_stock_sqlite_did_with_its_log(self):
        freed = self.copy(self.killed)
        self.is_sound(freed)
        with serve(freed.file, 1, "--at", T0) as desk:
            desk.accepts("/import", self.csv.read_text(), "ok 5 added 1 changed 0 same 0")
            self.assertEqual(desk.ended(), NOTHING)
        self.has_the_roll(freed._replace(logins=["alice", "bob", "dave", "erin"]))
