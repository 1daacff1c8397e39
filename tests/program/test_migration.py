"""Brings files of version 1 to version 2 by `migrate`: two that stock SQLite made, of which one has 34 choices and
ranks with letters, one that stands beside other tables, one whose rows stand in its log alone, and one that a program
of version 1 made. Then files that no migration may change, with the fault of each. test_stops.py stops a migration."""
import sqlite3
import subprocess
import sys
from contextlib import closing

from tests.support import version_1
from tests.support.case import Case
from tests.support.eighteen import CALLED, CLOSED, SCRIPT
from tests.support.program import (
    PATIENCE,
    T0,
    TOP,
    Ran,
    bytes_of,
    copy_desk,
    expect,
    fail,
    make_desk,
    once,
    receipt,
    request,
    run,
    runs,
    serve,
)

MIGRATED = Ran(0, b"ok schema 2\n", b"")
NO_FILE = Ran(3, b"", b"no file\n")
STORE = Ran(3, b"", b"fault F2 Store\n")
DAMAGED = Ran(3, b"", b"fault F4 Damaged\n")
TOO_NEW = Ran(3, b"", b"fault F5 TooNew\n")
NOT_A_DESK = Ran(3, b"", b"fault F6 NotADesk\n")
TOO_OLD = Ran(3, b"", b"fault F7 TooOld\n")
OCCUPIED = Ran(3, b"", b"fault F8 Occupied\n")

# What is no desk, and what stands beside one of the desks.
NOTES = """
CREATE TABLE note (id INTEGER PRIMARY KEY AUTOINCREMENT, title TEXT NOT NULL);
INSERT INTO note (title) VALUES ('Red'), ('Green');
CREATE INDEX by_title ON note (title);
CREATE VIEW title AS SELECT title FROM note;
"""
MEMBERS = """
CREATE TABLE member (login TEXT REFERENCES developer (login), since INTEGER);
INSERT INTO member VALUES ('d1', 2001), (NULL, 1999);
"""
# A table that refers to a ballot of version 1, whose rows a migration takes out. The text is completed by what must
# happen then.
REFERRING = """
CREATE TABLE of_ballot (resolution INTEGER, login TEXT,
  FOREIGN KEY (resolution, login) REFERENCES ballot {});
INSERT INTO of_ballot VALUES (1, 'd1'), (NULL, NULL);
"""


def of_script(file):
    version_1.make(file, version_1.OF_SCRIPT)


def of_letters(file):
    version_1.make(file, version_1.OF_LETTERS)


def beside_others(file):
    of_script(file)
    change(file, NOTES, MEMBERS)


def in_log(file):
    """A file whose tables stand in its write-ahead log alone, since the process that made it ends with no close."""
    line = """
import os, sqlite3, sys
from tests.support import version_1
conn = sqlite3.connect(sys.argv[1], isolation_level=None)
conn.execute("PRAGMA journal_mode = WAL")
conn.execute("PRAGMA wal_autocheckpoint = 0")
version_1.fill(conn, version_1.OF_SCRIPT)
os._exit(0)
"""
    subprocess.run([sys.executable, "-B", "-c", line, file], cwd=TOP, check=True, timeout=PATIENCE)
    if b"CREATE TABLE" in bytes_of(file):
        fail("the log does not have the tables for itself")


# The files, with the rows of each.
FILES = {
    "the script's rows": (of_script, version_1.OF_SCRIPT),
    "34 choices and ranks with letters": (of_letters, version_1.OF_LETTERS),
    "the script's rows beside other tables": (beside_others, version_1.OF_SCRIPT),
    "the script's rows in a log": (in_log, version_1.OF_SCRIPT),
    "a file that a program of version 1 made": (version_1.unpack, version_1.OF_SCRIPT),
}


def change(file, *statements):
    """Has stock SQLite change the file."""
    with closing(sqlite3.connect(file)) as conn:
        for statement in statements:
            conn.executescript(statement)


def listed(file):
    """The text of each table, index and view of the file, and its rows by table, as stock SQLite finds them."""
    with closing(sqlite3.connect(file)) as conn:
        expect(f"integrity of {file.name}", conn.execute("PRAGMA integrity_check").fetchall(), [("ok",)])
        texts = conn.execute("SELECT name, sql FROM sqlite_schema WHERE sql IS NOT NULL ORDER BY rowid").fetchall()
        kinds = conn.execute("SELECT name FROM sqlite_schema WHERE type = 'table'").fetchall()
        return texts, {name: conn.execute(f"SELECT * FROM {name} ORDER BY 1, 2").fetchall() for (name,) in kinds}


def of_version(number):
    return f"UPDATE desk SET version = {number}"


def left_by_a_kill(file):
    """A desk of version 2 with a commit in its log, whose `serve` was killed."""
    make_desk(file)
    with serve(file, 9, "--at", T0) as desk:
        desk.accepts("/developers", "login=d1&name=One&status=current", "ok 1")
        desk.kill()


def header_alone(*row):
    """A file that has the table desk with one row, and no other table."""
    statement = version_1.STATEMENTS.split(";")[0]
    return lambda file: change(file, f"{statement}; INSERT INTO desk VALUES {row};")


def of_script_with(*statements):
    """A file of version 1 that stock SQLite changed."""

    def make(file):
        of_script(file)
        change(file, *statements)

    return make


def new_with(*statements):
    """A new desk that stock SQLite changed."""

    def make(file):
        make_desk(file)
        change(file, *statements)

    return make


# Files that no migration changes: what makes each, what `migrate` says of it, and what `roll` says.
KEPT = {
    "no file": (lambda file: None, NO_FILE, NO_FILE),
    "an empty file": (lambda file: file.write_bytes(b""), NOT_A_DESK, NOT_A_DESK),
    "no desk": (lambda file: change(file, NOTES), NOT_A_DESK, NOT_A_DESK),
    "a later version": (of_script_with(of_version(3)), TOO_NEW, TOO_NEW),
    "a header of version 3 alone": (header_alone(1, 3, 0, 0), TOO_NEW, TOO_NEW),
    "a header of version 3 with the id 2": (header_alone(2, 3, 0, 0), DAMAGED, DAMAGED),
    "a header of version 2 alone": (header_alone(1, 2, 0, 0), DAMAGED, DAMAGED),
    "a header of version 1 alone": (header_alone(1, 1, 0, 0), DAMAGED, TOO_OLD),
    "version 2 over the tables of version 1": (of_script_with(of_version(2)), DAMAGED, DAMAGED),
    "version 1 over the tables of version 2": (new_with(of_version(1)), DAMAGED, TOO_OLD),
    "version 0": (of_script_with(of_version(0)), DAMAGED, TOO_OLD),
    "version -1": (of_script_with(of_version(-1)), DAMAGED, TOO_OLD),
    "a missing voter": (of_script_with("DELETE FROM developer WHERE login = 'd3'"), DAMAGED, TOO_OLD),
    "a missing table": (of_script_with("DROP TABLE sponsor"), DAMAGED, TOO_OLD),
    "a ballot of two ranks": (of_script_with("UPDATE ballot SET ranks = '13' WHERE login = 'd3'"), DAMAGED, TOO_OLD),
    "a damaged desk of version 2": (new_with("UPDATE desk SET clock = 5"), DAMAGED, DAMAGED),
    "a table ballot2": (of_script_with("CREATE TABLE ballot2 (box)"), OCCUPIED, TOO_OLD),
    "a view Ballot2": (of_script_with("CREATE VIEW Ballot2 AS SELECT 1"), OCCUPIED, TOO_OLD),
    "an index BALLOT2": (of_script_with("CREATE INDEX BALLOT2 ON developer (name)"), OCCUPIED, TOO_OLD),
    "damage, and a table ballot2": (
        of_script_with("DELETE FROM choice", "CREATE TABLE ballot2 (box)"),
        DAMAGED,
        TOO_OLD,
    ),
    "a row that refers to a ballot": (of_script_with(REFERRING.format("")), STORE, TOO_OLD),
    "a row without which no ballot may go": (of_script_with(REFERRING.format("ON DELETE RESTRICT")), STORE, TOO_OLD),
    "a desk of version 2": (make_desk, MIGRATED, None),
    "one beside a table ballot": (new_with("CREATE TABLE ballot (box)"), MIGRATED, None),
    "one that a kill left with its log": (left_by_a_kill, MIGRATED, None),
}


class Migration(Case):
    @classmethod
    def setUpClass(cls):
        # Files by what made them, as they were made and as they were migrated.
        cls.files, cls.migrated_files = {}, {}

    def made(self, make):
        """The path of a file in a folder of its own. It is made once, and copied after that."""
        if make not in self.files:
            file = self.shared_folder() / "made.db"
            make(file)
            self.files[make] = file
        return copy_desk(self.files[make], self.folder() / "desk.db")

    def migrated(self, make):
        """The same after a migration, which is made once too."""
        if make not in self.migrated_files:
            file = copy_desk(self.made(make), self.shared_folder() / "migrated.db")
            self.assertEqual(run("migrate", file), MIGRATED)
            self.migrated_files[make] = file
        return copy_desk(self.migrated_files[make], self.folder() / "desk.db")

    def test_a_file_of_version_1_has_its_rows_before_the_migration(self):
        for name, (make, rows) in FILES.items():
            with self.subTest(file=name):
                _, held = listed(self.made(make))
                self.assertEqual({table: held.get(table) for table in rows}, rows)

    def test_other_subcommands_say_that_the_file_is_too_old_and_leave_it(self):
        csv = self.folder() / "roll.csv"
        csv.write_text("login,name,status\n")
        for name, (make, rows) in FILES.items():
            file = self.made(make)
            held = bytes_of(file)
            lines = {
                ("once", file): TOO_OLD,
                ("serve", file, "--port", 1, "--count", 1): TOO_OLD,
                ("import", file, csv): TOO_OLD,
                ("roll", file): TOO_OLD,
                ("status", file, 1): TOO_OLD,
                ("tally", file, 1): TOO_OLD,
                ("result", file, 1): TOO_OLD,
                # A new desk has no table of the name `ballot`, but the other five.
                ("init", file): OCCUPIED,
            }
            for line, expected in lines.items():
                with self.subTest(file=name, line=line[0]):
                    self.assertEqual(run(*line, given=request("GET", "/roll")), expected)
                    self.assertTrue(bytes_of(file) == held, "the file is another")
            with self.subTest(file=name, line="migrate"):
                self.assertEqual(run("migrate", file), MIGRATED)
                found = listed(file)[1]
                expected = version_1.migrated(rows)
                self.assertEqual({table: found.get(table) for table in expected}, expected)

    def test_a_migration_adds_a_table_and_moves_the_ballots_into_it_in_the_file_alone(self):
        for name, (make, rows) in FILES.items():
            with self.subTest(file=name):
                texts, held = listed(self.made(make))
                beside = {table: found for table, found in held.items() if table not in rows}
                # The file has it by itself.
                alone = self.folder() / "alone.db"
                alone.write_bytes(bytes_of(self.migrated(make)))
                expected = [*texts, ("ballot2", version_1.BALLOT2)], version_1.migrated(rows) | beside
                self.assertEqual(listed(alone), expected)

    def test_a_further_migration_changes_no_byte(self):
        for name, (make, _) in FILES.items():
            with self.subTest(file=name):
                file = self.migrated(make)
                whole = bytes_of(file)
                for _ in range(2):
                    self.assertEqual(run("migrate", file), MIGRATED)
                    self.assertTrue(bytes_of(file) == whole, "the file is another")

    def test_the_vote_goes_on_to_its_result_after_a_migration(self):
        """By the last three commands of the script: of the three ballots one came anew."""
        for name, (make, rows) in FILES.items():
            if rows == version_1.OF_SCRIPT:
                with self.subTest(file=name):
                    file = self.migrated(make)
                    once(file, CALLED, *SCRIPT[15][1:], f"ok 16 receipt {receipt(1, 'd3', 'tokenA04')}")
                    once(file, CLOSED, *SCRIPT[16][1:], "ok 17")
                    once(file, CLOSED, *SCRIPT[17][1:], "ok 18")
                    for sheet in "tally", "result":
                        stored = (TOP / f"examples/votes/whole_vote.{sheet}").read_bytes()
                        self.assertEqual(run(sheet, file, 1), Ran(0, stored, b""))

    def test_ballots_with_letters_say_the_same_after_a_migration(self):
        file = self.migrated(of_letters)
        accepted = version_1.OF_LETTERS["desk"][0][2]
        once(file, CLOSED, "/resolutions/1/close", "", f"ok {accepted + 1}")
        ballots = sorted((digits, ranks) for _, _, ranks, digits in version_1.OF_LETTERS["ballot"])
        lines = "".join(f"V: {ranks} {digits}\n" for digits, ranks in ballots)
        tally = run("tally", file, 1)
        self.assertEqual(tally.status, 0, tally)
        self.assertTrue(tally.out.decode().endswith(f"Ballots: {len(ballots)}\n{lines}"), tally)
        self.assertEqual(run("result", file, 1).out.decode().split("\n")[3:5], ["Ballots: 3", "Received: 3"])

    def test_rows_that_refer_to_a_ballot_go_with_it_where_their_key_says_so(self):
        file = self.migrated(of_script_with(REFERRING.format("ON DELETE CASCADE")))
        rows = version_1.migrated(version_1.OF_SCRIPT) | {"of_ballot": [(None, None)]}
        self.assertEqual(listed(file)[1], rows)

    def test_a_copy_from_before_a_migration_restores_the_desk_of_version_1(self):
        file = self.made(version_1.unpack)
        copy, restored = file.with_name("copy.db"), file.with_name("restored.db")
        held = bytes_of(file)
        self.assertEqual(runs([TOP / "tools" / "gr-desk", "backup", file, copy])[:2], (0, b"ok\n"))
        self.assertEqual(run("migrate", file), MIGRATED)
        self.assertEqual(runs([TOP / "tools" / "gr-desk", "restore", copy, restored])[:2], (0, b"ok\n"))
        self.assertTrue(bytes_of(restored) == held, "the restored file is another")
        self.assertEqual(run("roll", restored), TOO_OLD)

    def test_a_migration_leaves_each_other_file_byte_for_byte(self):
        for name, (make, migrated, shown) in KEPT.items():
            with self.subTest(file=name):
                file = self.made(make)
                held, log = bytes_of(file), bytes_of(f"{file}-wal")
                if shown:
                    self.assertEqual(run("roll", file), shown)
                self.assertEqual(run("migrate", file), migrated)
                self.assertTrue(bytes_of(file) == held, "the file is another")
                if name == "one that a kill left with its log":
                    self.assertTrue(bytes_of(f"{file}-wal") == log, "the log is another")

    def test_a_desk_in_memory_is_no_file_to_migrate(self):
        self.assertEqual(run("migrate", ":memory:"), NO_FILE)
