"""Gives the program requests on standard input and roll files: of each status, of wrong forms, that cannot be read, and
whose faults come in an order. What `once` and `import` print is compared whole."""
import os
import shutil
import sqlite3
import time
import unittest
from contextlib import closing

from tests.program.file_kinds import changed_by
from tests.program.good_desk import (
    ALICE,
    DAMAGED,
    HEADER,
    LAST,
    LOST,
    NO_FILE,
    ROLL,
    ROLL_FILE,
    STORE,
    GoodDeskCase,
)
from tests.support.program import T0, Ran, make_desk, request, response, run

MOST_BYTES = 1_048_576
ROOT = os.geteuid() == 0

# Requests to the good desk, with the status of `once` and the response.
REQUESTS = [
    (request("GET", "/roll"), 0, response(200, ROLL)),
    (request("GET", "/roll") + b"more", 0, response(200, ROLL)),
    (b"", 1, response(400, "bad head\n")),
    (b"GET /roll HTTP/1.1\r\nContent-Length: x\r\n\r\n", 1, response(400, "bad length\n")),
    (b"POST /import HTTP/1.1\r\nContent-Length: 9\r\n\r\nlogin", 1, response(400, "short body\n")),
    (request("POST", "/developers", "login=carol&status=current"), 1, response(400, "bad field name\n")),
    (request("POST", "/import", "login,name\n"), 1, response(400, "bad roll 1\n")),
    (request("GET", "/rolls"), 1, response(404, "not found\n")),
    (request("DELETE", "/roll"), 1, response(405, "method not allowed\n", "GET")),
    (request("GET", "/tally/2"), 1, response(409, "refused 24 NotRevealed\n")),
    (request("GET", "/status/3"), 1, response(409, "refused 9 NoResolution\n")),
    (b"POST /import HTTP/1.1\r\nContent-Length: 1048577\r\n\r\n", 1, response(413, "too large\n")),
]

ROLL_FILES = {
    "good": ROLL_FILE,
    "header": HEADER,
    "marked": f"\ufeff{ROLL_FILE}".replace("\n", "\r\n"),
    "largest": ROLL_FILE + "\n" * (MOST_BYTES - len(ROLL_FILE)),
    "too large": ROLL_FILE + "\n" * (MOST_BYTES + 1 - len(ROLL_FILE)),
    "bad and too large": "x" * (MOST_BYTES + 1),
    "bad": f"{ROLL_FILE}carol,Carol\n",
    "empty": "",
    "twice": f"{ROLL_FILE}alice,Alice Adams,current\n",
}
TOO_LARGE = Ran(1, b"", b"too large\n")
CANNOT_READ = Ran(3, b"", b"cannot read\n")

# Imports one after the other into a new desk, the next ones into a damaged one, and others into none.
IMPORTS = [
    ("desk.db", "good", Ran(0, b"ok 1 added 2 changed 0 same 0\n", b"")),
    ("desk.db", "good", Ran(0, b"ok 2 added 0 changed 0 same 2\n", b"")),
    ("desk.db", "marked", Ran(0, b"ok 3 added 0 changed 0 same 2\n", b"")),
    ("desk.db", "largest", Ran(0, b"ok 4 added 0 changed 0 same 2\n", b"")),
    ("desk.db", "header", Ran(0, b"ok 5 added 0 changed 0 same 0\n", b"")),
    ("desk.db", "too large", TOO_LARGE),
    ("desk.db", "bad and too large", TOO_LARGE),
    ("desk.db", "bad", Ran(1, b"", b"bad roll 4\n")),
    ("desk.db", "empty", Ran(1, b"", b"bad roll 1\n")),
    ("desk.db", "twice", Ran(1, b"", b"refused 23 BadRoll 4\n")),
    ("desk.db", "missing", CANNOT_READ),
    ("desk.db", "folder", CANNOT_READ),
]
FIRST_FAULTS = [
    ("nothing.db", "missing", NO_FILE),
    ("nothing.db", "good", NO_FILE),
    ("damaged.db", "missing", CANNOT_READ),
    ("damaged.db", "folder", CANNOT_READ),
    ("damaged.db", "too large", TOO_LARGE),
    ("damaged.db", "bad", Ran(1, b"", b"bad roll 4\n")),
    ("damaged.db", "twice", DAMAGED),
    ("damaged.db", "good", DAMAGED),
    ("folder", "bad", Ran(1, b"", b"bad roll 4\n")),
    ("folder", "twice", STORE),
]


class StandardInput(GoodDeskCase):
    def test_a_request_of_each_status_has_its_response_and_the_status_of_the_line(self):
        for given, status, out in REQUESTS:
            with self.subTest(given=given):
                self.assertEqual(run("once", self.good, given=given), Ran(status, out, b""))

    def test_an_input_that_cannot_be_read_is_lost(self):
        folder = os.open(self.folder(), os.O_RDONLY)
        self.addCleanup(os.close, folder)
        self.assertEqual(run("once", self.good, stdin=folder), LOST)

    def test_a_command_on_a_full_disk_has_the_response_of_the_store(self):
        # A file may have no more bytes than that of the desk, so its log cannot be written.
        file = shutil.copyfile(self.good, self.folder() / "small.db")
        ran = run("once", file, "--at", LAST, given=request("POST", "/developers", ALICE), limit=2_000)
        self.assertEqual(ran, Ran(3, response(503, "fault F2 Store\n"), b""))

    def test_a_command_that_names_no_moment_comes_at_that_of_the_machines_clock(self):
        file = self.folder() / "clock.db"
        make_desk(file)
        before = int(time.time())
        ran = run("once", file, given=request("POST", "/developers", ALICE))
        after = int(time.time())
        self.assertEqual(ran, Ran(0, response(200, "ok 1\n"), b""))
        with closing(sqlite3.connect(file)) as conn:
            [(clock,)] = conn.execute("SELECT clock FROM desk")
        self.assertIn(clock, range(before, after + 1))


class RollFiles(GoodDeskCase):
    def setUp(self):
        self.place = self.folder()
        make_desk(self.place / "desk.db")
        changed_by("DELETE FROM choice")(self.good, self.place / "damaged.db")
        (self.place / "folder").mkdir()
        for name, text in ROLL_FILES.items():
            (self.place / name).write_bytes(text.encode())

    def imports(self, rows):
        for desk, name, expected in rows:
            with self.subTest(desk=desk, roll_file=name):
                self.assertEqual(run("import", self.place / desk, self.place / name, "--at", T0), expected)

    def test_good_roll_files_are_imported_and_others_are_reported_and_leave_the_roll_as_it_was(self):
        self.imports(IMPORTS)
        self.assertEqual(run("roll", self.place / "desk.db"), Ran(0, ROLL.encode(), b""))

    def test_a_missing_desk_comes_first_then_the_roll_file_and_its_form_and_then_the_fault_of_the_desk(self):
        self.imports(FIRST_FAULTS)

    @unittest.skipIf(ROOT, "root may read each file")
    def test_a_roll_file_that_may_not_be_read_is_reported(self):
        (self.place / "shut").write_text(ROLL_FILE)
        (self.place / "shut").chmod(0)
        self.imports([("desk.db", "shut", CANNOT_READ)])
