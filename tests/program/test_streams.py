"""Runs lines with streams that take nothing: a device that is full, a pipe that nobody reads, and streams that are
closed when the program begins. What was done stands all the same, and nothing comes into the file of the desk."""
import os
import socket
import sqlite3
import subprocess
from contextlib import closing, contextmanager

from tests.program.good_desk import LOST, ROLL, SUBCOMMANDS, GoodDeskCase
from tests.support.program import LOCAL, PATIENCE, PROGRAM, T0, Ran, build, free_port, request, run


@contextmanager
def full_device():
    with open("/dev/full", "wb") as device:
        yield device


@contextmanager
def closed_pipe():
    """The writing side of a pipe that nobody reads."""
    reader, writer = os.pipe()
    os.close(reader)
    with os.fdopen(writer, "wb", closefd=True) as stream:
        yield stream


BROKEN = full_device, closed_pipe


class Output(GoodDeskCase):
    def lines(self, file):
        """Lines over a file that is not there yet, and over a good desk, with what each reads."""
        added = request("POST", "/developers", "login=carol&name=Carol&status=current")
        return [
            ([], request("GET", "/roll")),
            (["--help"], b""),
            (["--version"], b""),
            *(([name, "--help"], b"") for name in SUBCOMMANDS),
            (["init", file], b""),
            (["import", file, self.csv, "--at", T0], b""),
            (["once", file, "--at", T0], added),
            (["once", file], request("GET", "/status/1")),
            (["once", file], b""),
            (["roll", file], b""),
            *(([name, self.good, 1], b"") for name in ("status", "tally", "result")),
            (["migrate", file], b""),
            (["serve", file, "--port", free_port(), "--count", 1], b""),
            (["serve", ":memory:", "--port", free_port(), "--count", 1], b""),
        ]

    def test_lost_output_is_reported_and_what_was_done_stands(self):
        for broken in BROKEN:
            file = self.folder() / "desk.db"
            for words, given in self.lines(file):
                with self.subTest(broken.__name__, words=words), broken() as stream:
                    self.assertEqual(run(*words, given=given, stdout=stream), LOST)
            roll = ROLL.replace("Developers: 2\nCurrent: 1\n", "Developers: 3\nCurrent: 2\n")
            with self.subTest(broken.__name__, words="the roll afterwards"):
                self.assertEqual(run("roll", file), Ran(0, f"{roll}D: carol current Carol\n".encode(), b""))


class Errors(GoodDeskCase):
    def lost(self, words, expected):
        """Runs a line whose error output is lost, and expects this."""
        for broken in BROKEN:
            with self.subTest(broken.__name__, words=words), broken() as stream:
                self.assertEqual(run(*words, stderr=stream), expected)

    def test_lost_error_output_leaves_the_status_of_a_failure_as_it_is(self):
        nothing = self.good.with_name("nothing.db")
        taken = self.enter(socket.create_server((LOCAL, 0)))
        for words, status in [
            (["frob"], 2),
            (["status", self.good, 0], 2),
            (["status", self.good, 9], 1),
            (["roll", nothing], 3),
            (["init", self.good], 3),
            (["import", self.good, nothing], 3),
            (["serve", self.good, "--port", taken.getsockname()[1], "--count", 1], 3),
        ]:
            self.lost(words, Ran(status, b"", b""))

    def test_lost_error_output_leaves_standard_output_as_it_is(self):
        for words, out in [(["roll", self.good], ROLL.encode()), (["migrate", self.good], b"ok schema 2\n")]:
            self.lost(words, Ran(0, out, b""))

    def test_a_sheet_whose_output_and_error_output_are_lost_ends_by_status_3(self):
        for broken in BROKEN:
            with self.subTest(broken.__name__), full_device() as output, broken() as stream:
                self.assertEqual(run("roll", self.good, stdout=output, stderr=stream), Ran(3, b"", b""))


class ClosedStreams(GoodDeskCase):
    def status_of(self, redirected, *words):
        """The status of a line that begins with these streams closed."""
        line = ["sh", "-c", f'exec "$@" {redirected}', "sh", PROGRAM, *map(str, words)]
        return subprocess.run(line, capture_output=True, timeout=PATIENCE, check=False).returncode

    def test_nothing_that_is_meant_for_a_closed_stream_comes_into_the_file(self):
        build()
        file = self.folder() / "closed.db"
        for redirected, status, *words in [
            (">&-", 3, "init", file),
            ("2>&-", 3, "init", file),
            ("<&- >&- 2>&-", 3, "roll", file),
            ("<&- >&- 2>&-", 1, "status", file, 1),
            ("<&- >&- 2>&-", 3, "import", file, self.csv, "--at", T0),
            ("<&-", 3, "once", file),
            ("2>&-", 2, "frob"),
            ("<&- 2>&-", 1, "status", file, 1),
        ]:
            with self.subTest(redirected, words=words):
                self.assertEqual(self.status_of(redirected, *words), status)
        self.assertEqual(run("roll", file), Ran(0, ROLL.encode(), b""), "the roll afterwards")
        with closing(sqlite3.connect(file)) as conn:
            self.assertEqual(conn.execute("PRAGMA integrity_check").fetchall(), [("ok",)])
