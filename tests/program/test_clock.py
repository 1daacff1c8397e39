"""Holds the clock of a desk against the machine's. Each act comes after a pause of two seconds, and without `--at`: it
has its own moment, and not that of the start or of the act before. Stock SQLite reads the clock from a copy of the
desk."""
import sqlite3
import time
from contextlib import closing

from tests.support.case import Case
from tests.support.program import Ran, copy_desk, make_desk, request, response, run, serve

# How long nothing happens before an act, in seconds.
PAUSE = 2


def seconds_now():
    """The machine's clock, as whole seconds since 1970."""
    return int(time.time())


def added(number):
    """The path, the form and the line of an act, which is the desk's so many-th."""
    return "/developers", f"login=d{number}&name=A+Name&status=current", f"ok {number}"


class Clock(Case):
    def setUp(self):
        self.place = self.folder()
        self.file = self.place / "desk.db"
        make_desk(self.file)

    def clock(self):
        with closing(sqlite3.connect(copy_desk(self.file, self.place / "copy.db"))) as conn:
            [(clock,)] = conn.execute("SELECT clock FROM desk").fetchall()
        return clock

    def comes_at_its_own_moment(self, act):
        """An act after a pause makes its moment the desk's clock."""
        time.sleep(PAUSE)
        before = seconds_now()
        act()
        after = seconds_now()
        self.assertIn(self.clock(), range(before, after + 1))

    def test_serve_takes_each_act_at_its_own_moment(self):
        with serve(self.file, 3) as desk:
            for number in 1, 2:
                with self.subTest(act=number):
                    self.comes_at_its_own_moment(lambda act=added(number): desk.accepts(*act))
            # Up to here `serve` holds the file, which nothing changes while it is copied.
            self.assertEqual(desk.ask("GET", "/roll")[0], 200)
            self.assertEqual(desk.ended(), Ran(0, b"", b""))

    def add_by_once(self, number):
        path, form, line = added(number)
        ran = run("once", self.file, given=request("POST", path, form))
        self.assertEqual(ran, Ran(0, response(200, f"{line}\n"), b""))

    def test_once_takes_each_act_at_its_own_moment(self):
        for number in 1, 2:
            with self.subTest(act=number):
                self.comes_at_its_own_moment(lambda act=number: self.add_by_once(act))
