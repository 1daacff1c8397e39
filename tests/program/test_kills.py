"""Kills a `serve` by signal 9 while requests come, in twenty rounds over one file, at another part of a request in
each. After each kill the program and stock SQLite look at copies of the file and its log."""
import http.client
import sqlite3
import time
from contextlib import closing
from threading import Thread

from tests.support.case import Case
from tests.support.program import T0, Ran, copy_desk, make_desk, run, serve

ROUNDS = 20


def command(number):
    """The path and the form of a command, and the logins that it brings. Each third one brings three."""
    if number % 3 == 0:
        logins = [f"d{number:04}{letter}" for letter in "abc"]
        return "/import", "login,name,status\n" + "".join(f"{login},A Name,current\n" for login in logins), logins
    return "/developers", f"login=d{number:04}&name=A+Name&status=current", [f"d{number:04}"]


class Client(Thread):
    """Sends commands one after the other, until no response comes."""

    def __init__(self, desk, first):
        super().__init__(daemon=True)
        self.desk = desk
        self.acknowledged = first - 1
        self.wrong = None

    def run(self):
        while True:
            number = self.acknowledged + 1
            path, form, logins = command(number)
            try:
                status, line = self.desk.ask("POST", path, form)
            except (OSError, http.client.HTTPException):
                return
            noted = f" added {len(logins)} changed 0 same 0" if path == "/import" else ""
            if (status, line) != (200, f"ok {number}{noted}\n"):
                self.wrong = f"command {number}: {status} {line}"
                return
            self.acknowledged = number


def kill_in_a_round(file, accepted, number):
    """A round. Gives its client, which ended when the `serve` was killed."""
    with serve(file, 1_000, "--at", T0) as desk:
        client = Client(desk, accepted + 1)
        began = time.monotonic()
        client.start()
        enough = accepted + 3 + number % 8
        while client.acknowledged < enough and client.is_alive():
            time.sleep(0.0005)
        # A part of the time that one request takes, from none to all of it.
        time.sleep((time.monotonic() - began) / (3 + number % 8) * (number * 7 % ROUNDS) / ROUNDS)
        desk.kill()
        client.join()
    return client


class Kills(Case):
    def found_by_stock_sqlite(self, file):
        """How many commands a copy of the file and its log hold, and their logins."""
        with closing(sqlite3.connect(copy_desk(file, self.folder() / "copy.db"))) as conn:
            self.assertEqual(conn.execute("PRAGMA integrity_check").fetchall(), [("ok",)])
            [(accepted,)] = conn.execute("SELECT accepted FROM desk")
            return accepted, [login for (login,) in conn.execute("SELECT login FROM developer ORDER BY login")]

    def test_a_killed_serve_keeps_each_acknowledged_command_whole_and_once_and_at_most_one_more(self):
        file = self.folder() / "desk.db"
        make_desk(file)
        accepted = 0
        for number in range(ROUNDS):
            with self.subTest(round=number):
                least, client = accepted + 3, kill_in_a_round(file, accepted, number)
                accepted, logins = self.found_by_stock_sqlite(file)
                self.assertIsNone(client.wrong)
                self.assertGreaterEqual(client.acknowledged, least, "it was killed before commands were acknowledged")
                self.assertIn(accepted, (client.acknowledged, client.acknowledged + 1))
                brought = sorted(login for each in range(1, accepted + 1) for login in command(each)[2])
                self.assertEqual(logins, brought)
                text = f"Developers: {len(brought)}\nCurrent: {len(brought)}\n"
                text += "".join(f"D: {login} current A Name\n" for login in brought)
                self.assertEqual(run("roll", file), Ran(0, text.encode(), b""))
