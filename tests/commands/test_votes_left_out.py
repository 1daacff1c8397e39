"""How gr-desk votes ends if all ballots are entered, and FOLDER has a name that is no voter's: by status 1, since a
ballot may lie under a login that is misspelt. The desk is a port that answers as one does, and accepts each vote."""
import os
import time
from contextlib import contextmanager
from http.server import BaseHTTPRequestHandler, HTTPServer
from threading import Thread
from urllib.parse import parse_qs

from tests.support.case import Case
from tests.support.hand_made import choice, status
from tests.support.journaled import environment_of
from tests.support.mailed import says
from tests.support.program import DAY, LOCAL, TOP, compile_tools, receipt, runs
from grdesk.ballots.form import form_of
from grdesk.dates import date_of

CALLED = int(time.time()) - DAY
VOTING = CALLED, CALLED + 7 * DAY
FORM = form_of(status("Voting", [choice(1, summary="Red", place=1)], voting=VOTING, developers=4))
STATUS = f"""\
Resolution 1
Stage: Voting
Discussion: 2026-01-01T00:00:00Z to 2026-01-15T00:00:00Z
Voting: {date_of(VOTING[0])} to {date_of(VOTING[1])}
Developers: 4
Choice 1: Red
Ratio: 1
Proposer: leader
Sponsors: 0
Introduced: 2026-01-01T00:00:00Z
Short since: no
Place: 1
| x
"""
ROLL = "Developers: 2\nCurrent: 2\nD: d1 current One\nD: d2 current Two\n"


def answer_to(form):
    """The line with which a desk accepts a vote of this form."""
    login, token = (parse_qs(form)[name][0] for name in ("login", "token"))
    return f"ok 7 receipt {receipt(1, login, token)}\n"


class Handler(BaseHTTPRequestHandler):
    def do_GET(self):
        if self.path.startswith("/status/") and self.path != "/status/1":
            self.answer("refused 9 NoResolution\n", 409)
        else:
            self.answer(STATUS if self.path == "/status/1" else ROLL)

    def do_POST(self):
        self.answer(answer_to(self.rfile.read(int(self.headers["Content-Length"])).decode()))

    def answer(self, text, status=200):
        self.send_response(status)
        self.send_header("Content-Length", str(len(text)))
        self.end_headers()
        self.wfile.write(text.encode())

    def log_message(self, *_):
        pass


@contextmanager
def served():
    """A port on which resolution 1 is in voting, and each vote is accepted."""
    server = HTTPServer((LOCAL, 0), Handler)
    Thread(target=server.serve_forever, daemon=True).start()
    try:
        yield server.server_address[1]
    finally:
        server.shutdown()
        server.server_close()


class LeftOut(Case):
    """A folder with the ballot of one voter, and names that are no voter's, or none."""

    def run_with(self, *others):
        compile_tools()
        work = self.folder()
        (work / "ballots").mkdir()
        lines = "\n".join([*FORM.lines(), ""]).replace("[   ] Choice 1", "[ 1 ] Choice 1")
        for name, text in [("d1.txt", lines), *((name, "x") for name in others)]:
            path = work / "ballots" / name
            path.write_text(text)
            os.utime(path, (CALLED + 3_600, CALLED + 3_600))
        with served() as port:
            words = ["--port", port, "--journal", work / "vote.journal", 1, work / "ballots"]
            return runs([TOP / "tools" / "gr-desk", "votes", *words], env=environment_of({}))

    def test_with_every_ballot_entered_and_no_other_name_the_status_is_0(self):
        ran = self.run_with()
        says("a run with no other name", ran, 0, "1 vote of 1 entered, 0 refused", "Every voter has an answer")

    def test_with_every_ballot_entered_and_a_name_left_out_the_status_is_1(self):
        ran = self.run_with("d01.txt")
        says("a run with a name left out", ran, 1, "1 vote of 1 entered, 0 refused", "Every voter has an answer",
             "Left out, and why: 1 name in FOLDER", "1 name in FOLDER left out: see the top of the table")
