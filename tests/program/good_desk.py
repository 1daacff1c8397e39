"""A desk with a vote that is closed, its sheets, and the lines of the program that it carries out; and the lines of
failures."""
import atexit
import tempfile
from functools import cache
from pathlib import Path

from tests.support.case import Case
from tests.support.program import DAY, T0, Ran, expect, free_port, make_desk, once, receipt, response, run

LOST = Ran(3, b"", b"lost\n")
NO_FILE = Ran(3, b"", b"no file\n")
STORE = Ran(3, b"", b"fault F2 Store\n")
DAMAGED = Ran(3, b"", b"fault F4 Damaged\n")
TOO_NEW = Ran(3, b"", b"fault F5 TooNew\n")
NOT_A_DESK = Ran(3, b"", b"fault F6 NotADesk\n")
TOO_OLD = Ran(3, b"", b"fault F7 TooOld\n")
OCCUPIED = Ran(3, b"", b"fault F8 Occupied\n")
MADE = Ran(0, b"ok\n", b"")
NOTHING = Ran(0, b"", b"")

HEADER = "login,name,status\n"
ROLL_FILE = f'{HEADER}alice,Alice Adams,current\nbob,"Brown, Bob",retired\n'
ALICE = "login=alice&name=Alice+Adams&status=current"

# The sheets of the desk that `good_desk` makes.
ROLL = "Developers: 2\nCurrent: 1\nD: alice current Alice Adams\nD: bob retired Brown, Bob\n"
STATUS = """Resolution 1
Stage: Closed
Discussion: 2026-01-01T00:00:00Z to 2026-01-15T00:00:00Z
Voting: 2026-01-15T00:00:00Z to 2026-01-22T00:00:00Z
Developers: 1
Choice 1: Red
Ratio: 1
Proposer: leader
Sponsors: 0
Introduced: 2026-01-01T00:00:00Z
Short since: no
Place: 1
| First
"""
TALLY = f"""Tally of resolution 1
Option 1: Red
Option 2: None of the above
Ballots: 1
V: 12 {receipt(1, "alice", "tokenA01")}
"""
RESULT = """Result of resolution 1
Voting: 2026-01-15T00:00:00Z to 2026-01-22T00:00:00Z
Developers: 1
Ballots: 1
Received: 1
Option 1: Red
Option 2: None of the above
Test 1: above 1, below 0, ratio 1, quorum failed, majority met, dropped
Schwartz: 2
Winner: 2
"""
SHEETS = {"roll": ROLL, "status": STATUS, "tally": TALLY, "result": RESULT}
SUBCOMMANDS = ["init", "once", "serve", "import", "roll", "status", "tally", "result", "migrate"]

# A resolution under discussion stands beside the vote. A later act can be no earlier than the moment of that.
LAST = T0 + 21 * DAY


@cache
def good_desk():
    """A desk with a vote that is closed, resolution 1, and with resolution 2 under discussion, for all tests of a
    process. Its roll file stands beside it."""
    folder = tempfile.TemporaryDirectory()
    atexit.register(folder.cleanup)
    file, csv = Path(folder.name, "good.db"), Path(folder.name, "roll.csv")
    make_desk(file)
    csv.write_text(ROLL_FILE)
    imported = Ran(0, b"ok 1 added 2 changed 0 same 0\n", b"")
    expect("import of a roll file", run("import", file, csv, "--at", T0), imported)
    called, ended = T0 + 14 * DAY, T0 + 21 * DAY
    once(file, T0, "/resolutions", "author=@leader&summary=Red&text=First&ratio=1", "ok 2 resolution 1")
    once(file, called, "/resolutions/1/call", "days=7", f"ok 3 places 2 until {ended}")
    ballot = "login=alice&ranks=12&token=tokenA01"
    once(file, called, "/resolutions/1/vote", ballot, f"ok 4 receipt {receipt(1, 'alice', 'tokenA01')}")
    once(file, ended, "/resolutions/1/close", "", "ok 5")
    once(file, ended, "/resolutions", "author=@committee&summary=Blue&text=b&ratio=2", "ok 6 resolution 2")
    return file, csv


def line_of(subcommand, file, csv):
    """A line of a subcommand that the good desk carries out. `csv` is a roll file."""
    if subcommand in ("status", "tally", "result"):
        return [subcommand, file, 1]
    if subcommand == "import":
        return [subcommand, file, csv, "--at", LAST]
    if subcommand == "serve":
        return [subcommand, file, "--port", free_port(), "--count", 1]
    return [subcommand, file]


def by_the_good_desk(subcommand):
    """What comes of that line, where the request for the roll is on standard input."""
    if subcommand in SHEETS:
        return Ran(0, SHEETS[subcommand].encode(), b"")
    if subcommand == "import":
        return Ran(0, b"ok 7 added 0 changed 0 same 2\n", b"")
    if subcommand == "migrate":
        return Ran(0, b"ok schema 2\n", b"")
    return Ran(0, response(200, ROLL), b"")


class GoodDeskCase(Case):
    """Tests over a good desk that none of them changes."""

    @classmethod
    def setUpClass(cls):
        cls.good, cls.csv = good_desk()
