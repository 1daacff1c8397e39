"""A desk with a journal of its acts, for tests that look at these: gr-desk act enters them by the desk's file."""
import atexit
import os
import sqlite3
import subprocess
import tempfile
from contextlib import closing
from functools import cache
from pathlib import Path

from tests.support.program import DAY, PATIENCE, T0, TOP, Ran, copy_desk, fail, make_desk, receipt, expect

CALLED, ENDED = T0 + 14 * DAY, T0 + 21 * DAY
TABLES = "desk", "developer", "resolution", "choice", "sponsor", "ballot2"
ROLL_FILE = "login,name,status\n" + "".join(f"d{number},The Name of {number},current\n" for number in range(1, 5))

# A vote by its acts: when each comes, its words, its input, and the answer.
DISCUSSION = [
    (T0, ["import"], ROLL_FILE, "ok 1 added 4 changed 0 same 0"),
    (T0, ["propose", "author=d1", "summary=Red", "text=The desk is red.", "ratio=3"], "", "ok 2 resolution 1"),
    (T0, ["sponsor", "1", "choice=1", "login=d2"], "", "ok 3"),
    (T0 + DAY, ["choice", "1", "author=@leader", "summary=Green", "text=Green it is.", "ratio=1"], "", "ok 4 choice 2"),
    (T0 + 2 * DAY, ["amend", "1", "choice=1", "minor=0", "summary=Crimson", "text=The desk is crimson."], "", "ok 5"),
]
CALL = (CALLED, ["--yes", "call", "1", "days=7"], "", f"ok 6 places 3 until {ENDED}")


def vote_of(at, login, ranks, token, count):
    return at, ["vote", "1", f"login={login}"], f"{ranks}\n{token}\n", f"ok {count} receipt {receipt(1, login, token)}"


# Their ranks are letters, so that no number is like them.
VOTES = [
    vote_of(CALLED + 60, "d1", "bbz", "tokenA01", 7),
    vote_of(CALLED + DAY, "d2", "bcz", "tokenA02", 8),
    vote_of(CALLED + DAY, "d3", "z-b", "tokenA03", 9),
    vote_of(CALLED + 2 * DAY, "d1", "cbz", "tokenA04", 10),
]
CLOSE = (ENDED, ["close", "1"], "", "ok 11")
WHOLE = [*DISCUSSION, CALL, *VOTES, CLOSE]


# Desks that were made, by their acts.
KEPT = {}


@cache
def kept_folder():
    """Where these are, until the process ends: a test's own folder is gone after it."""
    place = tempfile.TemporaryDirectory()
    atexit.register(place.cleanup)
    return Path(place.name)


class Journaled:
    """A desk in a folder, and the journal beside it."""

    def __init__(self, work, name):
        self.file = work / f"{name}.db"
        self.journal = work / f"{name}.journal"

    @classmethod
    def made(cls, work, name, acts=()):
        """A desk with these acts. As many of them as an earlier one began with are copied from that."""
        known = next((number for number in range(len(acts), 0, -1) if repr(acts[:number]) in KEPT), 0)
        if known:
            desk = KEPT[repr(acts[:known])].copied(work, name)
        else:
            desk = cls(work, name)
            make_desk(desk.file)
        desk.accepts(acts[known:])
        if acts and known < len(acts):
            KEPT[repr(acts)] = desk.copied(kept_folder(), str(len(KEPT)))
        return desk

    def act(self, *words, given="", environment=()):
        """Runs gr-desk act over the file of the desk."""
        line = ["--desk", self.file, "--journal", self.journal, *words]
        return self.run("act", *line, given=given, environment=environment)

    def run(self, name, *words, given="", environment=()):
        """Runs a tool to its end."""
        ran = subprocess.run(
            [TOP / "tools" / "gr-desk", name, *map(str, words)],
            input=given.encode(),
            capture_output=True,
            env=environment_of(environment),
            timeout=PATIENCE,
            check=False,
        )
        return Ran(ran.returncode, ran.stdout, ran.stderr)

    def tool(self, command, *words):
        """Runs gr-desk journal: two of its commands have the journal and the desk as words."""
        if command in ("replay", "check"):
            return self.run("journal", command, self.journal, self.file, *words)
        return self.run("journal", command, "--journal", self.journal, *words)

    def accepts(self, acts):
        """Enters acts, each of which is accepted with its answer as the first line."""
        for at, words, given, line in acts:
            ran = self.act("--at", at, *words, given=given)
            if ran.status != 0 or ran.out.decode().split("\n")[0] != line:
                fail(f"act {words}: expected {line}, and got {ran}")

    def lines(self):
        return self.journal.read_bytes().splitlines(keepends=True)

    def copied(self, work, name):
        """The same desk and journal under another name, as they stand."""
        other = Journaled(work, name)
        copy_desk(self.file, other.file)
        if self.journal.exists():
            other.journal.write_bytes(self.journal.read_bytes().replace(name_in(self.file), name_in(other.file)))
            other.journal.chmod(0o600)
        return other

    def rows(self):
        return rows_of(self.file)


def name_in(file):
    """The path of a desk, as a journal has it."""
    return f'"{os.path.realpath(file)}"'.encode()


# What would lead a tool to the desk or the journal of the caller.
CALLERS = "GR_DESK_PORT", "GR_DESK_SOCKET", "GR_DESK_JOURNAL"


def environment_of(more):
    """That of a tool, with no desk or journal of the script's caller."""
    kept = {name: value for name, value in os.environ.items() if name not in CALLERS}
    return kept | {name: str(value) for name, value in dict(more).items()}


def rows_of(file, texts=str):
    """The rows of each table, from a copy of the desk, as stock SQLite finds them."""
    copy = copy_desk(file, file.with_suffix(".read"))
    with closing(sqlite3.connect(copy)) as conn:
        conn.text_factory = texts
        rows = {table: conn.execute(f"SELECT * FROM {table} ORDER BY 1, 2, 3").fetchall() for table in TABLES}
    for path in copy.parent.glob(f"{copy.name}*"):
        path.unlink()
    return rows


def accepted_of(file):
    return rows_of(file)["desk"][0][2]


def reports(what, ran, status, *texts):
    """A tool ended with this status, and reported these texts."""
    said = (ran.out + ran.err).decode()
    if ran.status != status or not all(text in said for text in texts):
        fail(f"{what}: expected status {status} and {texts}, and got {ran}")


def is_silent(what, ran, *secrets):
    """Nothing that a tool said has one of these."""
    for secret in secrets:
        if secret.encode() in ran.out + ran.err:
            fail(f"{what} tells {secret}")


def same_rows(what, file, expected):
    expect(f"the rows {what}", rows_of(file), expected)
