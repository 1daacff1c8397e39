#!/usr/bin/env -S python3 -B
"""Files of version 1, whose ballots stand in the table `ballot` and do not say how often their voter voted. Stock
SQLite makes them, by the statements that programs of version 1 had and by rows that are written out here. One was made
by a program of version 1 itself, and is kept: version_1.db.gz.

    python3 -m tests.support.version_1 PROGRAM

made that one, with the program of the commit e9ab009, the last of version 1. It gives the first fifteen commands of the
script to PROGRAM, each by a `once` of its own, and packs the file that the last of them closed."""
import gzip
import sqlite3
import subprocess
import sys
import tempfile
from contextlib import closing
from pathlib import Path

from tests.support.eighteen import CALLED, SCRIPT
from tests.support.program import T0, receipt, request

KEPT = Path(__file__).resolve().parent / "version_1.db.gz"
# How many commands of the script come before the migration. Those after it are a ballot that replaces one of them, the
# close, and the casting vote.
FIRST = 15

# The statements that made a desk of version 1 (docs/formats.md, "Tables").
STATEMENTS = """
CREATE TABLE desk (id INTEGER PRIMARY KEY, version INTEGER NOT NULL,
  accepted INTEGER NOT NULL, clock INTEGER NOT NULL) STRICT;
CREATE TABLE developer (login TEXT PRIMARY KEY NOT NULL, name TEXT NOT NULL,
  active INTEGER NOT NULL) STRICT;
CREATE TABLE resolution (number INTEGER PRIMARY KEY, stage INTEGER NOT NULL,
  start INTEGER NOT NULL, changed INTEGER NOT NULL, shift INTEGER NOT NULL,
  called INTEGER NOT NULL, days INTEGER NOT NULL, devs INTEGER NOT NULL,
  chosen INTEGER NOT NULL) STRICT;
CREATE TABLE choice (resolution INTEGER NOT NULL, number INTEGER NOT NULL,
  kind INTEGER NOT NULL, proposer TEXT NOT NULL, summary TEXT NOT NULL,
  body TEXT NOT NULL, ratio INTEGER NOT NULL, introduced INTEGER NOT NULL,
  short INTEGER NOT NULL, place INTEGER NOT NULL,
  PRIMARY KEY (resolution, number)) STRICT;
CREATE TABLE sponsor (resolution INTEGER NOT NULL, choice INTEGER NOT NULL,
  login TEXT NOT NULL, active INTEGER NOT NULL,
  PRIMARY KEY (resolution, choice, login)) STRICT;
CREATE TABLE ballot (resolution INTEGER NOT NULL, login TEXT NOT NULL,
  ranks TEXT NOT NULL, receipt TEXT NOT NULL,
  PRIMARY KEY (resolution, login)) STRICT;
"""
# The one that a migration adds.
BALLOT2 = """CREATE TABLE ballot2 (resolution INTEGER NOT NULL, login TEXT NOT NULL,
  ranks TEXT NOT NULL, receipt TEXT NOT NULL, received INTEGER NOT NULL,
  PRIMARY KEY (resolution, login)) STRICT"""

# The rows after the first fifteen commands of the script.
OF_SCRIPT = {
    "desk": [(1, 1, FIRST, CALLED)],
    "developer": [("d1", "One", 1), ("d2", "Two", 1), ("d3", "Three", 1), ("d4", "Four", 1)],
    "resolution": [(1, 2, T0, T0, 0, CALLED, 7, 4, 0)],
    "choice": [(1, 1, 1, "d1", "Red", "new", 1, T0, 0, 1), (1, 2, 3, "", "Green", "b", 1, T0, 0, 2)],
    "sponsor": [(1, 1, "d2", 1)],
    "ballot": [
        (1, "d1", "113", receipt(1, "d1", "tokenA01")),
        (1, "d2", "113", receipt(1, "d2", "tokenA02")),
        (1, "d3", "131", receipt(1, "d3", "tokenA03")),
    ],
}

# Those of a vote on as many choices as there may be, with a letter for each rank after 9. An import, the choices, the
# call and three ballots were accepted.
CHOICES = 34
RANKS = "123456789abcdefghijklmnopqrstuvwxyz"
OF_LETTERS = {
    "desk": [(1, 1, CHOICES + 5, CALLED)],
    "developer": [("d1", "One", 1), ("d2", "Two", 1), ("d3", "Three", 0)],
    "resolution": [(1, 2, T0, T0, 0, CALLED, 7, 3, 0)],
    "choice": [(1, number, 2, "", f"C{number}", "a", 1, T0, 0, number) for number in range(1, CHOICES + 1)],
    "sponsor": [],
    "ballot": [
        (1, "d1", RANKS, receipt(1, "d1", "tokenB01")),
        (1, "d2", RANKS[::-1], receipt(1, "d2", "tokenB02")),
        (1, "d3", "z-" * 17 + "a", receipt(1, "d3", "tokenB03")),
    ],
}


def fill(conn, rows):
    """Makes the tables of version 1 with these rows, in one transaction."""
    conn.executescript(f"BEGIN; {STATEMENTS}")
    for table, listed in rows.items():
        for row in listed:
            conn.execute(f"INSERT INTO {table} VALUES ({', '.join('?' * len(row))})", row)
    conn.execute("COMMIT")


def make(file, rows):
    """Has stock SQLite make a file of version 1 with these rows."""
    with closing(sqlite3.connect(file, isolation_level=None)) as conn:
        fill(conn, rows)


def unpack(file):
    """The file that a program of version 1 made."""
    file.write_bytes(gzip.decompress(KEPT.read_bytes()))


def migrated(rows):
    """The rows after a migration of a file with these."""
    [(number, _, accepted, clock)] = rows["desk"]
    ballots = [(*ballot, 1) for ballot in rows["ballot"]]
    return rows | {"desk": [(number, 2, accepted, clock)], "ballot": [], "ballot2": ballots}


def keep(program):
    """Has a program of version 1 make the file that is kept."""
    with tempfile.TemporaryDirectory() as folder:
        file = Path(folder, "desk.db")
        subprocess.run([program, "init", file], check=True, stdout=subprocess.DEVNULL)
        for at, path, form in SCRIPT[:FIRST]:
            line = [program, "once", file, "--at", str(at)]
            ran = subprocess.run(line, input=request("POST", path, form), capture_output=True, check=True)
            print(ran.stdout.decode().splitlines()[-1])
        KEPT.write_bytes(gzip.compress(file.read_bytes(), mtime=0))


if __name__ == "__main__":
    keep(sys.argv[1])
