"""Makes the file of a desk in voting: fill.py FILE RESOLUTIONS BALLOTS, with so many ballots on each resolution, of the
first developers of the roll. With a last word 1 it is a file of version 1."""
import hashlib
import sqlite3
import sys

file, resolutions, ballots = sys.argv[1], int(sys.argv[2]), int(sys.argv[3])
version = int(sys.argv[4]) if len(sys.argv) > 4 else 2
START = 1_767_225_600
CALLED = START + 21 * 86_400
TABLES = """
CREATE TABLE desk (id INTEGER PRIMARY KEY, version INTEGER NOT NULL,
  accepted INTEGER NOT NULL, clock INTEGER NOT NULL) STRICT;
CREATE TABLE developer (login TEXT PRIMARY KEY NOT NULL, name TEXT NOT NULL,
  active INTEGER NOT NULL) STRICT;
CREATE TABLE resolution (number INTEGER PRIMARY KEY, stage INTEGER NOT NULL,
  start INTEGER NOT NULL, changed INTEGER NOT NULL, shift INTEGER NOT NULL,
  called INTEGER NOT NULL, days INTEGER NOT NULL, devs INTEGER NOT NULL,
  chosen INTEGER NOT NULL) STRICT;
CREATE TABLE choice (resolution INTEGER NOT NULL, number INTEGER NOT NULL,
  kind INTEGER NOT NULL, proposer TEXT NOT NULL, summary TEXT NOT NULL,
  body TEXT NOT NULL, ratio INTEGER NOT NULL, introduced INTEGER NOT NULL,
  short INTEGER NOT NULL, place INTEGER NOT NULL,
  PRIMARY KEY (resolution, number)) STRICT;
CREATE TABLE sponsor (resolution INTEGER NOT NULL, choice INTEGER NOT NULL,
  login TEXT NOT NULL, active INTEGER NOT NULL,
  PRIMARY KEY (resolution, choice, login)) STRICT;
"""
BALLOTS = {
    1: """CREATE TABLE ballot (resolution INTEGER NOT NULL, login TEXT NOT NULL,
  ranks TEXT NOT NULL, receipt TEXT NOT NULL,
  PRIMARY KEY (resolution, login)) STRICT;""",
    2: """CREATE TABLE ballot2 (resolution INTEGER NOT NULL, login TEXT NOT NULL,
  ranks TEXT NOT NULL, receipt TEXT NOT NULL, received INTEGER NOT NULL,
  PRIMARY KEY (resolution, login)) STRICT;""",
}
PUT = {1: "INSERT INTO ballot VALUES (?, ?, '12345678-', ?)", 2: "INSERT INTO ballot2 VALUES (?, ?, '12345678-', ?, 1)"}
logins = [f"{number:04}-dean" for number in range(1, 2001)]
numbers = range(1, resolutions + 1)


def receipt(resolution, login):
    return hashlib.sha256(f"{resolution}\n{login}\ntoken000\n".encode()).hexdigest()


conn = sqlite3.connect(file)
conn.executescript(TABLES + BALLOTS[version])
conn.execute("INSERT INTO desk VALUES (1, ?, 1000000, ?)", (version, CALLED))
conn.executemany("INSERT INTO developer VALUES (?, 'Dora Dean', 1)", ((login,) for login in logins))
conn.executemany(
    "INSERT INTO resolution VALUES (?, 2, ?, 0, 0, ?, 14, 2000, 0)", ((number, START, CALLED) for number in numbers)
)
conn.executemany(
    "INSERT INTO choice VALUES (?, ?, 2, '', 'Keep the desk as it is', ?, 1, ?, 0, ?)",
    ((number, place, "x" * 100, START, place) for number in numbers for place in range(1, 9)),
)
conn.executemany(
    PUT[version],
    ((number, login, receipt(number, login)) for number in numbers for login in logins[:ballots]),
)
conn.commit()
conn.close()
