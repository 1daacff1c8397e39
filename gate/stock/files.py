"""The side of stock SQLite in `stock_sqlite`: makes files for the desk to read, and looks at those that it wrote."""
import os
import sqlite3
import sys

# The statements of docs/formats.md.
TABLES = [
    """CREATE TABLE desk (id INTEGER PRIMARY KEY, version INTEGER NOT NULL,
  accepted INTEGER NOT NULL, clock INTEGER NOT NULL) STRICT""",
    """CREATE TABLE developer (login TEXT PRIMARY KEY NOT NULL, name TEXT NOT NULL,
  active INTEGER NOT NULL) STRICT""",
    """CREATE TABLE resolution (number INTEGER PRIMARY KEY, stage INTEGER NOT NULL,
  start INTEGER NOT NULL, changed INTEGER NOT NULL, shift INTEGER NOT NULL,
  called INTEGER NOT NULL, days INTEGER NOT NULL, devs INTEGER NOT NULL,
  chosen INTEGER NOT NULL) STRICT""",
    """CREATE TABLE choice (resolution INTEGER NOT NULL, number INTEGER NOT NULL,
  kind INTEGER NOT NULL, proposer TEXT NOT NULL, summary TEXT NOT NULL,
  body TEXT NOT NULL, ratio INTEGER NOT NULL, introduced INTEGER NOT NULL,
  short INTEGER NOT NULL, place INTEGER NOT NULL,
  PRIMARY KEY (resolution, number)) STRICT""",
    """CREATE TABLE sponsor (resolution INTEGER NOT NULL, choice INTEGER NOT NULL,
  login TEXT NOT NULL, active INTEGER NOT NULL,
  PRIMARY KEY (resolution, choice, login)) STRICT""",
    """CREATE TABLE ballot2 (resolution INTEGER NOT NULL, login TEXT NOT NULL,
  ranks TEXT NOT NULL, receipt TEXT NOT NULL, received INTEGER NOT NULL,
  PRIMARY KEY (resolution, login)) STRICT""",
]

# What the commands of commands.rattle leave. The receipts are those that `sha256sum` gives for the tokens.
ROWS = {
    "desk": [(1, 2, 10, 2814400)],
    "developer": [("alice", "Alice Adams", 1), ("bob", "Bob Brown", 1)],
    "resolution": [(1, 3, 1000000, 0, 0, 2209600, 7, 2, 0), (2, 1, 2814400, 0, 0, 0, 0, 0, 0)],
    "choice": [
        (1, 1, 1, "alice", "Keep the desk", "The desk is kept.", 1, 1000000, 0, 1),
        (2, 1, 2, "", "Sell the desk", "The desk is sold.", 2, 2814400, 0, 0),
    ],
    "sponsor": [(1, 1, "bob", 1)],
    "ballot2": [
        (1, "alice", "12", "ca9d11638354186aa932e99271bc2606295b7a58b68b5636380827ddbbdcddcb", 1),
        (1, "bob", "12", "92cb55c2b4ad686ee6f8313b5bc140b190b982feb091f65dcc21bebfec04da57", 2),
    ],
}


def fill(conn):
    """Makes the tables and their rows, the last row first."""
    for text in TABLES:
        conn.execute(text)
    for table, rows in ROWS.items():
        for row in reversed(rows):
            conn.execute(f"INSERT INTO {table} VALUES ({', '.join('?' * len(row))})", row)
    conn.commit()


def make(file):
    """A file with a rollback journal."""
    conn = sqlite3.connect(file)
    fill(conn)
    conn.close()


def make_in_log(file):
    """A file whose tables stand in its write-ahead log alone, since this process ends with no close."""
    conn = sqlite3.connect(file)
    conn.execute("PRAGMA journal_mode = WAL")
    conn.execute("PRAGMA wal_autocheckpoint = 0")
    fill(conn)
    tables = open(file, "rb").read().count(b"CREATE TABLE")
    if tables != 0 or open(f"{file}-wal", "rb").read().count(b"CREATE TABLE") == 0:
        sys.exit(f"{file}: the log does not have the tables for itself")
    os._exit(0)


def make_damaged(file):
    """A file in which a voter is missing from the roll."""
    conn = sqlite3.connect(file)
    fill(conn)
    conn.execute("DELETE FROM developer WHERE login = 'bob'")
    conn.commit()
    conn.close()


def look(file):
    """Expects a sound file with the tables and the rows above, and nothing else."""
    conn = sqlite3.connect(file)
    same(file, conn.execute("PRAGMA integrity_check").fetchall(), [("ok",)])
    texts = "SELECT sql FROM sqlite_schema WHERE sql IS NOT NULL ORDER BY rowid"
    same(file, [text for (text,) in conn.execute(texts)], TABLES)
    for table, rows in ROWS.items():
        same(file, conn.execute(f"SELECT * FROM {table} ORDER BY 1, 2").fetchall(), rows)
    conn.close()


def same(file, found, wanted):
    if found != wanted:
        sys.exit(f"{file}: {found}, and not {wanted}")


{"make": make, "make_in_log": make_in_log, "make_damaged": make_damaged, "look": look}[sys.argv[1]](sys.argv[2])
