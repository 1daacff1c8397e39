"""The rows of the six tables of a desk, and what is different between those of two."""
import os
import sqlite3
from contextlib import closing, contextmanager
from pathlib import Path
from typing import NamedTuple

from grdesk.desk.copy import copy_desk, folder_outside, room_of
from grdesk.desk.private_folder import is_full, private_folder
from grdesk.error import Failed

# The key of each table, and its further columns, as docs/formats.md has them.
TABLES = {
    "desk": (["id"], ["version", "accepted", "clock"]),
    "developer": (["login"], ["name", "active"]),
    "resolution": (["number"], ["stage", "start", "changed", "shift", "called", "days", "devs", "chosen"]),
    "choice": (
        ["resolution", "number"],
        ["kind", "proposer", "summary", "body", "ratio", "introduced", "short", "place"],
    ),
    "sponsor": (["resolution", "choice", "login"], ["active"]),
    "ballot2": (["resolution", "login"], ["ranks", "receipt", "received"]),
}
# The stage of a resolution in voting.
VOTING = 2
# The columns that have moments.
MOMENTS = ["clock", "start", "changed", "called", "introduced", "short"]


class Header(NamedTuple):
    """How many acts a desk accepted, and the moment of the last one, which is 0 before the first."""

    accepted: int
    clock: int


@contextmanager
def connection(copy, name):
    """A copy of the desk under this name, as stock SQLite reads it. It changes neither the file nor a log that has
    anything, but may put a log and its index beside them."""
    try:
        with closing(sqlite3.connect(f"{Path(copy).absolute().as_uri()}?mode=ro", uri=True)) as conn:
            yield conn
    except sqlite3.Error as error:
        raise Failed(why_not_read(copy, name, error)) from None


def why_not_read(copy, name, error):
    """Why a copy of the desk under this name is not read. SQLite writes beside it, and the disk may have no room."""
    if is_full(os.path.dirname(copy)):
        place = folder_outside(copy)
        what_to_do = "make room there, or set TMPDIR to a folder on another disk"
        return f"a private copy of {name} cannot be read, since the disk of {place} is full: {what_to_do}"
    return f"{name} cannot be read as a desk: {error}"


def header_in(copy, name):
    with connection(copy, name) as conn:
        rows = conn.execute("SELECT accepted, clock FROM desk").fetchall()
    if len(rows) != 1 or not all(isinstance(number, int) for number in rows[0]):
        raise Failed(f"{name} cannot be read as a desk: its table desk has no row, or one that no desk has")
    return Header(*rows[0])


def read_from(reads, file, name):
    """What is read of a desk that others may hold, in a copy: what opens the file may write to it."""
    with private_folder(room=room_of(file)) as folder:
        copy = str(folder / "desk")
        copy_desk(file, copy)
        return reads(copy, name)


def rows_in(copy, name):
    """The rows of each table of the desk under this name, by their keys, from a copy of it. Texts are bytes, since they
    may be no UTF-8 any more."""
    with connection(copy, name) as conn:
        conn.text_factory = bytes
        return {table: dict(rows_of(conn, table)) for table in TABLES}


def rows_of(conn, table):
    key, columns = TABLES[table]
    for row in conn.execute(f"SELECT {', '.join(key + columns)} FROM {table}"):
        yield row[: len(key)], dict(zip(columns, row[len(key) :]))


def voting_in(copy, name):
    """The numbers of the resolutions in voting."""
    with connection(copy, name) as conn:
        rows = conn.execute("SELECT number FROM resolution WHERE stage = ? ORDER BY number", [VOTING])
        return [number for (number,) in rows]


def faults_in(copy, name):
    """What stock SQLite finds wrong with the file, beside its rows."""
    with connection(copy, name) as conn:
        lines = [str(line) for (line,) in conn.execute("PRAGMA integrity_check")]
    return [] if lines == ["ok"] else lines


def accepted_in(rows):
    """How many acts a desk accepted, by its rows. Where a turned bit has taken that away, it is 0."""
    accepted = next(iter(rows["desk"].values()), {}).get("accepted")
    return accepted if isinstance(accepted, int) else 0


def differences(found, wanted):
    """A line for each column that differs, and for each row that is there alone. No value is reported."""
    for table, (key, columns) in TABLES.items():
        for at in sorted({*found[table], *wanted[table]}, key=repr):
            named = f"{table} {', '.join(f'{column} {shown_key(part)}' for column, part in zip(key, at))}"
            if at not in found[table]:
                yield f"{named}: the row is missing"
            elif at not in wanted[table]:
                yield f"{named}: no act of the journal made this row"
            else:
                for column in columns:
                    if found[table][at][column] != wanted[table][at][column]:
                        yield f"{named}: {column}"


def shown_key(part):
    return part.decode(errors="backslashreplace") if isinstance(part, bytes) else str(part)
