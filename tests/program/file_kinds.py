"""The kinds of files that may stand under the name of a desk, and what the subcommands report of each."""
import os
import shutil
import sqlite3
import subprocess
import sys
from contextlib import closing, contextmanager

from tests.program.good_desk import (
    DAMAGED,
    HEADER,
    MADE,
    NO_FILE,
    NOT_A_DESK,
    OCCUPIED,
    STORE,
    TOO_NEW,
    TOO_OLD,
)
from tests.support.program import fail

# Each of these is given the good desk and a name, and makes what stands there. Some last for as long as lines are run,
# and are contexts.


def copied(good, file):
    shutil.copyfile(good, file)


def changed_by(*statements):
    """A desk that stock SQLite changed."""

    def make(good, file):
        shutil.copyfile(good, file)
        with closing(sqlite3.connect(file)) as conn:
            for statement in statements:
                conn.execute(statement)
            conn.commit()

    return make


def of_another_program(good, file):
    with closing(sqlite3.connect(file)) as conn:
        conn.execute("CREATE TABLE note (id INTEGER PRIMARY KEY, title TEXT)")
        conn.execute("INSERT INTO note VALUES (1, 'a')")
        conn.commit()


def of_another_program_with(statement):
    """One that has something of this name too."""

    def make(good, file):
        of_another_program(good, file)
        with closing(sqlite3.connect(file)) as conn:
            conn.execute(statement)
            conn.commit()

    return make


def with_bad_pages(good, file):
    """A desk whose pages after the first are all ones."""
    whole = good.read_bytes()
    file.write_bytes(whole[:4096] + b"\xff" * (len(whole) - 4096))


def cut_short(good, file):
    file.write_bytes(good.read_bytes()[:-1000])


def with_two_names(good, file):
    shutil.copyfile(good, file)
    os.link(file, f"{file}.second")


def linked(good, file):
    shutil.copyfile(good, f"{file}.there")
    file.symlink_to(f"{file}.there")


def linked_to_nothing(good, file):
    file.symlink_to(f"{file}.there")


def unreadable(good, file):
    shutil.copyfile(good, file)
    file.chmod(0)


def with_a_journal(good, file):
    """A desk with a journal that only stock SQLite can play back."""
    shutil.copyfile(good, file)
    (file.parent / f"{file.name}-journal").write_bytes(b"\xd9\xd5\x05\xf9 \xa1c\xd7" + bytes(504))


HOLDER = """
import sqlite3, sys
conn = sqlite3.connect(sys.argv[1], isolation_level=None)
conn.execute(f"PRAGMA journal_mode = {sys.argv[2]}")
conn.execute("BEGIN EXCLUSIVE")
print(flush=True)
sys.stdin.read()
"""


def held_in(mode):
    """A desk that stock SQLite holds in another process: this one reads the file, which would end locks of its own."""

    @contextmanager
    def make(good, file):
        shutil.copyfile(good, file)
        words = [sys.executable, "-c", HOLDER, file, mode]
        with subprocess.Popen(words, stdin=subprocess.PIPE, stdout=subprocess.PIPE) as holder:
            if holder.stdout.readline() != b"\n":
                fail("stock SQLite did not take the file")
            try:
                yield
            finally:
                holder.stdin.close()

    return make


TRIGGER = "CREATE TRIGGER t AFTER INSERT ON {} BEGIN SELECT 1; END"
ADDED = "ALTER TABLE developer ADD COLUMN since INTEGER"
REFERS = "CREATE TABLE member (login TEXT REFERENCES developer)"

# What stands under the name, what `init` reports there, and what all others do. None is what they do of a good desk. A
# table of the name `ballot` is of version 1, and no desk of today has one.
KINDS = {
    "a good desk": (copied, OCCUPIED, None),
    "a link to a good desk": (linked, OCCUPIED, None),
    "no file": (lambda good, file: None, MADE, NO_FILE),
    "a link to no file": (linked_to_nothing, STORE, NO_FILE),
    "a folder": (lambda good, file: file.mkdir(), STORE, STORE),
    "a pipe": (lambda good, file: os.mkfifo(file), STORE, STORE),
    "an empty file": (lambda good, file: file.write_bytes(b""), MADE, NOT_A_DESK),
    "a file of one byte": (lambda good, file: file.write_bytes(b"S"), MADE, NOT_A_DESK),
    "a text": (lambda good, file: file.write_text(f"{HEADER}alice,A,current\n" * 50), STORE, STORE),
    "a file of another program": (of_another_program, MADE, NOT_A_DESK),
    "a file with a taken name": (
        of_another_program_with("CREATE VIEW BALLOT2 AS SELECT id FROM note"),
        OCCUPIED,
        NOT_A_DESK,
    ),
    "a desk with a missing row": (changed_by("DELETE FROM choice"), OCCUPIED, DAMAGED),
    "a desk with a missing table": (changed_by("DROP TABLE ballot2"), OCCUPIED, DAMAGED),
    "a later desk": (changed_by("UPDATE desk SET version = 3"), OCCUPIED, TOO_NEW),
    "an earlier desk": (changed_by("UPDATE desk SET version = 1"), OCCUPIED, TOO_OLD),
    "a desk beside a table ballot": (changed_by("CREATE TABLE ballot (box)"), OCCUPIED, None),
    "a file with a table ballot": (of_another_program_with("CREATE TABLE ballot (id INTEGER)"), MADE, NOT_A_DESK),
    "a desk with a trigger": (changed_by(TRIGGER.format("ballot2")), OCCUPIED, DAMAGED),
    "a desk with a trigger on its header": (changed_by(TRIGGER.format("desk")), OCCUPIED, NOT_A_DESK),
    "a desk without its trigger": (changed_by(TRIGGER.format("desk"), "DROP TRIGGER t"), OCCUPIED, None),
    "a desk with a further unique index": (changed_by("CREATE UNIQUE INDEX i ON developer (name)"), OCCUPIED, None),
    "a desk with a further column": (changed_by(ADDED), OCCUPIED, None),
    "a desk with a column that has a default": (changed_by(f"{ADDED} DEFAULT 7"), STORE, STORE),
    "a desk with such a column, copied": (changed_by(f"{ADDED} DEFAULT 7", "VACUUM"), STORE, STORE),
    "a desk with such a column, written anew": (
        changed_by(f"{ADDED} DEFAULT 7", "UPDATE developer SET since = since"),
        OCCUPIED,
        None,
    ),
    "a desk with a row that refers to none": (
        changed_by(REFERS, "INSERT INTO member VALUES ('nobody')"),
        STORE,
        STORE,
    ),
    "a desk beside a trigger": (changed_by("CREATE TABLE other (a)", TRIGGER.format("other")), OCCUPIED, None),
    "a desk beside a trigger and a key": (changed_by(REFERS, TRIGGER.format("member")), STORE, STORE),
    "a desk with bad pages": (with_bad_pages, STORE, STORE),
    "a desk that is cut short": (cut_short, STORE, STORE),
    "a desk with two names": (with_two_names, STORE, STORE),
    "a desk with a journal": (with_a_journal, STORE, STORE),
    "a desk held by stock SQLite": (held_in("DELETE"), STORE, STORE),
    "a desk held in its log": (held_in("WAL"), STORE, STORE),
}
UNREADABLE = unreadable, STORE, STORE

# What `migrate` reports where it is not what the others do. The tables of a desk of version 1 are other ones:
# test_migration.py has such desks.
BY_MIGRATE = {"an earlier desk": DAMAGED}
