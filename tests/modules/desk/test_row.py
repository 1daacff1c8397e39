"""How much room a tool asks for its private copies of a desk: as much as they come to need, with what SQLite and the
program write beside them. If the disk of their folder is full, that is said, and the desk is not taken for damaged."""
import os
import sqlite3
import sys
import tempfile
from contextlib import closing
from types import SimpleNamespace
from unittest import mock

from tests.support.called import CALLED, Called
from tests.support.case import Case
from tests.support.in_process import stopped
from tests.support.program import TOP, runs

sys.path.insert(0, str(TOP / "tools"))
from grdesk.desk import private_folder as private_places  # noqa: E402
from grdesk.desk.request import request_of  # noqa: E402
from grdesk.desk.row import header_in, read_from, rows_in  # noqa: E402
from grdesk.desk.sheet import sheets_of  # noqa: E402
from grdesk.error import Failed  # noqa: E402

VOTE = b"login=d1&ranks=123&token=tokenA01"


def bytes_in(folder):
    return sum(path.stat().st_size for path in folder.iterdir())


class Rooms(Case):
    @classmethod
    def setUpClass(cls):
        cls.desk = Called.made(cls.shared_folder(), 5)

    def setUp(self):
        self.runtime, self.temporary = self.folder() / "runtime", self.folder() / "temporary"
        for folder in self.runtime, self.temporary:
            folder.mkdir(mode=0o700)
        environment = {"XDG_RUNTIME_DIR": str(self.runtime), "TMPDIR": str(self.temporary)}
        self.enter(mock.patch.dict(os.environ, environment))
        # Python looks for the folder of temporary files once.
        self.enter(mock.patch.object(tempfile, "tempdir", None))
        self.rooms = []

    def with_room(self, count):
        """The runtime folder has room for so many bytes, and what was asked for is noted."""

        def has_room(_, room):
            self.rooms.append(room)
            return room <= count

        self.enter(mock.patch.object(private_places, "has_room", has_room))

    def in_use(self, copy, _):
        """The folder of a copy, and how many bytes it has while SQLite reads it."""
        with closing(sqlite3.connect(copy)) as conn:
            conn.execute("SELECT * FROM desk").fetchall()
            folder = private_places.Path(copy).parent
            return folder, bytes_in(folder)

    def test_for_the_rows_so_much_is_asked_for_as_the_copy_needs_while_it_is_read(self):
        self.with_room(1 << 40)
        folder, needed = read_from(self.in_use, str(self.desk.file), "desk.db")
        self.assertEqual(folder.parent, self.runtime)
        self.assertLessEqual(needed, *self.rooms)

    def test_with_a_byte_less_they_are_read_below_the_temporary_folder(self):
        self.with_room(1 << 40)
        read_from(header_in, str(self.desk.file), "desk.db")
        self.with_room(self.rooms[0] - 1)
        folder, _ = read_from(self.in_use, str(self.desk.file), "desk.db")
        self.assertEqual(folder.parent, self.temporary / f"gr-desk-{os.geteuid()}")

    def test_for_the_sheets_so_much_is_asked_for_as_all_copies_need_together(self):
        self.with_room(1 << 40)
        with sheets_of(SimpleNamespace(desk=str(self.desk.file), port=None, socket=None)) as sheets:
            sheets.sheet("roll")
            sheets.rows()
            sheets.tried(request_of("POST", "/resolutions/1/vote", VOTE), CALLED + 60)
            needed = bytes_in(private_places.Path(sheets.copy).parent)
        self.assertLessEqual(needed, *self.rooms)

    def test_a_full_disk_of_the_temporary_folder_is_named_and_the_desk_is_not_taken_for_damaged(self):
        self.with_room(0)
        size = f"size={self.desk.file.stat().st_size // 1_024 + 8}k,mode=700"
        if runs(["mount", "-t", "tmpfs", "-o", size, "none", self.temporary]).status != 0:
            self.skipTest("no disk can be made here")
        self.addCleanup(runs, ["umount", self.temporary])
        why = stopped(Failed, read_from, rows_in, str(self.desk.file), "desk.db")
        place = self.temporary / f"gr-desk-{os.geteuid()}"
        self.assertEqual(why, f"a private copy of desk.db cannot be read, since the disk of {place} is full: make room "
                              "there, or set TMPDIR to a folder on another disk")

    def test_a_file_that_is_no_desk_is_said_to_be_none(self):
        file = self.folder() / "desk.db"
        file.write_bytes(b"x" * 10_000)
        why = stopped(Failed, read_from, rows_in, str(file), "desk.db")
        self.assertEqual(why, "desk.db cannot be read as a desk: file is not a database")
