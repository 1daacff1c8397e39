"""When the disk of a desk is called full: if it has less room than an act may need, for the account that runs the tool.
Of a folder that cannot be looked at nothing is said."""
import os
import sys
from types import SimpleNamespace
from unittest import mock

from tests.support.case import Case
from tests.support.program import TOP

sys.path.insert(0, str(TOP / "tools"))
from grdesk.desk.file import NotOpened  # noqa: E402
from grdesk.desk.room import ROOM_OF_AN_ACT, why_no_room  # noqa: E402

ROOT, ANOTHER = 0, 1_000


class Rooms(Case):
    def setUp(self):
        self.place = self.folder()
        self.file = str(self.place / "desk.db")

    def why(self, kept=0, free=0, account=ANOTHER):
        """What is said of a disk with so many bytes that all accounts may write, and so many more for root alone."""
        disk = SimpleNamespace(f_frsize=1, f_bavail=free, f_bfree=free + kept)
        with mock.patch.object(os, "statvfs", lambda _: disk), mock.patch.object(os, "geteuid", lambda: account):
            return why_no_room(self.file)

    def test_a_disk_with_room_for_an_act_is_not_full(self):
        self.assertIsNone(self.why(free=ROOM_OF_AN_ACT))

    def test_a_disk_with_less_room_is_named_with_what_it_has_left(self):
        self.assertEqual(self.why(free=40_960), f"the disk of {self.place} has only 40,960 bytes left")
        self.assertEqual(self.why(), f"the disk of {self.place} is full")

    def test_what_a_disk_keeps_for_root_is_room_for_root_alone(self):
        self.assertIsNone(self.why(kept=ROOM_OF_AN_ACT, account=ROOT))
        self.assertEqual(self.why(kept=ROOM_OF_AN_ACT), f"the disk of {self.place} is full")

    def test_of_a_folder_that_is_not_there_nothing_is_said(self):
        self.assertIsNone(why_no_room(str(self.place / "none" / "desk.db")))

    def test_a_desk_that_does_not_open_by_a_fault_on_a_full_disk_has_that_named(self):
        with mock.patch("grdesk.desk.file.why_no_room", lambda _: "the disk of /x is full"):
            message = "nothing was sent: desk.db does not open, and the program said: "
            full = f"{message}fault F2 Store; the disk of /x is full: make room there first"
            self.assertEqual(str(NotOpened("desk.db", self.file, "fault F2 Store\n")), full)
            self.assertEqual(str(NotOpened("desk.db", self.file, "no file\n")), f"{message}no file")
