"""How a replay copies a desk that nobody has open: into a new file for its owner alone, and never through a link."""
import os
import stat
import sys

from tests.support.case import Case
from tests.support.in_process import stopped, under_umask
from tests.support.program import TOP

sys.path.insert(0, str(TOP / "tools"))
from grdesk.error import Failed  # noqa: E402
from grdesk.journal.replay import copy_closed  # noqa: E402

DESK, OTHER = b"the ballots\n", b"another file\n"


class Copies(Case):
    def setUp(self):
        self.work = self.folder()
        self.desk, self.copy = self.work / "desk.db", self.work / "copy"
        self.desk.write_bytes(DESK)
        self.desk.chmod(0o644)

    def test_a_copy_is_its_owners_alone_from_the_beginning_whatever_the_umask_and_the_mode_of_the_desk(self):
        self.copy.write_bytes(OTHER)
        self.copy.chmod(0o666)
        opened = self.copy.open("rb")
        self.addCleanup(opened.close)
        with under_umask(0):
            copy_closed(str(self.desk), str(self.copy))
        self.assertEqual((self.copy.read_bytes(), stat.filemode(self.copy.stat().st_mode)), (DESK, "-rw-------"))
        self.assertEqual(opened.read(), OTHER, "what somebody has open that had the name before")

    def test_a_link_in_its_place_is_replaced_and_not_followed(self):
        elsewhere = self.work / "elsewhere"
        elsewhere.write_bytes(OTHER)
        self.copy.symlink_to(elsewhere)
        copy_closed(str(self.desk), str(self.copy))
        self.assertEqual((elsewhere.read_bytes(), self.copy.read_bytes()), (OTHER, DESK))
        self.assertFalse(self.copy.is_symlink())

    def test_a_log_that_has_the_name_of_that_of_the_copy_is_taken_away(self):
        log = self.work / "copy-wal"
        log.write_bytes(OTHER)
        copy_closed(str(self.desk), str(self.copy))
        self.assertFalse(log.exists())

    def test_a_desk_whose_log_has_acts_is_not_copied(self):
        (self.work / "desk.db-wal").write_bytes(b"x" * 100_000)
        why = stopped(Failed, copy_closed, str(self.desk), str(self.copy))
        self.assertEqual(why, f"the log of {self.desk} could not be copied into it; is the disk full?")
        self.assertEqual(sorted(os.listdir(self.work)), ["desk.db", "desk.db-wal"])
