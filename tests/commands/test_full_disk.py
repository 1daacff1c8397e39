"""What gr-desk act and gr-desk votes say if the disk of the desk is full, which the program answers by a fault of its
store: which disk that is, that nothing is lost, and what to do. With room on the disk the same line goes on."""
import os
from contextlib import contextmanager

from tests.commands.voting_folder import HOUR, VotingFolder
from tests.support.called import CALLED, Called
from tests.support.case import Case
from tests.support.mailed import Folder, says
from tests.support.program import copy_desk, runs, tool

# With this, a copy of the desk has room beside it, and no act has.
LEFT = 16_384


class FullDisk(Case):
    """A desk on a disk of its own."""

    @classmethod
    def setUpClass(cls):
        cls.made = Called.made(cls.shared_folder(), 5)

    def setUp(self):
        self.work, self.disk = self.folder(), self.folder()
        if runs(["mount", "-t", "tmpfs", "-o", "size=1m,mode=700", "none", self.disk]).status != 0:
            self.skipTest("no disk can be made here")
        self.addCleanup(runs, ["umount", self.disk])
        self.file = copy_desk(self.made.file, self.disk / "desk.db")
        came = Folder(self.work / "came", self.made)
        came.text("d1", came.filled("123"), CALLED + HOUR)
        came.text("d2", came.filled("321"), CALLED + HOUR)
        self.vote = VotingFolder(Called(self.file, self.made.count), came)
        self.vote.journal = self.work / "journal"

    @contextmanager
    def full(self, left):
        """The disk has so many bytes left."""
        about = os.statvfs(self.disk)
        filling = self.disk / "filling"
        filling.write_bytes(bytes(about.f_bavail * about.f_frsize - left))
        yield
        filling.unlink()

    def test_votes_names_the_disk_and_the_next_run_enters_each_ballot_once(self):
        with self.full(self.file.stat().st_size + LEFT):
            ran = self.vote.run()
        message = f"the desk failed at the vote of d1 ({self.vote.came.place}/d1.txt), by fault F2 Store: the disk of"
        says("a run on a full disk", ran, 3, f"{message} {self.disk} has only ", "0 votes of 2 entered",
             " bytes left. Make room there, and then run this again. Nothing is lost")
        says("a run with room", self.vote.run(), 0, "2 votes of 2 entered")
        self.assertEqual({login: row[2] for login, row in self.vote.ballots().items()}, {"d1": 1, "d2": 1})

    def test_act_names_the_disk_and_the_same_line_is_accepted_with_room(self):
        words = ["--desk", self.file, "--journal", self.vote.journal, "--at", CALLED + HOUR]
        words += ["developer", "login=d9", "name=X", "status=current"]
        with self.full(LEFT):
            ran = tool("act", *words)
        says("an act on a full disk", ran, 3, f"the disk of {self.disk} has only 16,384 bytes left: make room there "
             "first; nothing that the desk has accepted is lost", "look before you send it again")
        says("an act with room", tool("act", *words), 0, f"ok {self.made.count + 1}")
