"""Where every account of the machine can put a ballot: in the folder of a run, in a file, a Maildir or a mail there.
It is said once in a run, and nothing is refused. What a group can write, and where a link leads, is not reported."""
import sys
from unittest import mock

from tests.commands.voting_folder import HOUR, VotingFolder
from tests.support.called import CALLED, Called
from tests.support.case import Case
from tests.support.mailed import Folder, says
from tests.support.program import TOP

sys.path.insert(0, str(TOP / "tools"))
from grdesk.ballots import writable  # noqa: E402
from grdesk.ballots.writable import writable_by_all  # noqa: E402


class Writable(Case):
    def setUp(self):
        self.place = self.folder() / "came"
        for part in "d2/new", "d2/cur", "d2/tmp":
            (self.place / part).mkdir(parents=True)
        for name in "d1.mbox", "d2/new/1", "d3.eml":
            (self.place / name).write_text("x")
            (self.place / name).chmod(0o644)

    def found(self):
        top = f"{self.place}/"
        return [path[len(top) :] or "came" for path in writable_by_all(str(self.place))]

    def test_of_places_that_only_the_owner_and_the_group_can_write_none_is_reported(self):
        self.place.chmod(0o2775)
        (self.place / "d1.mbox").chmod(0o660)
        self.assertEqual(self.found(), [])

    def test_a_folder_is_reported_also_if_others_can_remove_nothing_there(self):
        for mode in 0o777, 0o1777, 0o703:
            with self.subTest(mode=oct(mode)):
                self.place.chmod(mode)
                self.assertEqual(self.found(), ["came"])

    def test_a_file_is_reported_by_its_name(self):
        (self.place / "d1.mbox").chmod(0o666)
        self.assertEqual(self.found(), ["d1.mbox"])

    def test_a_maildir_and_its_parts_and_mails_are_looked_at(self):
        for name, mode in ("d2", 0o777), ("d2/new", 0o1777), ("d2/new/1", 0o646), ("d2/tmp", 0o777):
            (self.place / name).chmod(mode)
        self.assertEqual(self.found(), ["d2", "d2/new", "d2/new/1"])

    def test_a_link_is_followed_only_if_it_is_the_folder_itself(self):
        other = self.folder() / "other"
        other.mkdir()
        other.chmod(0o777)
        (self.place / "d4").symlink_to(other)
        self.assertEqual(self.found(), [])
        link = self.folder() / "link"
        link.symlink_to(other)
        self.assertEqual(writable_by_all(str(link)), [f"{link}/"])

    def test_of_many_places_the_first_are_named(self):
        places = [f"came/d{number}.eml" for number in range(1, 9)]
        found = mock.patch.object(writable, "writable_by_all", lambda _: places)
        with found, mock.patch.object(writable, "note") as said:
            writable.warn_of_writable("came")
        message = "came/d1.eml, came/d2.eml, came/d3.eml, came/d4.eml, came/d5.eml and 3 other places. A ballot there"
        self.assertIn(message, said.call_args[0][0])


class Runs(Case):
    def test_a_run_names_the_places_once_and_enters_the_ballots(self):
        work = self.folder()
        desk = Called.made(work, 5)
        came = Folder(work / "came", desk)
        came.text("d1", came.filled("123"), CALLED + HOUR)
        came.place.chmod(0o1777)
        vote = VotingFolder(desk, came)
        ran = vote.run()
        says("a run", ran, 0, f"warning: the mode lets every account of this machine write to {came.place}/. A ballot "
             "there may be a stranger's: chmod o-w, and check", "1 vote of 1 entered")
        self.assertEqual(ran.err.count(b"every account"), 1)
        came.place.chmod(0o2775)
        ran = vote.run()
        self.assertNotIn(b"every account", ran.err)
