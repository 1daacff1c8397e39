"""What tools do if something that is no file has the name of one that they read, or a link or a file of another account
has the name of a journal: they refuse it by its name, and wait for nothing."""
import os
import signal
import subprocess
import unittest
from types import SimpleNamespace
from unittest import mock

from tests.support.case import Case
from tests.support.in_process import loaded, said, stopped

from grdesk.ballots import mailbox  # noqa: E402
from grdesk.ballots.arrival import Arrival, By  # noqa: E402
from grdesk.ballots.mail import Mail  # noqa: E402
from grdesk.desk import copy as copies, digest  # noqa: E402
from grdesk.desk.request import MOST_BYTES  # noqa: E402
from grdesk.error import Failed, Refused  # noqa: E402
from grdesk.journal import journal  # noqa: E402

# How long something may take that waits for nothing, in seconds.
SOON = 30
# An account that is not that of the tests, where these are run by root.
OTHER = 65_534


def end(*_):
    raise AssertionError("it waits")


class OddFiles(Case):
    def setUp(self):
        self.work = self.folder()
        before = signal.signal(signal.SIGALRM, end)
        self.addCleanup(signal.signal, signal.SIGALRM, before)
        self.addCleanup(signal.alarm, 0)
        signal.alarm(SOON)

    def fifo(self, name):
        path = self.work / name
        os.mkfifo(path, 0o600)
        return str(path)

    def test_a_fifo_in_the_place_of_a_log_is_refused(self):
        desk = self.work / "desk.db"
        desk.write_bytes(b"x")
        log = self.fifo("desk.db-wal")
        self.assertEqual(stopped(Failed, copies.copy_desk, str(desk), str(self.work / "copy")), f"{log} is no file")

    def test_a_fifo_in_the_place_of_digests_is_refused(self):
        sums = self.fifo("copy.sha256")
        self.assertEqual(stopped(Failed, digest.read_digests, str(self.work / "copy")), f"{sums} is no file")

    def test_a_fifo_in_the_place_of_a_journal_is_refused(self):
        name = self.fifo("journal")
        for is_read in True, False:
            with self.subTest(is_read=is_read):
                why = stopped(Failed, journal.journal_at(name, is_read=is_read).__enter__)
                self.assertEqual(why, f"{name} is no file")

    @unittest.skipIf(os.geteuid(), "only root can make a file of another account")
    def test_a_journal_of_another_account_is_refused(self):
        name = self.work / "journal"
        name.touch(0o600)
        os.chown(name, OTHER, OTHER)
        why = stopped(Refused, journal.journal_at(str(name), is_made=True).__enter__)
        self.assertIn(f"{name} belongs to another account", why)
        self.assertEqual(name.read_bytes(), b"")

    @unittest.skipIf(os.geteuid(), "only root can make a link of another account")
    def test_no_journal_is_made_behind_a_link_of_another_account(self):
        link, target = self.work / "journal", self.work / "theirs"
        link.symlink_to(target)
        os.lchown(link, OTHER, OTHER)
        why = stopped(Refused, journal.journal_at(str(link), is_made=True).__enter__)
        self.assertIn(f"{link} is a link of another account", why)
        self.assertFalse(target.exists())

    def test_a_journal_is_made_behind_a_link_of_its_own_account(self):
        link, target = self.work / "journal", self.work / "elsewhere"
        link.symlink_to(target)
        with journal.journal_at(str(link), is_made=True):
            self.assertTrue(target.is_file())

    def test_of_a_text_without_an_end_so_much_is_read_that_the_desk_refuses_it(self):
        self.assertEqual(len(loaded("act").text_of_file("/dev/zero")), MOST_BYTES + 1)

    def test_a_text_may_come_by_a_pipe(self):
        with subprocess.Popen(["echo", "Paint it."], stdout=subprocess.PIPE) as process:
            text = loaded("act").text_of_file(f"/dev/fd/{process.stdout.fileno()}")
        self.assertEqual(text, b"Paint it.\n")

    def test_no_copy_is_sent_if_the_newest_one_is_a_link_or_a_fifo(self):
        tool = loaded("copy_out")
        name = self.work / "desk.db-20260101T000000Z"
        elsewhere = self.work / "elsewhere"
        elsewhere.write_bytes(b"x")
        for make in lambda path: path.symlink_to(elsewhere), os.mkfifo:
            make(name)
            with self.subTest(kind=os.lstat(name).st_mode), mock.patch.object(tool, "is_whole", lambda copy: True):
                why = stopped(Failed, tool.newest_copy, "desk.db", str(self.work))
                self.assertEqual(why, f"nothing was sent: {name} has the name of a copy, and is no file: remove it")
            name.unlink()

    def test_no_copy_is_made_in_a_folder_from_which_every_account_can_take_it_away(self):
        place = self.work / "open"
        place.mkdir()
        place.chmod(0o777)
        (self.work / "desk.db").write_bytes(b"x")
        why = stopped((Refused, Failed), copies.copy_to, str(self.work / "desk.db"), str(place / "copy"), True)
        self.assertIn(f"all accounts can write into {place}", why)
        self.assertEqual(os.listdir(place), [])

    def test_a_mail_that_cannot_be_read_is_named_and_ends_nothing(self):
        path = self.work / "d1.eml"
        path.write_bytes(b"From: d1@example.org\n\nx\n")
        with mock.patch.object(mailbox.os, "open", side_effect=PermissionError(13, "Permission denied")):
            try:
                found = mailbox.items_at(path)
            except OSError as error:
                self.fail(f"it cannot be read, and that ends the run: {error}")
        self.assertEqual(found, ([], [mailbox.Skipped(str(path), "cannot be read: Permission denied")]))


class TimesOfFiles(Case):
    def test_each_mail_with_a_field_received_that_is_not_taken_is_named_also_a_text(self):
        received = b"Received: by a; x\n"
        contents = {"d1.eml": received + b"From: a@b\n\nx\n", "d2.txt": b"\n" + received, "d3.txt": b"x\n"}
        arrivals = [Arrival(name[:2], Mail(name, content, 1), 1, By.FILE) for name, content in contents.items()]
        batch = SimpleNamespace(ballots=[SimpleNamespace(arrival=each, is_reported=False) for each in arrivals])
        with said() as text:
            loaded("votes").warn_of_times(batch, "vote.example.org")
            named = [line.rpartition(" ")[2] for line in text.lines()]
        self.assertEqual(named[1:], ["d1.eml", "d2.txt"])
