"""What an outbox has at each moment at which the power may be cut: each mail that is recorded as written is there, and
whole. A cut may leave all that was written so far, and of what no sync brought to the disk nothing. A mail that a full
disk does not take is named, and is written by a later run."""
import os
import resource
import stat
import sys
from email.message import EmailMessage
from pathlib import Path
from typing import NamedTuple
from unittest import mock

from tests.support.case import Case
from tests.support.program import TOP

sys.path.insert(0, str(TOP / "tools"))
from grdesk.ballots.outbox import WRITTEN, Outbox  # noqa: E402
from grdesk.error import Failed, Refused  # noqa: E402

LOGINS = "d1", "d2", "d3"
# How many bytes a file may have on a disk that is full.
FULL = 2_000


class Answer(NamedTuple):
    """A mail to a voter, as an outbox takes it."""

    digest: str
    mail: EmailMessage


def answer_to(login, length=10):
    mail = EmailMessage()
    mail.set_content(f"{login} " * length)
    return Answer(f"{LOGINS.index(login)}" * 64, mail)


class Disk:
    """What of an outbox is surely on the disk: by the syncs of its files, and of the folder with their names."""

    def __init__(self, folder):
        self.folder = folder
        # What a file has by its last sync, by its number, and which number a name has by the last sync of the folder.
        self.synced, self.names = {}, {}

    def sync(self, descriptor):
        about = os.fstat(descriptor)
        if stat.S_ISDIR(about.st_mode):
            self.names = {path.name: path.stat().st_ino for path in self.folder.iterdir()}
        else:
            # It may be open for writing alone.
            self.synced[about.st_ino] = Path(f"/proc/self/fd/{descriptor}").read_bytes()

    def recorded(self):
        """The digests that a cut may leave as those of mails that were written."""
        return (self.folder / WRITTEN).read_text().split()

    def lost(self, answers):
        """The logins whose mail a cut may take away, although it is recorded as written."""
        for login, answer in answers.items():
            if answer.digest in self.recorded():
                number = self.names.get(f"{login}.{answer.digest[:16]}.eml")
                if self.synced.get(number) != answer.mail.as_bytes():
                    yield login


class PowerCuts(Case):
    def test_no_cut_of_the_power_leaves_a_mail_recorded_that_is_not_there_or_not_whole(self):
        place = self.folder() / "outbox"
        answers = {login: answer_to(login) for login in LOGINS}
        box, disk, lost, steps = Outbox(str(place)), Disk(place), [], []

        def watched(name):
            call = getattr(os, name)

            def step(*words, **more):
                lost.extend(disk.lost(answers))
                came = call(*words, **more)
                if name == "fsync":
                    disk.sync(*words)
                lost.extend(disk.lost(answers))
                steps.append(name)
                return came

            return mock.patch.object(os, name, step)

        with watched("write"), watched("fsync"), watched("rename"):
            for login, answer in answers.items():
                self.assertTrue(box.put(login, answer))
            box.end()
        lost.extend(disk.lost(answers))
        self.assertEqual(lost, [], "a mail is recorded, and a cut of the power may take it away")
        self.assertEqual(disk.recorded(), [answer.digest for answer in answers.values()])
        self.assertGreaterEqual(steps.count("fsync"), 3 * len(answers), steps)


class FullDisks(Case):
    def setUp(self):
        self.place = self.folder() / "outbox"
        self.box = Outbox(str(self.place))
        self.box.put("d1", answer_to("d1"))

    def on_a_full_disk(self, does):
        """What the outbox fails by, where a file may have so many bytes alone."""
        soft, hard = resource.getrlimit(resource.RLIMIT_FSIZE)
        resource.setrlimit(resource.RLIMIT_FSIZE, (FULL, hard))
        try:
            with self.assertRaises(OSError) as raised:
                does()
        finally:
            resource.setrlimit(resource.RLIMIT_FSIZE, (soft, hard))
        return raised.exception.filename

    def test_a_mail_that_the_disk_does_not_take_is_named_and_written_later(self):
        long = answer_to("d2", FULL)
        named = self.on_a_full_disk(lambda: self.box.put("d2", long))
        self.assertEqual(named, f"{self.place}/d2.{long.digest[:16]}.eml")
        again = Outbox(str(self.place))
        self.assertEqual(sorted(path.name for path in self.place.glob("*.eml*")), ["d1.0000000000000000.eml"])
        self.assertTrue(again.put("d2", long))
        self.assertEqual((self.place / f"d2.{long.digest[:16]}.eml").read_bytes(), long.mail.as_bytes())

    def test_what_is_written_is_recorded_whole_or_not_where_the_disk_does_not_take_it(self):
        digests = [f"{number:064}" for number in range(100)]
        named = self.on_a_full_disk(lambda: self.box.keep(digests))
        self.assertEqual(named, f"{self.place}/{WRITTEN}")
        self.assertFalse(self.box.has(digests[50]))
        self.box.keep(digests[:2])
        self.assertEqual(Outbox(str(self.place)).digests, {"0" * 64, *digests[:2]})


class Places(Case):
    def test_an_outbox_by_a_link_is_not_used(self):
        place = self.folder()
        place.chmod(0o700)
        link = place.with_name(f"{place.name}.link")
        link.symlink_to(place)
        self.addCleanup(link.unlink)
        for name in str(link), f"{link}/":
            with self.subTest(name=name), self.assertRaises(Failed) as raised:
                Outbox(name)
            why = "it is a link, and no link is followed: name the folder itself"
            self.assertEqual(str(raised.exception), f"{name} cannot be used as an outbox: {why}")
        self.assertEqual(os.listdir(place), [])

    def test_an_outbox_of_another_account_is_refused(self):
        if os.geteuid() != 0:
            self.skipTest("only root can give a folder to another account")
        place = self.folder() / "outbox"
        place.mkdir(mode=0o700)
        os.chown(place, 54_321, -1)
        with self.assertRaises(Refused) as raised:
            Outbox(str(place))
        why = f"nothing was done: {place} belongs to another account: name an outbox of your own"
        self.assertEqual(str(raised.exception), why)
        self.assertEqual(os.listdir(place), [])
