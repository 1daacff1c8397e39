"""The mails of files, mboxes and Maildirs, as strangers may leave them: what is read, and what is passed over by its
name, with the reason. Nothing is followed, nothing hangs, and the other mails are read."""
import errno
import mailbox
import os
import signal
import socket
import sys
from unittest import mock

from tests.modules.ballots.reading_case import FORM, ReadingCase, line_of
from tests.support.ballot_cases import FILLED, form, mail
from tests.support.called import CALLED
from tests.support.program import TOP

sys.path.insert(0, str(TOP / "tools"))
from grdesk.ballots.arrival import By, arrivals_in  # noqa: E402
from grdesk.ballots.mail import mails_at  # noqa: E402
from grdesk.desk.sheet import Developer  # noqa: E402

OTHER = form("   ", " 1 ", "   ")
# No look at a folder takes longer, in seconds. One that hangs ends by this.
PATIENCE = 30
SEPARATOR = "From voter@example.org Thu Jan 15 02:00:00 2026\n"


def letter(text=FILLED, *more):
    return "".join(f"{line}\n" for line in ("From: voter@example.org", *more, "")) + text


class Boxes(ReadingCase):
    def setUp(self):
        signal.signal(signal.SIGALRM, lambda *_: self.fail("it hangs"))
        signal.alarm(PATIENCE)
        self.addCleanup(signal.alarm, 0)
        self.place = self.folder()

    def put(self, name, content=FILLED):
        path = self.place / name
        path.parent.mkdir(parents=True, exist_ok=True)
        path.write_bytes(content if isinstance(content, bytes) else content.encode())
        return path

    def mbox(self, *texts):
        return self.put("d1.mbox", "".join(texts))

    def maildir(self, *names):
        for part in "new", "cur":
            (self.place / "d1" / part).mkdir(parents=True, exist_ok=True)
        for number, name in enumerate(names):
            path = self.put(f"d1/{name}", letter(FILLED, f"Message-ID: <{number}@x>"))
            os.utime(path, (CALLED + number, CALLED + number))
        return self.place / "d1"

    def found(self, path):
        """The names of the mails that are read, and of those that are passed over with the reason, in the place."""
        box, start = mails_at(path), len(f"{self.place}/")
        for each in box.mails:
            self.assertEqual(line_of(each.content), "ok 21- unsigned")
        return [each.name[start:] for each in box.mails], {each.name[start:]: each.why for each in box.passed}


class Maildirs(Boxes):
    def test_what_is_no_file_is_passed_over_by_its_name_and_the_mails_beside_it_are_read(self):
        place = self.maildir("cur/1:2,S", "new/2")
        os.mkfifo(place / "cur" / "fifo")
        (place / "cur" / "folder").mkdir()
        (place / "cur" / "folder" / "mail").write_text(letter())
        (place / "new" / "link").symlink_to(self.put("elsewhere", letter()))
        (place / "new" / "broken").symlink_to(self.place / "nowhere")
        with socket.socket(socket.AF_UNIX) as other:
            here = os.getcwd()
            os.chdir(place / "new")
            self.addCleanup(os.chdir, here)
            other.bind("socket")
        reasons = {"d1/cur/fifo": "is a FIFO", "d1/cur/folder": "is a folder", "d1/new/link": "is a link",
                   "d1/new/broken": "is a link", "d1/new/socket": "is a socket"}
        self.assertEqual(self.found(place), (["d1/cur/1:2,S", "d1/new/2"], reasons))

    def test_trashed_mails_and_drafts_are_left_out_by_their_names(self):
        names = ["cur/3:2,FRS", "new/5", "cur/6:2,", "cur/7TD", "cur/8:2,T.x"]
        place = self.maildir(*names[:1], "cur/1:2,ST", "cur/2:2,D", "new/4:2,T", *names[1:])
        reasons = {"d1/cur/1:2,ST": "is trashed", "d1/cur/2:2,D": "is a draft", "d1/new/4:2,T": "is trashed"}
        self.assertEqual(self.found(place), ([f"d1/{name}" for name in names], reasons))

    def test_a_file_that_cannot_be_read_stops_nothing(self):
        place = self.maildir("cur/1", "cur/2", "new/3")
        opens, fails = os.open, OSError(errno.EIO, "Input/output error")

        def opened(name, *rest, **more):
            if name == "2":
                raise fails
            return opens(name, *rest, **more)

        with mock.patch("os.open", opened):
            found = self.found(place)
        reasons = {"d1/cur/2": "cannot be read: Input/output error"}
        self.assertEqual(found, (["d1/cur/1", "d1/new/3"], reasons))

    def test_a_folder_that_is_a_link_or_has_one_in_the_place_of_a_part_is_none(self):
        other = self.maildir("cur/1").rename(self.place / "other")
        (self.place / "d1").symlink_to(other)
        self.assertEqual(self.found(self.place / "d1"), ([], {"d1": "is a link"}))
        (self.place / "d2" / "cur").mkdir(parents=True)
        (self.place / "d2" / "new").symlink_to(other / "new")
        self.assertEqual(self.found(self.place / "d2"), ([], {"d2": "is no Maildir: it has no folder new"}))

    def test_a_mail_there_is_one_mail_whatever_it_begins_with(self):
        place = self.maildir()
        self.put("d1/new/1", f"{SEPARATOR}{letter()}\n{SEPARATOR}{letter()}")
        self.assertEqual([each.name for each in mails_at(place).mails], [str(place / "new" / "1")])


class Mboxes(Boxes):
    def texts(self, *texts):
        return [each.content.decode() for each in mails_at(self.mbox(*texts)).mails]

    def test_a_line_of_a_text_that_begins_with_from_splits_nothing(self):
        for line in ("From my side: yes", "From me to you", "From voter@example.org", "From x Thu Jan 15 2026",
                     "From x at Thu Jan 15 02:00:00 2026", "from x Thu Jan 15 02:00:00 2026", "From"):
            text = letter(f"Hello,\n\n{line}\n\n{FILLED}")
            with self.subTest(line=line):
                self.assertEqual(self.texts(SEPARATOR, text, "\n", SEPARATOR, letter()), [text, letter()])

    def test_a_separator_splits_after_an_empty_line_alone(self):
        text = letter(f"Hello,\n{SEPARATOR}{FILLED}")
        self.assertEqual(self.texts(SEPARATOR, text), [text])

    def test_a_separator_has_an_address_and_a_date_with_a_zone_or_none(self):
        for line in ("From MAILER-DAEMON Thu Jan  1 00:00:00 1970", "From - Thu Jan 15 02:00:00 2026",
                     "From x@y  Thu Jan 15 02:00:00 UTC 2026", "From x Thu Jan 15 02:00:00 2026 +0100",
                     "From x Thu Jan 15 02:00:00 +0100 2026", "From x Thu Jan 15 02:00 2026",
                     "From x Thu Jan 15 02:00:00 2026\r"):
            with self.subTest(line=line):
                self.assertEqual(self.texts(f"{line}\n", letter(), f"\n{line}\n", letter()), [letter(), letter()])

    def test_its_mails_have_the_bytes_that_mailbox_gives(self):
        for number, texts in enumerate([
            (SEPARATOR, letter(), "\n", SEPARATOR, letter(OTHER)),
            (SEPARATOR, letter(), SEPARATOR.replace("voter", "other")),
            (SEPARATOR, letter(), "\n\n\n", SEPARATOR, "\n", SEPARATOR, letter(), "\n"),
            (SEPARATOR, letter().replace("\n", "\r\n"), "\r\n", SEPARATOR, letter()),
            (SEPARATOR, letter().rstrip("\n")),
            (SEPARATOR,),
            (SEPARATOR.replace("\n", "\r\n"), letter(), "\n" + SEPARATOR),
        ]):
            # Python's own takes a separator that no empty line is before.
            if number == 1:
                texts = (SEPARATOR, letter(), "\n", texts[2])
            path = self.mbox(*texts)
            box = mailbox.mbox(path, create=False)
            self.addCleanup(box.close)
            with self.subTest(number=number):
                contents = [each.content for each in mails_at(path).mails]
                self.assertEqual(contents, [box.get_bytes(key) for key in box.keys()])

    def test_deleted_mails_and_drafts_are_left_out_by_their_names(self):
        fields = ["Status: RO", "Status: RD", "X-Status: D", "X-Status: T", "X-Status: AF", "Status: T",
                  "X-Status: A\n D"]
        path = self.mbox(*(f"{SEPARATOR}{letter(FILLED, field)}\n" for field in fields))
        reasons = {2: "is trashed", 3: "is trashed", 4: "is a draft", 7: "is trashed"}
        expected = {f"d1.mbox, mail {number}": why for number, why in reasons.items()}
        self.assertEqual(self.found(path), ([f"d1.mbox, mail {number}" for number in (1, 5, 6)], expected))

    def test_the_end_of_a_long_line_is_no_empty_line(self):
        for count in 1 << 20, (1 << 20) - 1, 1 << 21:
            with self.subTest(count=count):
                text = letter(f"{'x' * count}\n{SEPARATOR}y\n")
                self.assertEqual(self.texts(SEPARATOR, text), [text])

    def test_a_text_that_begins_with_from_is_no_mbox(self):
        self.assertEqual(self.found(self.put("d1.txt", f"From me to you:\n\n{FILLED}")), (["d1.txt"], {}))

    def test_a_mail_that_is_too_large_is_refused_and_those_beside_it_are_read(self):
        path = self.mbox(SEPARATOR, letter("x" * 10_000_001), "\n\n", SEPARATOR, letter())
        lines = [line_of(each.content) for each in mails_at(path).mails]
        self.assertEqual(lines[1], "ok 21- unsigned")
        self.assertIn("more than 10,000,000 bytes", lines[0])
        self.assertEqual(len({each.key() for each in mails_at(path).mails}), 2)


class Folders(Boxes):
    """A folder of which each name is that of a voter."""

    def arrivals(self):
        roll = {login: Developer(login, True, "The Name") for login in ("d1", "d2")}
        return arrivals_in(self.place, FORM, None, roll)[:2]

    def test_what_is_passed_over_is_left_out_by_its_name_in_the_folder(self):
        self.maildir("cur/1:2,T", "cur/2")
        os.mkfifo(self.place / "d1" / "new" / "fifo")
        (self.place / "d2.eml").symlink_to(self.put("elsewhere", letter()))
        os.mkfifo(self.place / "d2.txt")
        arrivals, strays = self.arrivals()
        self.assertEqual([(each.login, each.by, each.is_signed) for each in arrivals], [("d1", By.FILE, False)])
        self.assertEqual([tuple(each) for each in strays], [
            ("d1/cur/1:2,T", "it is trashed", True),
            ("elsewhere", "its name is no login with .txt, .eml or .mbox after it", True),
            ("d1/new/fifo", "it is a FIFO", False),
            ("d2.eml", "it is a link, and no link is followed", False),
            ("d2.txt", "it is no file, mbox or Maildir", False),
        ])

    def test_each_mail_says_whether_it_is_signed_if_it_is_read(self):
        self.put("d1.eml", mail(FILLED))
        self.put("d2.eml", mail(FILLED, "Content-Type: text/html"))
        arrivals, strays = self.arrivals()
        self.assertEqual({each.login: each.is_signed for each in arrivals}, {"d1": False, "d2": None})
        self.assertEqual(strays, [])
