"""The modes of an outbox: its owner alone may read what is in it, whatever the umask, no mail is written twice, and a
folder that others may enter is none."""
import os
import signal
import stat
import sys
from email.message import EmailMessage
from types import SimpleNamespace

from tests.support.case import Case
from tests.support.in_process import stopped, under_umask
from tests.support.program import TOP

sys.path.insert(0, str(TOP / "tools"))
from grdesk.ballots.outbox import Outbox, mail_of  # noqa: E402
from grdesk.error import Failed, Refused  # noqa: E402

# How long something may take that waits for nothing, in seconds.
SOON = 30
DIGEST = "0123456789abcdef" * 4


def answer(text="Your ballot was entered.\n", digest=DIGEST):
    mail = EmailMessage()
    mail.set_content(text)
    return SimpleNamespace(mail=mail, digest=digest)


def modes_in(place):
    """The mode of a folder, and of each file in it."""
    return {each.name: stat.filemode(each.lstat().st_mode) for each in (place, *place.iterdir())}


class Modes(Case):
    def fill(self, place):
        """Makes an outbox with a mail in it. That the tool refuses its own folder fails the test."""
        try:
            outbox = Outbox(str(place))
        except Refused as why:
            self.fail(why)
        outbox.put("eve", answer())
        outbox.keep(["f" * 64])
        outbox.end()

    def test_the_folder_and_all_in_it_are_for_their_owner_alone_whatever_the_umask(self):
        for mask in 0o000, 0o022, 0o077:
            with self.subTest(umask=oct(mask)):
                place = self.folder() / "outbox"
                with under_umask(mask):
                    self.fill(place)
                self.assertEqual(modes_in(place), {
                    "outbox": "drwx------", ".written": "-rw-------", "eve.0123456789abcdef.eml": "-rw-------"})

    def test_a_folder_that_others_may_enter_read_or_write_is_refused(self):
        for mode in 0o701, 0o704, 0o702, 0o710, 0o740, 0o720, 0o755:
            with self.subTest(mode=oct(mode)):
                place = self.folder() / "outbox"
                place.mkdir()
                place.chmod(mode)
                message = f"nothing was done: other accounts may enter {place}, which shows who voted how: chmod 700 it"
                self.assertEqual(stopped(Refused, Outbox, str(place)), message)
                self.assertEqual(list(place.iterdir()), [])

    def test_a_folder_of_its_owner_alone_is_taken_if_it_is_empty(self):
        place = self.folder() / "outbox"
        place.mkdir(mode=0o700)
        Outbox(str(place))
        self.assertEqual(os.listdir(place), [".written"])
        other = self.folder() / "other"
        other.mkdir(mode=0o700)
        (other / "letter").write_text("")
        message = f"nothing was done: {other} is not empty, and is not an outbox: name a new folder"
        self.assertEqual(stopped(Refused, Outbox, str(other)), message)

    def test_an_outbox_whose_list_of_mails_is_no_file_is_refused_and_not_waited_for(self):
        before = signal.signal(signal.SIGALRM, lambda *_: self.fail("it waits"))
        self.addCleanup(signal.signal, signal.SIGALRM, before)
        self.addCleanup(signal.alarm, 0)
        signal.alarm(SOON)
        place = self.folder() / "outbox"
        place.mkdir(mode=0o700)
        os.mkfifo(place / ".written")
        message = f"{place} cannot be used as an outbox: {place}/.written is no file; remove it"
        self.assertEqual(stopped(Failed, Outbox, str(place)), message)


class Once(Case):
    def test_a_mail_is_written_once_also_by_a_later_run_after_it_was_sent_away(self):
        place = self.folder() / "outbox"
        self.assertTrue(Outbox(str(place)).put("eve", answer()))
        (place / "eve.0123456789abcdef.eml").unlink()
        later = Outbox(str(place))
        self.assertFalse(later.put("eve", answer()))
        self.assertTrue(later.put("eve", answer(digest="f" * 64)))
        self.assertEqual(sorted(os.listdir(place)), [".written", "eve.ffffffffffffffff.eml"])
        self.assertEqual((place / ".written").read_text(), f"{DIGEST}\n{'f' * 64}\n")

    def test_a_digest_is_kept_once(self):
        place = self.folder() / "outbox"
        outbox = Outbox(str(place))
        outbox.keep([DIGEST])
        outbox.keep([DIGEST, "f" * 64])
        self.assertEqual((place / ".written").read_text(), f"{DIGEST}\n{'f' * 64}\n")
        self.assertTrue(Outbox(str(place)).has("f" * 64))
        self.assertFalse(Outbox(str(place)).has("0" * 64))

    def test_a_line_that_a_stop_cut_off_is_not_known_and_a_mail_that_was_begun_is_taken_away(self):
        place = self.folder() / "outbox"
        Outbox(str(place)).keep([DIGEST])
        with open(place / ".written", "a", encoding="ascii") as file:
            file.write("f" * 63)
        (place / ".ffffffffffffffff.new").write_text("half")
        outbox = Outbox(str(place))
        self.assertEqual((outbox.has(DIGEST), outbox.has("f" * 63)), (True, False))
        self.assertEqual(os.listdir(place), [".written"])
        outbox.keep(["e" * 64])
        self.assertEqual((place / ".written").read_text(), f"{DIGEST}\n{'e' * 64}\n")


class Mails(Case):
    def test_a_message_id_that_a_head_can_have_is_answered_and_no_other(self):
        for answered, is_named in (("<1@example.org>", True), ("1@example.org", False), ("<a b@example.org>", False),
                                   (f"<{'x' * 900}>", True), (f"<{'x' * 901}>", False), ("<\u00e9@example.org>", False),
                                   (None, False)):
            with self.subTest(answered=answered):
                mail = mail_of("Your ballot on resolution 1", "Text.\n", None, answered)
                self.assertEqual(mail["In-Reply-To"], answered if is_named else None)

    def test_a_mail_has_its_subject_its_text_and_to_whom_it_goes_if_that_is_known(self):
        mail = mail_of("Your ballot on resolution 1", "Text.\n", "eve@example.org", None)
        self.assertEqual((mail["Subject"], mail["To"], mail.get_content()),
                         ("Your ballot on resolution 1", "eve@example.org", "Text.\n"))
        self.assertIsNone(mail_of("x", "Text.\n", None, None)["To"])
