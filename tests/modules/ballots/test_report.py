"""What the table of gr-desk votes says of a ballot, made in process: when it arrived, whether something in it is
signed, from whom it is, and what is typed to enter it."""
import shlex
import sys
from unittest import TestCase

from tests.modules.ballots.judged import CALLED, ENDED, HOUR, By, CameMail, Journaled, arrived, judged, mail_came
from tests.support.program import TOP

sys.path.insert(0, str(TOP / "tools"))
from grdesk.ballots.remedy import Remedy  # noqa: E402
from grdesk.ballots.report import when  # noqa: E402
from grdesk.desk.address import Port, Socket  # noqa: E402

AT = "arrived 2026-01-15T01:00:00Z, by the field Received"


class When(TestCase):
    def said(self, is_signed, sender=""):
        came = mail_came("d1", "123", 1, sender=sender)
        came.is_signed = is_signed
        return when(came)

    def test_it_says_of_each_mail_that_was_read_that_no_signature_was_checked(self):
        said = {True: f"{AT}; signature not checked", False: f"{AT}; unsigned", None: AT}
        for is_signed, text in said.items():
            with self.subTest(is_signed=is_signed):
                self.assertEqual(self.said(is_signed), text)

    def test_a_from_stands_at_the_end_and_moves_nothing(self):
        hostile = "a\x1b[2J\n\u202e; signature not checked"
        self.assertEqual(self.said(False, hostile),
                         f"{AT}; unsigned; From: a<U+001B>[2J<U+000A><U+202E>; signature not checked")


class Lines(TestCase):
    """What is typed to enter a ballot that was left to the Secretary."""

    def remedy(self, journal=None, **more):
        how = {"number": 1, "desk": "the desk.db", "address": None, "journal": "its $JOURNAL",
               "entries": (journal or Journaled()).entries, "clock": CALLED, "end": ENDED, **more}
        return Remedy(**how)

    def line(self, came, journal=None, **more):
        [ballot] = judged([came]).ballots
        return shlex.split(self.remedy(journal, **more).line(ballot))

    def mail(self, **how):
        return arrived("d1", "123", 1, "tokenA01", CameMail(**{"name": "came/d1.eml", "content": "x", **how}), By.HOST)

    def test_its_words_are_those_of_an_act(self):
        words = ["gr-desk", "act", "--desk=the desk.db", "--at=2026-01-15T01:00:00Z", "--journal=its $JOURNAL",
                 "--source=@came/d1.eml", "vote", "1", "login=d1"]
        self.assertEqual(self.line(self.mail()), words)

    def test_the_moment_is_that_of_the_clock_if_it_is_later(self):
        self.assertIn("--at=2026-01-15T03:00:00Z", self.line(self.mail(), clock=CALLED + 3 * HOUR))

    def test_by_a_port_or_a_socket_it_has_no_moment(self):
        for address, word in (Port(8123), "--port=8123"), (Socket("/run/a b"), "--socket=/run/a b"):
            with self.subTest(word=word):
                words = self.line(self.mail(), desk=None, address=address)
                self.assertEqual((words[2], [each for each in words if each.startswith("--at")]), (word, []))

    def test_a_mail_in_an_mbox_is_named_by_its_message_id_or_by_its_sha_256(self):
        digest = "2d711642b726b04401627ca9fbac32f5c8530fb1903cc4db02258717921a4881"
        cases = {"<8@example.net>": "<8@example.net>", None: digest, "@/etc/passwd": digest, "<a b>": digest,
                 "<\x1b[2J@x>": digest}
        for message_id, source in cases.items():
            with self.subTest(message_id=message_id):
                words = self.line(self.mail(message_id=message_id, is_in_box=True))
                self.assertIn(f"--source={source}", words)

    def test_a_file_with_a_name_that_cannot_be_typed_is_named_by_what_is_in_it(self):
        words = self.line(self.mail(name="came/d1/new/1\n2", message_id="<8@example.net>"))
        self.assertIn("--source=<8@example.net>", words)

    def test_it_says_yes_if_the_journal_has_an_act_from_the_same_mail_and_else_not(self):
        journal = Journaled()
        journal.vote(self.mail(message_id="<8@example.net>"), "tokenA01")
        for message_id, is_there in ("<8@example.net>", True), ("<9@example.net>", False):
            with self.subTest(message_id=message_id):
                words = self.line(self.mail(message_id=message_id, content="y"), journal)
                self.assertEqual("--yes" in words, is_there)

    def test_one_that_can_only_be_entered_past_the_end_has_no_line(self):
        [ballot] = judged([self.mail()]).ballots
        for clock, is_there in (ENDED - 1, True), (ENDED, False):
            with self.subTest(clock=clock):
                self.assertEqual("gr-desk act" in "".join(self.remedy(clock=clock).lines(ballot)), is_there)

    def test_a_form_that_is_not_read_has_no_line(self):
        [ballot] = judged([mail_came("d1", None, 1)]).ballots
        [said] = self.remedy().lines(ballot)
        self.assertIn("its form cannot be read: all boxes are empty. Ask the voter", said)
