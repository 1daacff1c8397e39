"""Where an act came from, if that is a mail in a file. One mail has one source, whether gr-desk act --source or gr-desk
votes reads it, also if its head is one that mail programs read in different ways. What is no file is refused, and not
waited for."""
import hashlib
import os
import signal
import sys

from tests.support.case import Case
from tests.support.in_process import stopped
from tests.support.program import TOP

sys.path.insert(0, str(TOP / "tools"))
from grdesk.ballots.mail import Mail  # noqa: E402
from grdesk.error import Wrong  # noqa: E402
from grdesk.journal.source import source_of  # noqa: E402

# How long something may take that waits for nothing, in seconds.
SOON = 30
BEHIND = b"\nI propose it.\n"
ID = "<87x@d1>"
# Heads, and the Message-ID that a mail has by each.
HEADS = {
    "the usual one": (b"From: d1@d1\nMessage-ID: <87x@d1>\n", ID),
    "lines that end in CR LF": (b"From: d1@d1\r\nMessage-ID: <87x@d1>\r\n", ID),
    "folded": (b"Message-ID:\n <87x@d1>\nSubject: x\n", ID),
    "folded by a tab": (b"Message-ID:\r\n\t<87x@d1>\r\n", ID),
    "in other letters": (b"MESSAGE-id: <87x@d1>\n", ID),
    "a blank before the colon": (b"From: d1@d1\nMessage-ID : <87x@d1>\n", ID),
    "behind a line that is no field": (b"From: d1@d1\n>From d1@d1\nMessage-ID: <87x@d1>\n", ID),
    "behind a line of an mbox": (b"From d1@d1 Thu Jan 15 02:00:00 2026\nMessage-ID: <87x@d1>\n", ID),
    "behind a CR alone": (b"From: d1@d1\r\rMessage-ID: <87y@d1>\nMessage-ID: <87x@d1>\n", ID),
    "twice the same": (b"Message-ID: <87x@d1>\nMessage-ID: <87x@d1>\n", ID),
    "two of them": (b"Message-ID: <87x@d1>\nMessage-ID: <87y@d1>\n", None),
    "an empty one": (b"From: d1@d1\nMessage-ID:\n", None),
    "one that is too long": (b"From: d1@d1\nMessage-ID: <%b@d1>\n" % (1_000 * b"x"), None),
    "8 bits": (b"From: d1@d1\nMessage-ID: <\xff\xc3\xa4@d1>\n", "<\ufffd\ufffd\ufffd@d1>"),
    "an encoded word": (b"From: d1@d1\nMessage-ID: =?utf-8?q?<87x=40d1>?=\n", "=?utf-8?q?<87x=40d1>?="),
    "none": (b"From: d1@d1\n", None),
    "a text that names one in its midst": (b"I read this.\n\nMessage-ID: <87x@d1>\n", None),
}


class Sources(Case):
    def setUp(self):
        self.path = str(self.folder() / "mail")

    def source(self, content):
        with open(self.path, "wb") as file:
            file.write(content)
        return source_of(f"@{self.path}")

    def test_a_mail_has_one_source_for_act_and_for_votes_whatever_its_head(self):
        for what, (head, message_id) in HEADS.items():
            with self.subTest(head=what):
                content = head + BEHIND
                known = {"message_id": message_id} if message_id else {}
                known["sha256"] = hashlib.sha256(content).hexdigest()
                self.assertEqual(self.source(content), known)
                self.assertEqual(Mail(self.path, content, 0).source(), known)

    def test_what_is_no_file_is_refused_by_its_name_and_not_waited_for(self):
        before = signal.signal(signal.SIGALRM, lambda *_: self.fail("it waits"))
        self.addCleanup(signal.signal, signal.SIGALRM, before)
        self.addCleanup(signal.alarm, 0)
        signal.alarm(SOON)
        os.mkfifo(self.path)
        for path in self.path, os.path.dirname(self.path):
            why = stopped(Wrong, source_of, f"@{path}")
            self.assertEqual(why, f"{path!r} is no file: save the mail in one, and name that")
