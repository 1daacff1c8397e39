"""A test of what is read of mails, in its own process, by the modules of the tools. The vote is that of the table
"Ballots in mails" in docs/formats.md."""
import sys

from tests.support.ballot_cases import PLACES
from tests.support.called import CALLED, ENDED
from tests.support.case import Case
from tests.support.program import TOP

sys.path.insert(0, str(TOP / "tools"))
from grdesk.ballots.form import Form  # noqa: E402
from grdesk.ballots.form_reader import read_form  # noqa: E402
from grdesk.ballots.mail import Mail  # noqa: E402
from grdesk.error import NotRead  # noqa: E402

FORM = Form(1, CALLED, ENDED, 4, tuple(PLACES))


def mail_of(content, name="d1.eml"):
    return Mail(name, content if isinstance(content, bytes) else content.encode(), CALLED)


def line_of(content):
    """What `gr-desk ballot read` prints of a mail, and whether the text in it is signed."""
    try:
        written = mail_of(content).written()
        signed = " signed" if written.is_signed else " unsigned"
        return f"ok {read_form(FORM, written.text).ranks}{signed}"
    except NotRead as why:
        return f"refused {why}"


class ReadingCase(Case):
    def is_read_as(self, line, **mails):
        """Each of these mails is read so, by names that tell which one is not."""
        for name, content in mails.items():
            with self.subTest(mail=name):
                self.assertEqual(line_of(content), line)
