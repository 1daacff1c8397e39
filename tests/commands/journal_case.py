"""What the tests of journals share: desks with a journal, each in a folder of its own, and what no tool may show."""
import re
import sys
import tempfile
from contextlib import contextmanager

from tests.support import journaled
from tests.support.case import Case
from tests.support.journaled import WHOLE, Journaled
from tests.support.program import TOP, Ran, build, compile_tools, copy_desk, receipt

sys.path.insert(0, str(TOP / "tools"))
from grdesk.journal.journal import journal_at  # noqa: E402

# What is secret of the ballots in WHOLE.
SECRETS = ["bbz", "z-b", "cbz", "tokenA", "receipt", receipt(1, "d1", "tokenA01"), receipt(1, "d3", "tokenA03")]


# Desks whose journal has nothing, or ends before the desk does: their acts, and how many of them the journal has.
SHORTER = [("closed", WHOLE, 0), ("closed", WHOLE, 5), ("running", WHOLE[:-1], 0), ("running", WHOLE[:-1], 5)]


class JournalCase(Case):
    """A test of journals."""

    @classmethod
    def setUpClass(cls):
        build()
        compile_tools()

    def made(self, acts=(), name="desk"):
        """A desk with these acts, and its journal, in a folder of their own."""
        return Journaled.made(self.folder(), name, acts)

    def copy_of(self, desk, name="desk"):
        """A copy of a desk and its journal, in a folder of their own."""
        return desk.copied(self.folder(), name)

    @contextmanager
    def shorter_journal(self, vote, acts, kept):
        """Such a desk, and the sentence that says so, which has no counts while the vote is running. The desk and its
        journal are as they were at the end."""
        counts = f", with the numbers {kept + 1} to 11: the desk has 11 acts, and the journal {kept}"
        desk = self.made(acts)
        desk.journal.write_bytes(b"".join(desk.lines()[: 2 * kept]))
        before = desk.file.read_bytes(), desk.lines()
        yield desk, f"{desk.file} has acts that {desk.journal} lacks{counts if vote == 'closed' else ''}"
        self.assertEqual((desk.file.read_bytes(), desk.lines()), before, "the desk and its journal")


def is_silent(what, ran, *secrets):
    """Nothing that a tool printed has one of these, but for the names of folders, which are random."""
    folders = re.escape(tempfile.gettempdir()).encode() + rb"/\w+"
    journaled.is_silent(what, Ran(ran.status, *(re.sub(folders, b"", text) for text in ran[1:])), *secrets)


def put_back(desk, copy):
    """Puts a copy in the place of the desk."""
    copy_desk(copy, desk.file)


def entries_in(journal):
    """What a journal has."""
    with journal_at(journal, is_read=True) as found:
        return found.entries
