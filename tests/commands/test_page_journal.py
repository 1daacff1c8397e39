"""Which journal gr-desk page takes: that of the desk, since its amendments are published with the page."""
import os
from types import SimpleNamespace

from tests.support.case import Case
from tests.support.in_process import loaded, stopped

from grdesk.error import Refused  # noqa: E402
from grdesk.journal.journal import journal_at  # noqa: E402

CLOSE = {"number": "1", "path": "/resolutions/1/close", "fields": {}, "source": None}


class PageJournal(Case):
    def setUp(self):
        self.page, work = loaded("page"), self.folder()
        self.desk, self.other, self.journal = (str(work / name) for name in ("desk.db", "other.db", "journal"))
        for path in self.desk, self.other:
            with open(path, "wb") as file:
                file.write(b"x")
        with journal_at(self.journal, is_made=True) as journal:
            journal.add("act", **CLOSE, desk=os.path.realpath(self.desk), moment=1, before=None, count=0)

    def entries(self, desk):
        return self.page.journal_entries(SimpleNamespace(journal=self.journal, desk=desk))

    def test_that_of_the_desk_is_taken_also_by_another_name_of_the_file(self):
        link = f"{self.desk}.link"
        os.symlink(self.desk, link)
        for desk in self.desk, link:
            with self.subTest(desk=desk):
                self.assertEqual(list(self.entries(desk).all), ["1"])

    def test_that_of_another_desk_is_refused(self):
        message = f"{self.journal} is the journal of the desk {os.path.realpath(self.desk)}, and not of {self.other}"
        self.assertEqual(stopped(Refused, self.entries, self.other), message)

    def test_by_a_port_it_is_taken_as_it_is(self):
        self.assertEqual(list(self.entries(None).all), ["1"])
