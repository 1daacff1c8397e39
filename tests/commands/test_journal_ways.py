"""A replay into a desk that has one of several acts of which no answer is kept. If the rows of the desk show which one,
that one is settled and the others are not entered. If they do not, nothing is entered until the Secretary says it."""
from tests.commands.test_journal_open import NEWCOMER, VARY, OpenCase, lost_by_port
from tests.support.journaled import reports
from tests.support.program import copy_desk
from grdesk.journal.entry import Fate


class Ways(OpenCase):
    def lost(self, *acts):
        """Acts to a port whose answers were lost, and one of which came, as 4. Another act came as 5, and is gone with
        the desk: a copy from before it is put in the place of that."""
        for words in acts:
            lost_by_port(self.desk, *words)
        self.comes("/resolutions/1/vary", "days=1", "ok 4")
        before = copy_desk(self.desk.file, self.folder() / "before.db")
        reports("the next act", self.desk.act(*NEWCOMER), 0, "ok 5\n")
        copy_desk(before, self.desk.file)

    def fates(self):
        return [self.fate(number) for number in ("4", "5", "6")]

    def test_two_that_say_the_same_are_left_to_the_secretary(self):
        self.lost(VARY, VARY)
        message = "nothing was entered: the journal has no answer to 4, 5, and nobody can tell which the desk has"
        settle = "run gr-desk journal settle N accepted, or settle N refused"
        reports("a replay", self.leaves("replay"), 1, message, settle)
        reports("settle", self.desk.tool("settle", "5", "accepted", "--as", "4"), 0, "ok\n")
        self.assertEqual(self.fates(), [Fate.NOT_ACCEPTED, Fate.ACCEPTED, Fate.ACCEPTED])
        reports("a replay then", self.desk.tool("replay"), 0, "entered 6: ", "ok\n")
        reports("a check", self.desk.tool("check"), 0, "ok\n")

    def test_of_two_that_say_something_else_the_rows_show_which_one_came(self):
        self.lost(VARY, ["vary", "1", "days=2"])
        self.assertEqual(self.fates(), [Fate.ACCEPTED, Fate.NOT_ACCEPTED, Fate.ACCEPTED])
        reports("a replay", self.desk.tool("replay"), 0, "entered 6: ", "ok\n")
        reports("a check", self.desk.tool("check"), 0, "ok\n")
