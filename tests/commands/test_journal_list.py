"""Looks at gr-desk journal list. While a vote is running a list is the same whatever the ballots say and however many
there are. It has the texts of a resolution, also those that were amended, and nothing of another one."""
import json

from tests.commands.journal_case import SECRETS, JournalCase, is_silent
from tests.support.case import Case
from tests.support.journaled import CALL, CALLED, CLOSE, DISCUSSION, ENDED, VOTES, Journaled, reports, vote_of
from tests.support.program import DAY, T0, Ran
from grdesk.journal.entry import Entries, line_of
from grdesk.journal.listing import Listing, running_votes

LISTS = ["list"], ["list", "1"]


class Secrecy(JournalCase):
    """Two desks with a vote that is running: one ballot came to the first, and four others to the second."""

    @classmethod
    def setUpClass(cls):
        super().setUpClass()
        work = cls.shared_folder()
        cls.few = Journaled.made(work, "few", [*DISCUSSION, CALL, vote_of(CALLED, "d4", "zzz", "tokenB01", 7)])
        cls.many = Journaled.made(work, "many", [*DISCUSSION, CALL, *VOTES])
        cls.came = [desk.act("--at", CALLED + 3 * DAY, "close", "1") for desk in (cls.few, cls.many)]

    def test_an_early_close_is_refused(self):
        for ran in self.came:
            reports("an early close", ran, 1, "refused 13 TooEarly")

    def test_while_a_vote_is_running_its_list_is_the_same_whatever_the_ballots_are(self):
        for words in LISTS:
            with self.subTest(words=words):
                found, other = self.few.tool(*words), self.many.tool(*words)
                expected = Ran(other.status, other.out.replace(b"many", b"few"), other.err)
                self.assertEqual(found, expected)
                message = "call 1 days=7\n      ok places 3", "close 1\n      refused 13"
                reports(f"{words} of a running vote", found, 0, *message)
                is_silent(f"{words} of a running vote", found, "vote 1", "login=d4", "ok 6", *SECRETS)

    def test_a_ballot_that_was_replaced_before_it_was_sent_changes_no_list(self):
        desk = self.copy_of(self.few)
        before = [desk.tool(*words) for words in LISTS]
        what = {"login": "d3", "ranks": "bbz", "token": "tokenA01", "source": {"sha256": "", "arrived": CALLED}}
        with open(desk.journal, "a") as journal:
            print(json.dumps(line_of("replaced", resolution=1, **what)), file=journal)
        self.assertEqual([desk.tool(*words) for words in LISTS], before)
        desk.accepts([(ENDED, ["close", "1"], "", "ok 8")])
        for words in LISTS:
            with self.subTest(words=words):
                ran = desk.tool(*words)
                reports(f"{words} of a closed vote", ran, 0, "ballots by day: 2026-01-15 1\n")
                is_silent(f"{words} of a closed vote", ran, "d3", *SECRETS)

    def test_after_the_close_a_list_has_how_many_ballots_came_on_each_day(self):
        desk = self.copy_of(self.many)
        desk.accepts([CLOSE])
        days = "ballots by day: 2026-01-15 1, 2026-01-16 2, 2026-01-17 1"
        for words in LISTS:
            with self.subTest(words=words):
                ran = desk.tool(*words)
                reports(f"{words} of a closed vote", ran, 0, "ok 11", days)
                is_silent(f"{words} of a closed vote", ran, "login=d3", *SECRETS)


def entries_of(acts):
    """The acts of a journal, each with its path, its fields and its answer, or None where that was lost."""
    entries = Entries()
    for path, fields, text in acts:
        number = entries.next_number(path.endswith("/vote"))
        what = {"number": number, "desk": None, "path": path, "fields": fields, "source": None}
        entries.take(line_of("act", **what, moment=None, before=T0, count=None))
        if text is not None:
            entries.take(line_of("answer", number=number, status=200, text=f"{text}\n", after=T0))
    return entries


class Numbers(Case):
    """What the last line of a list says of votes that are running."""

    def test_resolutions_that_are_in_voting_stand_in_the_order_of_their_numbers(self):
        fields = {"author": "@leader", "summary": "S", "text": "t", "ratio": "1"}
        acts = [("/resolutions", fields, f"ok {number} resolution {number}") for number in range(1, 11)]
        acts += [(f"/resolutions/{10 - place}/call", {"days": "7"}, f"ok {11 + place} places 2") for place in (0, 1)]
        lines = list(Listing(entries_of(acts)).lines())
        self.assertEqual(lines[-1], "Votes and counts are left out, since resolution 9, 10 is in voting, or may be.")

    def test_a_vote_whose_answer_was_lost_does_not_keep_a_closed_resolution_in_voting(self):
        call = "/resolutions/1/call", {"days": "7"}, "ok 1 places 2"
        vote = "/resolutions/1/vote", {"login": "d1", "ranks": "12", "token": "t"}, None
        other = "/developers", {"login": "d1", "name": "One", "status": "current"}, "ok 3"
        self.assertEqual(running_votes(entries_of([call, vote, other])), {"1"})
        self.assertEqual(running_votes(entries_of([call, vote, other, ("/resolutions/1/close", {}, "ok 4")])), set())


OF_AMENDMENT = """      ok 5
      choice 1 was Red:
      | The desk is red.
      and is Crimson:
      | The desk is crimson.
"""


class Timelines(JournalCase):
    """Two resolutions are under discussion."""

    @classmethod
    def setUpClass(cls):
        super().setUpClass()
        cls.desk = Journaled.made(cls.shared_folder(), "timeline", DISCUSSION)
        propose = ["propose", "author=@leader", "summary=Other", "text=o\u202eo", "ratio=1"]
        cls.came = cls.desk.act("--at", T0 + 2 * DAY, *propose)

    def test_a_list_of_a_resolution_has_its_texts_also_those_that_were_amended_and_no_others(self):
        reports("a second resolution", self.came, 0, "resolution 2")
        ran = self.desk.tool("list", "1")
        reports("list 1", ran, 0, OF_AMENDMENT, "Green it is.")
        is_silent("list 1", ran, "Other")

    def test_a_list_shows_a_mark_of_direction_by_its_number(self):
        reports("list 2", self.desk.tool("list", "2"), 0, "| o<U+202E>o")

    def test_a_resolution_without_acts_is_refused(self):
        reports("list 3", self.desk.tool("list", "3"), 1, "has no act on resolution 3")

    def test_a_number_of_another_form_is_refused(self):
        for words in ["x"], ["01"], ["--", "-1"], [""]:
            with self.subTest(words=words):
                ran = self.desk.tool("list", *words)
                message = f"the number of a resolution is like 1 or 12, and not {words[-1]!r}"
                reports(f"list {words}", ran, 2, message)
