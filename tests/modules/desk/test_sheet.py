"""What is read of the roll and of the status of a resolution, by sheets that are written out here, and how texts of a
desk are shown."""
import sys

from tests.support.case import Case
from tests.support.in_process import stopped
from tests.support.program import DAY, T0, TOP

sys.path.insert(0, str(TOP / "tools"))
from grdesk.desk.sheet import Choice, Developer, outcome_of, proposer_of, roll_of, status_of  # noqa: E402
from grdesk.error import Failed  # noqa: E402
from grdesk.output import counted, shown  # noqa: E402

ROLL = """\
Developers: 4
Current: 2
D: alice current Alice Adams
D: bob retired Bob: current
D: carol current Carol current retired
D: d-1._x retired x
"""
STATUS = """\
Resolution 7
Stage: Voting
Discussion: 2026-01-01T00:00:00Z to 2026-01-15T00:00:00Z
Voting: 2026-01-15T00:00:00Z to 2026-01-22T00:00:00Z
Developers: 16
Choice 1: Red: or not
Ratio: 3
Proposer: developer eve
Sponsors: 2 bob dan
Introduced: 2026-01-01T00:00:00Z
Short since: 2026-01-02T00:00:01Z
Place: none
| First.
|\x20
| Choice 2: no
Choice 2: Green
Ratio: 1
Proposer: none
Sponsors: 0
Introduced: no
Short since: no
Place: 1
| x
"""
CUT = "{} does not fit such a sheet, so what answers is no desk"


class Rolls(Case):
    def test_each_developer_has_a_login_a_standing_and_a_name_whatever_the_name_says(self):
        self.assertEqual(roll_of(ROLL), [
            Developer("alice", True, "Alice Adams"),
            Developer("bob", False, "Bob: current"),
            Developer("carol", True, "Carol current retired"),
            Developer("d-1._x", False, "x"),
        ])

    def test_an_empty_roll_has_nobody(self):
        self.assertEqual(roll_of("Developers: 0\nCurrent: 0\n"), [])

    def test_a_line_of_another_form_and_a_roll_that_is_cut_off_are_told(self):
        for text, message in (
            (ROLL.replace("bob retired", "bob gone"), CUT.format("line 4 of the roll")),
            (ROLL.replace("Current: 2\n", ""), CUT.format("line 2 of the roll")),
            (ROLL + "More\n", CUT.format("line 7 of the roll")),
            (ROLL[:-1], "the roll has no end"),
        ):
            with self.subTest(message=message):
                self.assertEqual(stopped(Failed, roll_of, text), message)


class Statuses(Case):
    def test_each_line_of_a_status_comes_to_what_it_says(self):
        status = status_of(7, STATUS)
        self.assertEqual((status.number, status.stage, status.developers), (7, "Voting", 16))
        self.assertEqual((status.discussion, status.voting), ((1_767_225_600, 1_768_435_200),
                                                             (1_768_435_200, 1_769_040_000)))
        self.assertEqual(status.choices, [
            Choice(1, "Red: or not", 3, "developer eve", ["bob", "dan"], T0, T0 + 86_401, None,
                   ["First.", "", "Choice 2: no"]),
            Choice(2, "Green", 1, "none", [], None, None, 1, ["x"]),
        ])

    def test_a_draft_has_no_times_and_no_developers(self):
        text = STATUS.replace("Stage: Voting", "Stage: Draft")
        text = text[: text.index("Discussion")] + text[text.index("Choice 1") :]
        status = status_of(7, text)
        self.assertEqual((status.stage, status.discussion, status.voting, status.developers), ("Draft", *(None,) * 3))

    def test_the_status_of_another_resolution_and_a_choice_that_is_cut_off_are_told(self):
        message = CUT.format("line 1 of the status of resolution 8")
        self.assertEqual(stopped(Failed, status_of, 8, STATUS), message)
        message = CUT.format("line 20 of the status of resolution 7")
        self.assertEqual(stopped(Failed, status_of, 7, STATUS.replace("Introduced: no\n", "")), message)


class Outcomes(Case):
    def test_the_outcome_is_open_if_the_casting_vote_is_needed_and_not_once_it_was_used(self):
        for last, is_open in ("Casting vote needed", True), ("Winner: 1 by casting vote", False), ("Winner: 1", False):
            with self.subTest(last=last):
                text = f"Result of resolution 1\nOption 1: Schwartz: 9\nSchwartz: 1 12\n{last}\n"
                self.assertEqual(outcome_of(1, text), ([1, 12], is_open))


class Shown(Case):
    def test_what_shows_nothing_itself_stands_by_its_number_and_what_belongs_to_words_as_it_is(self):
        for text, expected in (("a\u202eb", "a<U+202E>b"), ("a\nb\x1b", "a<U+000A>b<U+001B>"), ("\u2800", "<U+2800>"),
                               ("\u200b\u2028", "<U+200B><U+2028>"), ("\U000e0041", "<U+E0041>"),
                               ("\u00e9\u200c\u200d\u6f22", "\u00e9\u200c\u200d\u6f22"), ("\u00a0", "\u00a0")):
            with self.subTest(text=text):
                self.assertEqual(shown(text), expected)

    def test_one_of_a_thing_is_told_apart_from_none_and_several(self):
        self.assertEqual([counted(count, "day") for count in (0, 1, 2, 11)], ["0 days", "1 day", "2 days", "11 days"])

    def test_who_proposes_a_choice_is_told(self):
        of = Choice(1, "x", 1, "none", [], None, None, None, [])
        for proposer, message in (("developer e\u202eve", "proposed by e<U+202E>ve"), ("none", "nobody proposes it"),
                               ("leader", "proposed by the leader"), ("committee", "proposed by the committee")):
            with self.subTest(proposer=proposer):
                self.assertEqual(proposer_of(of._replace(proposer=proposer)), message)


class Choices(Case):
    def test_only_a_developer_who_proposes_a_choice_has_a_login(self):
        of = Choice(1, "x", 1, "none", [], None, None, None, [])
        for proposer, login in (("developer eve", "eve"), ("developer developer", "developer"), ("none", None),
                                ("leader", None), ("committee", None)):
            with self.subTest(proposer=proposer):
                self.assertEqual(of._replace(proposer=proposer).developer, login)

    def test_a_short_one_lapses_a_day_after_it_became_short_and_no_other_one_does(self):
        of = Choice(1, "x", 1, "none", [], T0, None, None, [])
        self.assertIsNone(of.lapse)
        self.assertEqual(of._replace(short=T0).lapse, T0 + DAY)
