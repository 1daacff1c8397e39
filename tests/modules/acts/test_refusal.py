"""What is said of each refusal, word by word: the texts are written out here by docs/rules.md, with each limit in them.
What is said of an act on the desk as it is stands at the exact second of each boundary. test_explanation_answers
holds these sentences against the answers of desks."""
import re
from types import SimpleNamespace

from tests.support.case import Case
from tests.support.hand_made import DISCUSSION, VOTING, case, choice, roll, status
from tests.support.program import DAY, T0, TOP
from grdesk.acts.refusal import refusal, wrong_request
from grdesk.desk.sheet import Outcome

LATEST = 4_102_444_799
# What each refusal means, by docs/rules.md ("Terms and limits", "Commands", "Refusals").
MEANINGS = {
    "BadMoment": "a desk takes acts that are dated from 1970-01-01T00:00:01Z (1) to 2099-12-31T23:59:59Z (4102444799)",
    "ClockBack": "a desk takes no act that is dated before its last one",
    "BadLogin": "a login has 1 to 32 of the characters a to z, 0 to 9, '.', '_' and '-', and begins with a letter or a "
                "digit",
    "BadText": "a name or a summary has 1 to 80 characters, a text 1 to 20,000 bytes; none has a control "
               "character, except tabs and line ends in a text",
    "BadRatio": "a ratio is 1 to 9",
    "BadDays": "the days of vary are -7 to 7, and those of call 7 to 21",
    "BadToken": "a token has 8 to 64 characters, each of them a letter of A to Z or a to z, or a digit",
    "Full": "a desk has 2,000 developers at most, 200 resolutions, 34 choices of each, and 1,000,000,000 acts; an "
            "import has 2,000 rows at most",
    "NoResolution": "there is no resolution with this number; they are numbered from 1 on, as they were proposed",
    "NoChoice": "there is no choice with this number, or for cast no place",
    "WrongStage": "the stage of the resolution, which its status shows, does not allow this act",
    "Ended": "the time for this act was over at its date; only an earlier date would do, but none before the desk's "
             "clock",
    "TooEarly": "a call waits for the end of the discussion, and a close for that of the time for votes",
    "NoDeveloper": "nobody on the roll has this login",
    "NotCurrent": "this developer is retired on the roll",
    "Lapsed": "the choice was short for 24 hours, and no act names it any more (Constitution, A.2.3)",
    "Already": "the developer sponsors the choice already, or proposes it; or the casting vote was used before",
    "NotSponsor": "this developer is no sponsor of the choice",
    "HasProposer": "the choice has a proposer; others who step forward are entered by sponsor (Constitution, A.2.1)",
    "NoProposer": "nobody proposes the choice, so nobody can withdraw from it",
    "EndsTooSoon": "by these days the discussion would end within 48 hours (Constitution, A.1.6)",
    "BadRanks": "the ranks are a character for each place of the ballot: 1 to 9, then a to z, or - for no rank",
    "NotTied": "the casting vote chooses among several options that are level in the end (Constitution, A.5.8)",
    "BadRoll": "the row of this record has a login or a name that is not well formed, a status that is neither current "
               "nor retired, or the login of an earlier row",
    "NotRevealed": "nothing of the ballots is shown before the vote is closed (Constitution, 4.2.3)",
}
# The acts that are taken in each stage, by docs/rules.md ("Commands").
STAGES = {
    "Draft": "is a draft, which takes sponsor, unsponsor, withdraw, adopt, amend",
    "Discussing": "is under discussion, which takes choice, sponsor, unsponsor, withdraw, adopt, amend, vary, call",
    "Voting": "is in voting, which takes vote, close",
    "Closed": "is closed, which takes cast",
    "Cancelled": "is cancelled, which takes no act any more",
}
NUMBER = "a whole number in decimal, with no zero in front"
FIELDS = {
    "choice": f"choice= must be {NUMBER}",
    "place": f"place= must be {NUMBER}",
    "ratio": f"ratio= must be {NUMBER}",
    "days": f"days= must be {NUMBER}, or one after a hyphen",
    "status": "status= must be current or retired",
    "minor": "minor= must be 0 for a substantial amendment, or 1 for a minor one",
}
LARGE = "an import has 1,048,576 bytes at most; import the roll in parts, since an import removes nobody"


def clock_at(moment, accepted=9):
    """The rows of a desk with this clock."""
    return {"desk": {(1,): {"accepted": accepted, "clock": moment}}}


class Meanings(Case):
    def test_each_refusal_of_the_rules_has_its_meaning_word_by_word(self):
        act = case("amend", {"login": "eve"})
        for name, meaning in MEANINGS.items():
            with self.subTest(name=name):
                self.assertEqual(list(refusal(act, name, None))[:1], [f"{name}: {meaning}"])

    def test_the_page_of_rules_has_no_other_refusal(self):
        section = (TOP / "docs" / "rules.md").read_text().split("\n### Refusals\n")[1].split("\n## ")[0]
        self.assertEqual(sorted(re.findall(r"^\| [0-9]+ \| ([A-Za-z]+) \|", section, re.M)), sorted(MEANINGS))

    def test_a_field_of_a_wrong_form_is_told_what_it_has_to_be(self):
        for field, text in FIELDS.items():
            with self.subTest(field=field):
                self.assertEqual(list(wrong_request(case("amend"), f"bad field {field}\n")), [text])

    def test_an_import_that_is_too_large_is_told_how_many_bytes_it_may_have(self):
        self.assertEqual(list(wrong_request(case("import"), "too large\n")), [LARGE])

    def test_a_roll_file_that_is_none_is_told_its_form_and_the_record(self):
        act = case("import", {"roll": "login,name,status\neve,Eve\n"})
        message = "the first record of a roll file is login,name,status, and each further one has three fields in UTF-8"
        self.assertEqual(list(wrong_request(act, "bad roll 2\n")), [message, "record 2 is 'eve,Eve'"])

    def test_what_is_no_refusal_and_no_wrong_field_has_no_sentence(self):
        self.assertEqual(list(wrong_request(case("close"), "no such path\n")), [])


class OfActs(Case):
    """What is said of an act as it was given."""

    def sentences(self, refused, act, **values):
        return list(refusal(case(act, values), refused, None))[1:]

    def test_a_login_is_shown_with_its_marks_by_their_numbers(self):
        for refused in "BadLogin", "NoDeveloper":
            with self.subTest(refused=refused):
                self.assertEqual(self.sentences(refused, "sponsor", choice="1", login="e\u202eve"),
                                 ["the login is 'e<U+202E>ve'"])
                self.assertEqual(self.sentences(refused, "propose", author="Eve"), ["the login is 'Eve'"])

    def test_names_and_summaries_are_measured_in_characters_and_texts_in_bytes(self):
        self.assertEqual(self.sentences("BadText", "developer", login="eve", name="\u00e9" * 81),
                         ["the name has 81 characters"])
        self.assertEqual(self.sentences("BadText", "amend", summary="\u00e9", text="\u00e9"),
                         ["the summary has 1 character, and the text has 2 bytes"])
        self.assertEqual(self.sentences("BadText", "amend", summary="", text="x"),
                         ["the summary has 0 characters, and the text has 1 byte"])


class Records(Case):
    """The record of a roll file that is refused. The first one is that of the names of the columns."""

    def record(self, number, rows):
        act = case("import", {"roll": f"login,name,status\n{rows}"})
        return list(refusal(act, "BadRoll", str(number)))[1]

    def test_the_record_is_shown_that_has_the_number_without_empty_lines(self):
        rows = "eve,Eve,current\n\nbob,Bob,gone\n"
        self.assertEqual(self.record(2, rows), "record 2 is 'eve,Eve,current'")
        self.assertEqual(self.record(3, rows), "record 3 is 'bob,Bob,gone'")
        self.assertEqual(self.record(4, rows), "there is no record 4")

    def test_of_a_record_of_200_characters_all_are_shown_and_of_a_longer_one_200(self):
        name = "x" * (200 - len("eve,,current"))
        self.assertEqual(self.record(2, f"eve,{name},current\n"), f"record 2 is 'eve,{name},current'")
        self.assertEqual(self.record(2, f"eve,{name}x,current\n"), f"record 2 is 'eve,{name}x,curren..'")

    def test_a_line_end_in_quotes_ends_no_record_and_a_mark_is_shown_by_its_number(self):
        self.assertEqual(self.record(2, 'eve,"E\nve",current\n'), "record 2 is 'eve,E<U+000A>ve,current'")
        self.assertEqual(self.record(2, "\u202eeve,Eve,current\n"), "record 2 is '<U+202E>eve,Eve,current'")


class OfDesks(Case):
    """What is said of an act on the desk as it is."""

    def sentences(self, refused, name, of=None, values=None, **seen):
        return list(refusal(case(name, values or {}, of=of or status(), **seen), refused, None))[1:]

    def test_a_stage_is_told_with_the_acts_that_it_takes(self):
        for stage, text in STAGES.items():
            with self.subTest(stage=stage):
                self.assertEqual(self.sentences("WrongStage", "vary", status(stage)), [f"resolution 1 {text}"])

    def test_a_call_and_a_close_are_possible_from_the_end_on(self):
        message = "the discussion of resolution 1 ends 2026-01-15T00:00:00Z (1768435200); possible from then on"
        self.assertEqual(self.sentences("TooEarly", "call"), [message])
        message = "the voting on resolution 1 ends 2026-01-22T00:00:00Z (1769040000); possible from then on"
        self.assertEqual(self.sentences("TooEarly", "close", status("Voting", voting=VOTING)), [message])

    def test_a_vote_that_ends_at_the_last_moment_is_closed_then_and_one_of_a_second_later_never(self):
        last = status("Voting", voting=(LATEST - 7 * DAY, LATEST))
        message = "the voting on resolution 1 ends 2099-12-31T23:59:59Z (4102444799); possible from then on"
        self.assertEqual(self.sentences("TooEarly", "close", last), [message])
        late = status("Voting", voting=(LATEST - 7 * DAY, LATEST + 1))
        message = "the voting on resolution 1 ends 2100-01-01T00:00:00Z (4102444800), and a desk takes no act that late"
        self.assertEqual(self.sentences("TooEarly", "close", late), [message])

    def test_what_came_late_has_the_dates_that_could_do_up_to_the_last_second_before_the_end(self):
        end = DISCUSSION[1]
        head = "the discussion of resolution 1 ended 2026-01-15T00:00:00Z (1768435200); "
        for clock, text in (
            (T0, "only a date from 2026-01-01T00:00:00Z (1767225600) to 2026-01-14T23:59:59Z (1768435199) would do"),
            (end - 1, "only a date from 2026-01-14T23:59:59Z (1768435199) to 2026-01-14T23:59:59Z "
                      "(1768435199) would do"),
            (end, "no date would do any more: the desk's clock is at 2026-01-15T00:00:00Z (1768435200)"),
        ):
            with self.subTest(clock=clock):
                self.assertEqual(self.sentences("Ended", "vary", rows=clock_at(clock)), [head + text])
        by_port = "only a date before 2026-01-15T00:00:00Z (1768435200) would do"
        self.assertEqual(self.sentences("Ended", "vary"), [head + by_port])

    def test_a_vote_that_came_late_has_the_end_of_the_voting(self):
        message = "the voting on resolution 1 ended 2026-01-22T00:00:00Z (1769040000); only a date before"
        found = self.sentences("Ended", "vote", status("Voting", voting=VOTING))
        self.assertEqual([each[: len(message)] for each in found], [message])

    def test_a_choice_that_lapsed_did_so_a_day_after_it_became_short(self):
        short = status(choices=[choice(1), choice(2, short=T0 + 60)])
        message = "choice 2 is short since 2026-01-01T00:01:00Z (1767225660), and lapsed 2026-01-02T00:01:00Z " \
               "(1767312060); only a date before 2026-01-02T00:01:00Z (1767312060) would do"
        self.assertEqual(self.sentences("Lapsed", "sponsor", short, {"choice": "2", "login": "bob"}), [message])

    def test_the_choices_and_the_places_are_numbered_to_the_last_one(self):
        one, two = status(), status(choices=[choice(1), choice(2)])
        three = status("Closed", [choice(1, place=1), choice(2, place=2), choice(3)])
        self.assertEqual(self.sentences("NoChoice", "adopt", one), ["resolution 1 has choice 1 alone"])
        self.assertEqual(self.sentences("NoChoice", "adopt", two), ["resolution 1 has the choices 1 to 2"])
        self.assertEqual(self.sentences("NoChoice", "adopt", three), ["resolution 1 has the choices 1 to 3"])
        places = "the ballot of resolution 1 has the places 1 to 3"
        self.assertEqual(self.sentences("NoChoice", "cast", three), [places])

    def test_ranks_are_counted_against_the_places_and_not_against_the_choices(self):
        of = status("Voting", [choice(1, place=1), choice(2), choice(3, place=2)])
        self.assertEqual(self.sentences("BadRanks", "vote", of, {"login": "eve", "ranks": "1"}),
                         ["the ballot of resolution 1 has 3 places, and the ranks have 1 character"])
        self.assertEqual(self.sentences("BadRanks", "vote", of, {"login": "eve", "ranks": "1234"}),
                         ["the ballot of resolution 1 has 3 places, and the ranks have 4 characters"])

    def test_sponsors_and_proposers_are_named(self):
        of = status(choices=[choice(1, sponsors=["bob", "dan"]), choice(2, sponsors=[], proposer="leader")])
        sponsor = {"choice": "1", "login": "dan"}
        self.assertEqual(self.sentences("Already", "sponsor", of, sponsor), ["dan sponsors choice 1"])
        self.assertEqual(self.sentences("Already", "sponsor", of, {"choice": "1", "login": "eve"}),
                         ["eve proposes choice 1"])
        self.assertEqual(self.sentences("NotSponsor", "unsponsor", of, sponsor),
                         ["the sponsors of choice 1 are: bob, dan"])
        self.assertEqual(self.sentences("NotSponsor", "unsponsor", of, {"choice": "2", "login": "dan"}),
                         ["the sponsors of choice 2 are: none"])
        self.assertEqual(self.sentences("HasProposer", "adopt", of, {"choice": "1", "author": "dan"}),
                         ["choice 1 is proposed by eve"])
        self.assertEqual(self.sentences("HasProposer", "adopt", of, {"choice": "2", "author": "dan"}),
                         ["choice 2 is proposed by the leader"])

    def test_who_is_retired_is_named_with_the_act_that_changes_that(self):
        message = "it is r1, Retired 1; developer with status=current changes that"
        values, people = {"choice": "1", "login": "r1"}, roll(3, retired=1)
        self.assertEqual(self.sentences("NotCurrent", "sponsor", None, values, people=people), [message])

    def test_the_places_that_are_level_are_named_or_the_one_that_has_won(self):
        level, won = Outcome([1, 3], True), Outcome([2], False)
        places = "in resolution 1 these places are level: 1, 3"
        self.assertEqual(self.sentences("NotTied", "cast", outcome=level), [places])
        self.assertEqual(self.sentences("NotTied", "cast", outcome=won), ["place 2 has won resolution 1"])

    def test_a_casting_vote_that_was_used_is_told_where_it_stands(self):
        message = "the last line of the result of resolution 1 has the place that was chosen"
        self.assertEqual(self.sentences("Already", "cast"), [message])


class Variations(Case):
    """Which days would do, of a discussion that began at T0. Its end has to be 48 hours away at least."""

    def sentences(self, at, changed=0):
        rows = {**clock_at(T0), "resolution": {(1,): {"changed": changed}}}
        return list(refusal(case("vary", {"days": "-7"}, at=at, of=status(), rows=rows), "EndsTooSoon", None))[1:]

    def test_without_a_change_just_as_many_days_do_as_leave_48_hours(self):
        for at, text in (
            (T0 + 5 * DAY, "days=-7 to 7 would do at this date"),
            (T0 + 5 * DAY + 1, "days=-6 to 7 would do at this date"),
            (T0 + 12 * DAY, "days=0 to 7 would do at this date"),
            (T0 + 12 * DAY + 1, "days=1 to 7 would do at this date"),
            (T0 + 18 * DAY, "days=6 to 7 would do at this date"),
            (T0 + 19 * DAY, "days=7 would do at this date"),
            (T0 + 19 * DAY + 1, "no days would do at this date"),
        ):
            with self.subTest(at=at):
                self.assertEqual(self.sentences(at), [text])

    def test_after_a_change_the_end_is_a_week_after_it_but_not_after_the_latest_end(self):
        # A change of day 10 ends on day 17 by itself: the latest end is 21 days and what varies them.
        for at, text in (
            (T0 + 15 * DAY, "days=-4 to 7 would do at this date"),
            (T0 + 15 * DAY + 1, "days=4 to 7 would do at this date"),
        ):
            with self.subTest(at=at):
                self.assertEqual(self.sentences(at, changed=T0 + 10 * DAY), [text])

    def test_by_a_port_no_change_is_known_so_that_fewer_days_may_do(self):
        message = list(refusal(case("vary", {"days": "-7"}, at=T0 + 12 * DAY, of=status()), "EndsTooSoon", None))[1:]
        self.assertEqual(message, ["by the machine's clock days=0 to 7 would do, and maybe fewer"])


class Tried(Case):
    """A desk that is asked in a copy whether it would take the act at its clock."""

    def sentences(self, code, line):
        act = case("close", of=status("Voting", voting=VOTING), rows=clock_at(VOTING[1]))
        act.view.desk = SimpleNamespace(tried=lambda request, at: SimpleNamespace(status=code, body=line))
        return list(refusal(act, "ClockBack", None))[1:]

    def test_an_act_that_would_be_taken_is_possible_from_the_clock_on(self):
        self.assertEqual(self.sentences(200, b"ok 4\n"), ["possible from 2026-01-22T00:00:00Z (1769040000) on"])

    def test_an_act_that_would_be_refused_is_told_so_with_what_that_means(self):
        message = "at the desk's clock, 2026-01-22T00:00:00Z (1769040000), it would be refused too: "
        self.assertEqual(self.sentences(409, b"refused 5 BadRatio\n"), [f"{message}BadRatio: a ratio is 1 to 9"])
