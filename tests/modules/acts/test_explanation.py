"""The sentences of explanation.py at the exact second of each boundary, and for each rank: resolutions and acts are
made by hand. test_explanation_answers holds these sentences against the answers of desks."""
from contextlib import contextmanager
from types import SimpleNamespace
from unittest import mock

from tests.support.case import Case
from tests.support.hand_made import DISCUSSION, case, choice, roll, status
from tests.support.in_process import said
from tests.support.program import DAY, T0
from grdesk.acts import explanation
from grdesk.acts.act import Act
from grdesk.acts.explanation import (
    ballot_sentences,
    called,
    moved,
    proposed,
    rank_lines,
    remedied,
    sentences,
    shortened,
)
from grdesk.desk.request import Response

# 2099-12-31T23:59:59Z, the last moment that a desk takes.
LATEST = 4_102_444_799
IN_VOTING = status("Voting", [choice(1, summary="Red", place=1), choice(2, summary="Green", place=2)])
END = "2026-01-15T00:00:00Z (1768435200)"


class Calls(Case):
    def sentences(self, line):
        return list(called(case("call"), line))

    def test_a_vote_that_ends_at_the_last_moment_of_a_desk_can_be_closed(self):
        message = "the voting on resolution 1 ends 2099-12-31T23:59:59Z (4102444799); a close is possible from then on"
        self.assertEqual(self.sentences(f"ok 5 places 2 until {LATEST}\n"), [message])

    def test_a_vote_that_ends_a_second_later_can_never_be_closed(self):
        message = "the voting on resolution 1 ends 2100-01-01T00:00:00Z (4102444800); it can never be closed"
        self.assertEqual(self.sentences(f"ok 5 places 2 until {LATEST + 1}\n"), [message])

    def test_a_call_that_cancels_says_so(self):
        message = "no choice was live, so resolution 1 is cancelled (Constitution, A.2.4)"
        self.assertEqual(self.sentences("ok 5 cancelled\n"), [message])


class Discussions(Case):
    def test_the_end_is_told_if_it_moved_by_a_second_and_not_if_it_stayed(self):
        before, after = DISCUSSION, (T0, T0 + 14 * DAY + 1)
        message = f"the discussion of resolution 1 now ends 2026-01-15T00:00:01Z (1768435201), and no longer {END}"
        self.assertEqual(list(moved(case("choice"), before, after)), [message])
        self.assertEqual(list(moved(case("choice"), before, before)), [])

    def test_a_discussion_that_begins_is_told_with_its_end_and_a_draft_says_nothing(self):
        message = f"the discussion of resolution 1 has begun, and ends {END}"
        self.assertEqual(list(moved(case("sponsor"), None, DISCUSSION)), [message])
        self.assertEqual(list(moved(case("sponsor"), None, None)), [])

    def test_a_proposal_is_a_draft_or_begins_its_discussion(self):
        begun = case("propose", of=status(number=12), resolution=12)
        self.assertEqual(proposed(begun, "ok 3 resolution 12\n"),
                         f"the discussion of resolution 12 has begun, and ends {END}")
        draft = case("propose", of=status("Draft", number=12, discussion=None), resolution=12)
        message = "resolution 12 is a draft until its choice has enough sponsors (Constitution, 4.2.1)"
        self.assertEqual(proposed(draft, "ok 3 resolution 12\n"), message)


class Shortness(Case):
    """What is said of a choice after it has lost or got a proposer or a sponsor. The act names the second one."""

    def after(self, form, before, **now):
        choices = [choice(1, short=T0 + 5), choice(2, **now)]
        was = status(choices=[choice(1, short=T0 + 5), choice(2, **before)])
        act = case("unsponsor", {"choice": "2", "login": "bob"}, of=status(choices=choices))
        return list(form(act, was))

    def test_a_choice_that_is_short_now_lapses_a_day_after_that_moment(self):
        message = "choice 2 of resolution 1 is short now: it lapses 2026-01-02T00:00:00Z (1767312000), unless it has "
        self.assertEqual(self.after(shortened, {}, short=T0), [f"{message}enough sponsors before then"])
        proposer = f"{message}a proposer (and enough sponsors, if that is a developer) before then"
        self.assertEqual(self.after(shortened, {}, short=T0, proposer="none"), [proposer])

    def test_one_that_was_short_before_keeps_its_moment(self):
        message = "choice 2 of resolution 1 is short since 2026-01-01T00:00:00Z (1767225600): it lapses 2026-01-02T00"
        found = self.after(shortened, {"short": T0}, short=T0)
        self.assertEqual([each[: len(message)] for each in found], [message])

    def test_one_that_was_never_introduced_or_has_enough_does_not_lapse(self):
        message = "choice 2 of resolution 1 was never introduced, so it does not lapse"
        self.assertEqual(self.after(shortened, {}, introduced=None), [message])
        self.assertEqual(self.after(shortened, {}), ["choice 2 of resolution 1 is not short of sponsors"])

    def test_one_that_got_what_it_lacked_is_not_short_any_more_and_one_that_did_not_is(self):
        self.assertEqual(self.after(remedied, {"short": T0}), ["choice 2 of resolution 1 is not short any more"])
        message = "choice 2 of resolution 1 is short since 2026-01-01T00:00:00Z (1767225600): it lapses"
        found = self.after(remedied, {"short": T0}, short=T0)
        self.assertEqual([each[: len(message)] for each in found], [message])

    def test_of_a_choice_that_was_not_short_a_sponsor_more_says_nothing(self):
        first, second = choice(1, short=T0), choice(2)
        act = case("sponsor", {"choice": "2", "login": "bob"}, of=status(choices=[first, second]))
        self.assertEqual(list(sentences(act, 200, "ok 5\n", status(choices=[first, second]))), [])
        short = status(choices=[choice(1), choice(2, short=T0)])
        message = "choice 2 of resolution 1 is not short any more"
        self.assertEqual(list(sentences(act, 200, "ok 5\n", short)), [message])


class Accepted(Case):
    """Which sentences an act has that was accepted. A desk that is not looked at says nothing of what changed."""

    def sentences(self, name, line="ok 5\n", values=None, of=None, before=None):
        return list(sentences(case(name, values, of=of), 200, line, before))

    def test_a_call_is_told_its_end_whether_the_desk_is_looked_at_or_not(self):
        for of in None, status():
            with self.subTest(of=of):
                [message] = self.sentences("call", f"ok 5 places 2 until {LATEST}\n", of=of)
                self.assertIn("the voting on resolution 1 ends 2099-12-31T23:59:59Z", message)

    def test_a_withdrawal_and_the_loss_of_a_sponsor_are_told_whether_the_choice_is_short(self):
        for name in "withdraw", "unsponsor":
            with self.subTest(name=name):
                short = status(choices=[choice(1, short=T0)])
                [message] = self.sentences(name, values={"choice": "1", "login": "bob"}, of=short, before=status())
                self.assertIn("choice 1 of resolution 1 is short now: it lapses 2026-01-02T00:00:00Z", message)

    def test_what_moved_the_end_is_told_by_each_act_that_may(self):
        later = status(discussion=(T0, T0 + 15 * DAY))
        for name in "choice", "sponsor", "adopt", "amend", "vary":
            with self.subTest(name=name):
                [message] = self.sentences(name, values={"choice": "1", "login": "bob"}, of=later, before=status())
                self.assertIn("the discussion of resolution 1 now ends 2026-01-16T00:00:00Z", message)

    def test_a_proposal_and_a_vote_are_told_if_the_desk_is_looked_at(self):
        self.assertEqual(len(self.sentences("propose", "ok 5 resolution 1\n", of=status())), 1)
        self.assertEqual(self.sentences("propose", "ok 5 resolution 1\n"), [])
        ranks = {"login": "eve", "ranks": "12"}
        self.assertEqual(len(self.sentences("vote", values=ranks, of=IN_VOTING)), 3)
        self.assertEqual(self.sentences("vote", values=ranks), [])

    def test_other_acts_and_a_desk_that_was_not_looked_at_before_say_nothing(self):
        self.assertEqual(self.sentences("close", of=status()), [])
        for name in "vary", "withdraw":
            with self.subTest(name=name):
                self.assertEqual(self.sentences(name, values={"choice": "1"}, of=status()), [])


class Ballots(Case):
    def sentences(self, ranks, of=IN_VOTING, login="eve"):
        people = roll(3, eve="Eve Adams")
        return list(ballot_sentences(case("vote", {"login": login, "ranks": ranks}, of=of, people=people)))

    def test_each_place_has_its_summary_and_its_rank(self):
        self.assertEqual(self.sentences("3-1"), [
            "the vote of eve, Eve Adams",
            "place 1, Red: rank 3",
            "place 2, Green: no rank",
            "place 3, None of the above: rank 1",
        ])

    def test_rank_a_is_10_and_rank_z_is_35(self):
        self.assertEqual(list(rank_lines("19az-", {})), ["place 1: rank 1", "place 2: rank 9", "place 3: rank 10",
                                                         "place 4: rank 35", "place 5: no rank"])

    def test_a_rank_above_the_number_of_places_is_asked_about_and_one_that_equals_it_is_not(self):
        self.assertEqual(len(self.sentences("123")), 4)
        asked = "is it a typing error? A later ballot replaces this one"
        message = f"rank 4 is allowed, but there are only 3 places: {asked}"
        self.assertEqual(self.sentences("124")[-1], message)

    def test_whose_vote_it_is_is_told_also_of_a_login_that_is_not_on_the_roll(self):
        self.assertEqual(self.sentences("123", login="mallory")[0], "the vote of mallory, who is not on the roll")

    def test_a_summary_that_moves_what_stands_beside_it_is_shown_by_the_number_of_its_mark(self):
        strange = status("Voting", [choice(1, summary="Red\u202e", place=1)])
        self.assertEqual(self.sentences("12", of=strange)[1], "place 1, Red<U+202E>: rank 1")

    def test_a_choice_without_a_place_is_not_on_the_ballot(self):
        lapsed = status("Voting", [choice(1, summary="Lapsed"), choice(2, summary="Green", place=1)])
        message = ["place 1, Green: rank 2", "place 2, None of the above: rank 1"]
        self.assertEqual(self.sentences("21", of=lapsed)[1:], message)

    def test_by_a_port_at_which_nothing_is_looked_at_the_last_place_has_its_name(self):
        unseen = list(ballot_sentences(case("vote", {"login": "eve", "ranks": "12-"})))
        self.assertEqual(unseen, ["the vote of eve", "place 1: rank 1", "place 2: rank 2",
                                  "place 3, None of the above: no rank"])


# The status of a discussion, with its end.
STATUS = """\
Resolution 1
Stage: Discussing
Discussion: 2026-01-01T00:00:00Z to {}
Choice 1: Red
Ratio: 1
Proposer: developer eve
Sponsors: 0
Introduced: 2026-01-01T00:00:00Z
Short since: no
Place: none
| x
"""


class Desk:
    """A desk whose discussion has these ends, one after the other, each time its status is asked for."""

    def __init__(self, *ends, tried=None):
        self.ends, self.asked, self.answer = list(ends), [], tried

    def sheet(self, *words):
        self.asked.append(words)
        return STATUS.format(self.ends.pop(0))

    def rows(self):
        return None

    def tried(self, request, at):
        self.asked.append(("tried", request.split(b" ")[1], at))
        return self.answer


class Looks(Case):
    """What is looked at before and after an act, and what is said then."""

    ENDS = "2026-01-15T00:00:00Z", "2026-01-16T00:00:00Z"

    def explained(self, desk, act):
        @contextmanager
        def sheets(words):
            yield desk

        self.enter(mock.patch.object(explanation, "sheets_of", sheets))
        self.enter(mock.patch.object(explanation, "is_at_terminal", lambda: False))
        return explanation.Explanation(act, SimpleNamespace(desk="desk.db", explain=False, at=T0))

    def lines(self, look, *words):
        with said() as text:
            look(*words)
            return [line.partition("gr-desk: ")[2] for line in text.lines()]

    def test_after_an_act_that_was_accepted_the_desk_is_looked_at_anew(self):
        desk = Desk(*self.ENDS)
        it = self.explained(desk, Act("/resolutions/1/vary", {"days": b"1"}))
        self.assertEqual(self.lines(it.before), [])
        message = f"the discussion of resolution 1 now ends 2026-01-16T00:00:00Z (1768521600), and no longer {END}"
        self.assertEqual(self.lines(it.after, Response(200, b"ok 5\n")), [message])
        self.assertEqual(desk.asked, [("status", 1)] * 2)

    def test_what_was_looked_at_before_a_refusal_is_not_asked_for_again(self):
        desk = Desk(*self.ENDS)
        it = self.explained(desk, Act("/resolutions/1/vary", {"days": b"1"}))
        self.lines(it.before)
        lines = self.lines(it.after, Response(409, b"refused 12 Ended\n"))
        self.assertEqual((desk.asked, len(lines)), ([("status", 1)], 2))
        self.assertIn(f"the discussion of resolution 1 ended {END}; only a date before", lines[1])

    def test_after_a_fault_it_is_told_that_the_act_may_be_there(self):
        it = self.explained(Desk(*self.ENDS), Act("/resolutions/1/vary", {"days": b"1"}))
        message = "the desk failed, and may have this act or not: look before you send it again"
        self.assertEqual(self.lines(it.after, Response(503, b"fault F2 Store\n")), [message])

    def test_of_an_act_that_is_held_it_is_told_whether_the_desk_would_refuse_it_as_it_is_now(self):
        act = Act("/resolutions/1/call", {"days": b"7"})
        desk = Desk(*self.ENDS, tried=Response(409, b"refused 13 TooEarly\n"))
        lines = self.lines(self.explained(desk, act).waits)
        self.assertEqual(lines[0], "warning: as the desk is now, it would refuse this act: refused 13 TooEarly")
        self.assertEqual(lines[2], f"the discussion of resolution 1 ends {END}; possible from then on")
        self.assertEqual(desk.asked[0], ("tried", b"/resolutions/1/call", T0))
        taken = Desk(*self.ENDS, tried=Response(200, b"ok 5 places 2 until 1769040000\n"))
        self.assertEqual(self.lines(self.explained(taken, act).waits), [])

    def test_at_a_terminal_a_vote_is_shown_and_confirmed_and_no_other_act_is(self):
        asked = []
        vote = Act("/resolutions/1/vote", {"login": b"eve", "ranks": b"12"})
        vary = Act("/resolutions/1/vary", {"days": b"1"})
        for act, expected in (vote, [("Send this vote?", "vote")]), (vary, []):
            with self.subTest(act=act.path):
                it = self.explained(Desk(*self.ENDS), act)
                asked.clear()
                with mock.patch.object(explanation, "is_at_terminal", lambda: True):
                    with mock.patch.object(explanation, "confirm", lambda *words: asked.append(words)):
                        lines = self.lines(it.before)
                self.assertEqual(asked, expected)
                self.assertEqual(bool(lines), act.is_vote)

    def test_what_cannot_be_explained_is_told_and_stops_nothing(self):
        it = self.explained(Desk(), Act("/resolutions/1/vary", {"days": b"1"}))
        self.assertEqual(self.lines(it.before), ["not explained: pop from empty list"])
