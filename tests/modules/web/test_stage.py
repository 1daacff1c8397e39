"""The part of a page that describes a resolution, of resolutions that are made by hand: who stands behind a choice,
what it needs, when it lapses and what was amended, at the exact second of each boundary. What strangers wrote is looked
at by a parser: it stands there as a text, and makes no element."""
import re

from tests.support.case import Case
from tests.support.hand_made import DISCUSSION, VOTING, choice, entry, roll, status
from tests.support.html_pages import Page, look_at_headings, look_at_safety
from tests.support.html_tables import table_in
from tests.support.program import DAY, T0
from grdesk.journal.entry import Entries
from grdesk.web.stage import Stage

# What would begin elements, end one, run something or turn the direction of what follows.
HOSTILE = "<b>Eve</b> <script>alert(1)</script> \"'> &amp; <img src=x onerror=y>"
TURNED = "Eve \u202eevE"
AMEND = "/resolutions/{}/amend"


def page_of(of, people=None, at=T0 + DAY, row=None, entries=None):
    """The whole page of a resolution, which has to be well-formed HTML that runs and loads nothing."""
    text = Stage(of, people or roll(4), at, row, entries).page()
    page = Page(text)
    look_at_safety(text, page)
    look_at_headings(page)
    return page


def paragraphs(page, *words):
    """The paragraphs and headings in which one of these words stands."""
    texts = ["".join(text) for tag, _, text in page.elements if re.fullmatch("p|h[1-6]", tag)]
    return [text for text in texts if any(word in text for word in words)]


def journal(*entries):
    """The acts of a journal that the desk accepted, as their lines came, each with the number that it got."""
    found = Entries()
    found.accepted = dict(entries)
    return found


def proposed(resolution, number=1):
    return entry(number, "/resolutions", answer=f"ok {number} resolution {resolution}\n", author="eve",
                 summary=f"First of {resolution}", text="Before.", ratio="1")


def amended(resolution, number, summary="Second", chosen="1", minor="0", moment=T0 + 60):
    return entry(number, AMEND.format(resolution), moment, choice=chosen, minor=minor, summary=summary, text="After.")


class People(Case):
    """Who proposes and sponsors a choice."""

    def facts(self, people=None, **changes):
        return paragraphs(page_of(status(choices=[choice(1, **changes)]), people), "ropose")[0]

    def test_a_name_that_is_hostile_is_a_text_and_makes_no_element(self):
        for name in HOSTILE, "<b>Eve</b>":
            with self.subTest(name=name):
                people = roll(4, eve=name, bob=f"{name} 2")
                page = page_of(status(), people)
                message = f"Proposed by {name} (eve). Sponsored by {name} 2 (bob)."
                self.assertEqual([each[: len(message)] for each in paragraphs(page, "Proposed by")], [message])
                self.assertEqual({tag for tag, _, _ in page.elements} & {"b", "script", "img"}, set())

    def test_a_mark_of_direction_in_a_name_is_shown_by_its_number(self):
        self.assertIn("Proposed by Eve U+202EevE (eve).", self.facts(roll(4, eve=TURNED)))

    def test_names_of_two_sponsors_are_each_a_stretch_of_their_own(self):
        page = page_of(status(choices=[choice(1, sponsors=["bob", "dan"])]), roll(4, eve="Eve", bob="Bob", dan="Dan"))
        self.assertTrue(paragraphs(page, "Sponsored by Bob (bob), Dan (dan)."))
        names = ["".join(text) for tag, _, text in page.elements if tag == "bdi"]
        self.assertEqual({"Eve", "Bob", "Dan", "eve", "bob", "dan"} - {*names}, set())

    def test_a_login_that_is_not_on_the_roll_stands_alone(self):
        self.assertIn("Proposed by eve. Sponsored by bob.", self.facts(roll(4)))

    def test_leader_committee_and_nobody_are_told_apart(self):
        for proposer, message in (("leader", "Proposed by the leader."), ("committee", "Proposed by the committee."),
                               ("none", "Nobody proposes it.")):
            with self.subTest(proposer=proposer):
                self.assertTrue(self.facts(proposer=proposer).startswith(message), self.facts(proposer=proposer))


class Needs(Case):
    """How many sponsors a choice needs: K of those who are current, and of no others (Constitution, 4.2.7)."""

    def needs(self, current, retired=0, **changes):
        [text] = paragraphs(page_of(status(choices=[choice(1, **changes)]), roll(current, retired)), "It has ")
        return re.search(r"It has .*? needed \([^)]*\)\.", text)[0]

    def test_who_is_retired_raises_no_number(self):
        message = "It has 1 sponsor; 1 is needed (Constitution, 4.2.1 and 4.2.7)."
        self.assertEqual(self.needs(4, retired=12), message)

    def test_the_number_is_raised_by_the_first_developer_that_is_too_many(self):
        for current, message in ((1, "1 is"), (4, "1 is"), (5, "2 are"), (16, "2 are"), (17, "3 are"), (64, "4 are"),
                              (65, "5 are"), (101, "5 are"), (2_000, "5 are")):
            with self.subTest(current=current):
                expected = f"It has 1 sponsor; {message} needed (Constitution, 4.2.1 and 4.2.7)."
                self.assertEqual(self.needs(current), expected)

    def test_a_choice_that_nobody_proposes_needs_a_proposer_too(self):
        message = "It has 0 sponsors; a proposer and 1 are needed (Constitution, 4.2.1 and 4.2.7)."
        self.assertEqual(self.needs(4, proposer="none", sponsors=[]), message)

    def test_leader_and_committee_need_no_sponsor(self):
        for proposer in "leader", "committee":
            with self.subTest(proposer=proposer):
                [text] = paragraphs(page_of(status(choices=[choice(1, proposer=proposer)])), "It has ")
                self.assertIn("It has 1 sponsor; none is needed (Constitution, 4.2.1).", text)

    def test_after_the_call_nothing_is_needed_any_more(self):
        called = status("Voting", [choice(1, place=1)], voting=VOTING)
        self.assertEqual(paragraphs(page_of(called), "needed"), [])

    def test_a_ratio_above_1_is_told_and_a_simple_majority_is_not(self):
        for ratio, message in (1, []), (2, ["It needs a majority of 2:1."]):
            with self.subTest(ratio=ratio):
                [text] = paragraphs(page_of(status(choices=[choice(1, ratio=ratio)])), "Proposed by")
                self.assertEqual(re.findall("It needs a majority of [0-9]:1[.]", text), message)


class Times(Case):
    def stage(self, at, of):
        return paragraphs(page_of(of, at=at), "As of", "closed", "Cancelled")[0]

    def test_a_discussion_is_over_from_its_end_on_and_not_a_second_before(self):
        end = DISCUSSION[1]
        message = "Under discussion. As of 2026-01-14T23:59:59Z."
        self.assertEqual(self.stage(end - 1, status()), message)
        message = "The discussion is over, and the call for votes comes next. As of 2026-01-15T00:00:00Z."
        self.assertEqual(self.stage(end, status()), message)

    def test_the_time_for_votes_is_over_from_its_end_on_and_not_a_second_before(self):
        of, end = status("Voting", [choice(1, place=1)], voting=VOTING), VOTING[1]
        self.assertEqual(self.stage(end - 1, of), "In voting. As of 2026-01-21T23:59:59Z.")
        message = "The time for votes is over, and the close comes next. As of 2026-01-22T00:00:00Z."
        self.assertEqual(self.stage(end, of), message)

    def test_a_vote_that_is_closed_or_was_cancelled_depends_on_no_moment(self):
        closed = status("Closed", [choice(1, place=1)], voting=VOTING)
        self.assertEqual(self.stage(VOTING[1] + DAY, closed), "The vote is closed.")
        cancelled = status("Cancelled", [choice(1, short=T0)])
        self.assertEqual(self.stage(T0 + 30 * DAY, cancelled), "Cancelled: it was called while no choice was live.")

    def test_discussion_and_voting_begin_and_end_when_the_status_says(self):
        of = status("Voting", [choice(1, place=1)], voting=VOTING)
        cells = table_in(Stage(of, roll(4), T0, None, None).times()).by_headings()
        self.assertEqual({place: cell.text for place, cell in cells.items()}, {
            ("Discussion", "Begins"): "2026-01-01T00:00:00Z", ("Discussion", "Ends"): "2026-01-15T00:00:00Z",
            ("Voting", "Begins"): "2026-01-15T00:00:00Z", ("Voting", "Ends"): "2026-01-22T00:00:00Z",
        })

    def test_what_moved_the_end_is_told_with_its_sign(self):
        for shift, message in ((1, ["1 day more"]), (-1, ["1 day less"]), (7, ["7 days more"]), (-7, ["7 days less"]),
                            (0, [])):
            with self.subTest(shift=shift):
                texts = paragraphs(page_of(status(), row={"changed": 0, "shift": shift}), "varied", "changed last")
                begin = "The Leader has varied the discussion by"
                expected = [f"{begin} {days} (Constitution, A.1.6)." for days in message]
                self.assertEqual(texts, expected)
        texts = paragraphs(page_of(status(), row={"changed": T0 + 1, "shift": 0}), "changed last")
        self.assertEqual(texts, ["The ballot was changed last 2026-01-01T00:00:01Z (Constitution, A.1.4)."])

    def test_a_short_choice_has_lapsed_from_24_hours_on_and_not_a_second_before(self):
        of = status(choices=[choice(1, short=T0 + 60)])
        head = "It is short of a proposer or of sponsors since 2026-01-01T00:01:00Z, and "
        [text] = paragraphs(page_of(of, at=T0 + 60 + DAY - 1), "It is short")
        self.assertIn(f"{head}lapses 2026-01-02T00:01:00Z if that stays so (Constitution, A.2.3).", text)
        [text] = paragraphs(page_of(of, at=T0 + 60 + DAY), "It is short")
        self.assertIn(f"{head}has lapsed 2026-01-02T00:01:00Z (Constitution, A.2.3).", text)

    def test_of_a_choice_that_got_a_place_it_is_not_told_that_it_was_short(self):
        of = status("Voting", [choice(1, short=T0, place=1)], voting=VOTING)
        self.assertEqual(paragraphs(page_of(of), "It is short"), [])

    def test_a_choice_is_introduced_at_its_moment_or_not_yet(self):
        [text] = paragraphs(page_of(status(choices=[choice(1, introduced=T0 + 1)])), "ntroduced")
        self.assertIn("Introduced 2026-01-01T00:00:01Z.", text)
        [text] = paragraphs(page_of(status(choices=[choice(1, introduced=None)])), "ntroduced")
        self.assertIn("It is not introduced.", text)


class Order(Case):
    """In which order choices stand, and what they are called."""

    def headings(self, of):
        return ["".join(text) for tag, _, text in page_of(of).elements if tag == "h3"]

    def test_before_the_call_each_has_its_number(self):
        of = status(choices=[choice(1), choice(2, introduced=None), choice(3)])
        self.assertEqual(self.headings(of), ["Choice 1: Summary 1", "Choice 2: Summary 2", "Choice 3: Summary 3"])

    def test_after_the_call_each_has_its_place_then_comes_the_default_option_and_what_has_none_is_last(self):
        choices = [choice(1, short=T0), choice(2, place=2), choice(3, place=1), choice(4, introduced=None)]
        of = status("Closed", choices, voting=VOTING)
        self.assertEqual(self.headings(of), [
            "Choice 1: Summary 3", "Choice 2: Summary 2", "Choice 3: None of the above",
            "Not on the ballot: Summary 1", "Not on the ballot: Summary 4",
        ])

    def test_the_title_has_the_first_summary_of_the_ballot(self):
        of = status("Voting", [choice(1, short=T0), choice(2, place=1)], number=12, voting=VOTING)
        self.assertEqual(["".join(text) for tag, _, text in page_of(of).elements if tag in ("title", "h1")],
                         ["Resolution 12: Summary 2"] * 2)

    def test_each_line_of_a_text_stands_by_itself_whatever_it_has(self):
        lines = ["First.", "", HOSTILE, "    indented"]
        page = page_of(status(choices=[choice(1, text=lines)]))
        self.assertEqual(page.texts(class_="text"), ["\n".join(lines)])


class Amendments(Case):
    """What a journal says was amended. The desk that is shown is that of resolution 1."""

    def amendments(self, *entries, of=None):
        page = page_of(of or status(), entries=journal(*entries))
        texts = ["".join(text) for tag, _, text in page.elements if tag in ("h2", "p") or tag == "div"]
        return page, texts[texts.index("Amendments") + 1 :]

    def test_an_amendment_is_told_with_the_wording_that_it_took_away(self):
        _, texts = self.amendments((1, proposed(1)), (2, amended(1, 2)))
        message = "Choice 1 got a substantial amendment 2026-01-01T00:01:00Z (Constitution, A.1.3), and is now Second."
        self.assertEqual(texts, [f"{message} Before, it was:", "First of 1\n\nBefore."])

    def test_a_minor_amendment_is_told_apart_from_a_substantial_one(self):
        _, texts = self.amendments((1, proposed(1)), (2, amended(1, 2, minor="1")))
        self.assertIn("Choice 1 got a minor amendment 2026-01-01T00:01:00Z (Constitution, A.1.5), and is", texts[0])

    def test_a_hostile_summary_is_a_text_and_makes_no_element(self):
        for summary in HOSTILE, "</p><b>Second</b>":
            with self.subTest(summary=summary):
                page, texts = self.amendments((1, proposed(1)), (2, amended(1, 2, summary)), (3, amended(1, 3)))
                self.assertTrue(texts[0].endswith(f"and is now {summary}. Before, it was:"), texts[0])
                self.assertEqual(texts[3], f"{summary}\n\nAfter.")
                self.assertEqual({tag for tag, _, _ in page.elements} & {"b", "script", "img"}, set())

    def test_a_mark_of_direction_in_a_summary_is_shown_by_its_number(self):
        _, texts = self.amendments((1, proposed(1)), (2, amended(1, 2, TURNED)))
        self.assertIn("and is now Eve U+202EevE. Before", texts[0])

    def test_amendments_of_other_resolutions_are_not_told(self):
        others = (1, proposed(1)), (2, proposed(11, 2)), (3, proposed(2, 3)), (4, amended(2, 4)), (5, amended(11, 5))
        self.assertEqual(self.amendments(*others)[1], ["Nothing was amended."])
        _, texts = self.amendments(*others, (6, amended(1, 6, "Own")))
        self.assertEqual((len(texts), "and is now Own." in texts[0]), (2, True), texts)

    def test_each_took_away_the_wording_of_the_one_before_in_the_order_of_the_desk(self):
        # The lines of a journal need not come in the order in which the desk accepted the acts.
        acts = [(number, amended(1, number, f"Number {number}")) for number in (10, 9, 2)]
        _, texts = self.amendments(*acts, (1, proposed(1)))
        now = [re.search("is now (.*)[.] Before", text)[1] for text in texts[::2]]
        before = [text.split("\n")[0] for text in texts[1::2]]
        self.assertEqual((now, before), (["Number 2", "Number 9", "Number 10"], ["First of 1", "Number 2", "Number 9"]))

    def test_an_amendment_of_one_choice_takes_away_nothing_of_another(self):
        second = entry(2, "/resolutions/1/choice", answer="ok 2 choice 2\n", author="@leader", summary="Other",
                       text="Other.", ratio="1")
        of = status(choices=[choice(1), choice(2)])
        _, texts = self.amendments((1, proposed(1)), (2, second), (3, amended(1, 3, chosen="2")), of=of)
        self.assertEqual((texts[0][:12], texts[1]), ("Choice 2 got", "Other\n\nOther."))

    def test_of_a_wording_that_the_journal_does_not_have_nothing_is_told(self):
        acts = (8, amended(1, 8, "First known")), (9, amended(1, 9, "Second known"))
        sponsor = 10, entry(10, "/resolutions/1/sponsor", choice="1", login="bob")
        _, texts = self.amendments(*acts, sponsor)
        self.assertEqual((len(texts), "is now Second known." in texts[0]), (2, True), texts)
        self.assertEqual(texts[1], "First known\n\nAfter.")

    def test_once_it_was_called_a_choice_has_the_name_of_its_place(self):
        choices = [choice(1, short=T0), choice(2, place=1)]
        second = entry(2, "/resolutions/1/choice", answer="ok 2 choice 2\n", author="@leader", summary="Other",
                       text="Other.", ratio="1")
        acts = (1, proposed(1)), (2, second), (3, amended(1, 3)), (4, amended(1, 4, chosen="2"))
        _, texts = self.amendments(*acts, of=status("Voting", choices, voting=VOTING))
        self.assertEqual([texts[0][:21], texts[2][:12]], ["Not on the ballot got", "Choice 1 got"])

    def test_a_page_without_a_journal_says_nothing_of_amendments(self):
        self.assertEqual(paragraphs(page_of(status()), "mend"), [])
