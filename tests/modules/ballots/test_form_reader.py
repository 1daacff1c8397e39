"""What is read of a text that has forms of several votes of a desk: that of the vote which is asked for, beside those
of others. A text that is meant for another vote alone is left to that one, and one that is meant for none is refused.
So each text is answered by some vote, and by no more than it is meant for."""
import sys
from dataclasses import replace

from tests.modules.ballots.reading_case import FORM
from tests.support.case import Case
from tests.support.in_process import stopped
from tests.support.program import TOP

sys.path.insert(0, str(TOP / "tools"))
from grdesk.ballots.arrival import arrival_of  # noqa: E402
from grdesk.ballots.form_reader import OfAnotherVote, read_form  # noqa: E402
from grdesk.ballots.mail import Mail  # noqa: E402
from grdesk.desk.sheet import Developer  # noqa: E402
from grdesk.error import NotRead  # noqa: E402

OTHER = replace(FORM, number=2, end=FORM.end + 86_400, summaries=("Blue", "None of the above"))
UNKNOWN = replace(OTHER, number=3)


def text_of(form, ranks=""):
    """The lines of a form with these ranks in its boxes, of which those that are left out are empty."""
    text = "\n".join([*form.lines(), ""])
    for place, rank in enumerate(ranks, start=1):
        text = text.replace(f"[   ] Choice {place}:", f"[ {rank} ] Choice {place}:")
    return text


# Texts, and what is read for either vote: the ranks, which vote it is left to, or why it is refused.
EMPTY, IDENTIFIER = "all boxes are empty", "the identifier is not that of this vote"
TEXTS = {
    "both are filled in": (text_of(FORM, "21-") + text_of(OTHER, "12"), "21-", "12"),
    "both are filled in, the other one first": (text_of(OTHER, "12") + text_of(FORM, "21-"), "21-", "12"),
    "the first is filled in": (text_of(FORM, "21-") + text_of(OTHER), "21-", 1),
    "the second is filled in": (text_of(FORM) + text_of(OTHER, "12"), 2, "12"),
    "neither is filled in": (text_of(FORM) + text_of(OTHER), EMPTY, EMPTY),
    "the first alone": (text_of(FORM, "21-"), "21-", 1),
    "the first alone, and empty": (text_of(FORM), EMPTY, 1),
    "the second is filled in twice": (text_of(FORM, "21-") + 2 * text_of(OTHER, "12"), "21-", "two forms in it"),
    "the second is damaged": (text_of(FORM) + text_of(OTHER, "12").replace("Blue", "Grue"), 2, "the line of choice 1"),
    "the second has a rank that is none": (text_of(FORM) + text_of(OTHER, "xx"), 2, "the box of choice 1 has"),
    "the second is wrapped": (text_of(OTHER, "12").replace("Identifier: ", "Identifier:\n"), 2, "12"),
    "a third one that no vote has": (text_of(UNKNOWN, "12"), IDENTIFIER, IDENTIFIER),
    "a third one beside the first": (text_of(FORM, "21-") + text_of(UNKNOWN, "12"), IDENTIFIER, IDENTIFIER),
    "none": ("Hello.\n", "there is no ballot", "there is no ballot"),
}


def read_for(form, text, *others):
    try:
        return read_form(form, text, others).ranks
    except OfAnotherVote as other:
        return other.form.number
    except NotRead as why:
        return str(why)


class Votes(Case):
    def test_each_text_is_read_for_the_vote_that_it_is_meant_for(self):
        for what, (text, *expected) in TEXTS.items():
            for form, other, line in (FORM, OTHER, expected[0]), (OTHER, FORM, expected[1]):
                with self.subTest(text=what, vote=form.number):
                    found = read_for(form, text, other)
                    is_as_expected = found == line if isinstance(line, int) else str(found).startswith(line)
                    self.assertTrue(is_as_expected, f"expected {line}, and got {found}")

    def test_a_text_that_is_left_to_one_vote_is_not_left_to_the_other(self):
        for what, (_, *expected) in TEXTS.items():
            self.assertFalse(all(isinstance(each, int) for each in expected), what)

    def test_without_another_vote_its_form_is_refused(self):
        self.assertIn(IDENTIFIER, read_for(FORM, text_of(OTHER, "12")))


class Closed(Case):
    """A mail with a form of another vote, which is open or closed."""

    def arrival(self, is_open, seconds):
        mail = Mail("d1.txt", text_of(OTHER, "12").encode(), OTHER.end + seconds)
        return arrival_of(Developer("d1", True, "One"), mail, FORM, None, {OTHER: is_open})

    def test_it_is_left_to_that_vote_while_a_run_of_it_answers_it(self):
        for is_open, seconds in (True, -1), (True, 0), (False, -1):
            with self.subTest(is_open=is_open, seconds=seconds):
                stopped(OfAnotherVote, self.arrival, is_open, seconds)

    def test_what_came_after_the_end_of_a_vote_that_is_closed_is_answered(self):
        self.assertEqual(self.arrival(False, 0).why, "its form is one of resolution 2, and that vote is over")
