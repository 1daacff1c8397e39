"""The form for a ballot, of votes that are made by hand: which choices are on it in which order, what its identifier is
made of, and its lines with and without ranks."""
import hashlib
from dataclasses import replace

from tests.support.case import Case
from tests.support.hand_made import VOTING, choice, status
from tests.support.in_process import stopped
from tests.support.program import DAY, T0
from grdesk.ballots.form import Form, folded, form_of, placed_in
from grdesk.error import Refused

FORM = Form(12, VOTING[0], VOTING[1], 16, ("Red", "Green: or Blue", "None of the above"))
# The lines of which the identifier is the SHA-256, by docs/formats.md: number, begin, days, developers and options.
ABOUT = """\
12
1768435200
7
16
[   ] Choice 1: Red
[   ] Choice 2: Green: or Blue
[   ] Choice 3: None of the above
"""


class Identifiers(Case):
    def test_it_is_the_sha_256_of_the_lines_of_the_page_on_formats(self):
        self.assertEqual(FORM.identifier(), hashlib.sha256(ABOUT.encode()).hexdigest())

    def test_it_changes_with_each_thing_that_it_is_about(self):
        others = [replace(FORM, number=1), replace(FORM, begin=VOTING[0] - DAY), replace(FORM, end=VOTING[1] + DAY),
                  replace(FORM, begin=VOTING[0] + 1, end=VOTING[1] + 1), replace(FORM, developers=17),
                  replace(FORM, summaries=("Green: or Blue", "Red", "None of the above")),
                  replace(FORM, summaries=("Red", "None of the above"))]
        self.assertEqual(len({FORM.identifier(), *(each.identifier() for each in others)}), 8)


class Lines(Case):
    def test_an_empty_form_stands_between_its_marker_lines(self):
        self.assertEqual(FORM.lines(), [
            "+++++ ballot begins +++++",
            f"Identifier: {hashlib.sha256(ABOUT.encode()).hexdigest()}",
            "[   ] Choice 1: Red",
            "[   ] Choice 2: Green: or Blue",
            "[   ] Choice 3: None of the above",
            "Token:",
            "+++++ ballot ends +++++",
        ])

    def test_ranks_stand_in_their_boxes_as_numbers_and_none_as_a_hyphen(self):
        self.assertEqual(FORM.filled("9a-"), ["[ 9 ] Choice 1: Red", "[10 ] Choice 2: Green: or Blue",
                                              "[ - ] Choice 3: None of the above"])
        self.assertEqual(FORM.filled("1z-")[1], "[35 ] Choice 2: Green: or Blue")

    def test_places_are_counted_from_1_with_the_default_option_last(self):
        self.assertEqual(list(FORM.places), [1, 2, 3])
        self.assertEqual([FORM.option(place) for place in FORM.places],
                         ["Choice 1: Red", "Choice 2: Green: or Blue", "Choice 3: None of the above"])

    def test_both_ends_of_the_time_for_votes_are_told_and_that_the_second_counts_no_more(self):
        self.assertEqual(FORM.times(), "Votes are taken from 2026-01-15T00:00:00Z until 2026-01-22T00:00:00Z. What "
                                       "arrives then or later is not counted. Both are moments in UTC.")

    def test_the_whole_begins_with_its_title_and_ends_with_the_lines(self):
        self.assertTrue(FORM.text().startswith("Resolution 12: Red\n\nVotes are taken from"))
        self.assertTrue(FORM.text().endswith("\n".join(["", *FORM.lines(), ""])))

    def test_a_line_has_72_characters_at_most_and_a_word_is_cut_at_no_hyphen(self):
        word = "a" * 35
        self.assertEqual(folded(f"{word} {word}b"), f"{word} {word}b")
        self.assertEqual(folded(f"{word} {word}bc"), f"{word}\n{word}bc")
        self.assertEqual(folded(f"{word} {'a' * 20}-{'b' * 20}"), f"{word}\n{'a' * 20}-{'b' * 20}")
        self.assertEqual(folded("One.\n\nTwo."), "One.\n\nTwo.")


class OfStatuses(Case):
    def test_the_choices_stand_by_their_places_and_those_without_one_are_left_out(self):
        of = status("Voting", [choice(1, short=T0), choice(2, place=2), choice(3, place=1), choice(4, introduced=None)],
                    number=12, voting=VOTING, developers=16)
        self.assertEqual([each.number for each in placed_in(of)], [3, 2])
        made = form_of(of)
        self.assertEqual(made.summaries, ("Summary 3", "Summary 2", "None of the above"))
        self.assertEqual((made.number, made.begin, made.end, made.developers), (12, *VOTING, 16))

    def test_a_mark_of_direction_in_a_summary_stands_there_by_its_number(self):
        of = status("Voting", [choice(1, summary="R\u202eed", place=1)], voting=VOTING, developers=4)
        self.assertEqual(form_of(of).summaries[0], "R<U+202E>ed")

    def test_a_vote_that_is_closed_has_its_form_still(self):
        of = status("Closed", [choice(1, place=1)], voting=VOTING, developers=4)
        self.assertEqual(form_of(of).summaries, ("Summary 1", "None of the above"))

    def test_before_the_call_there_is_none(self):
        stages = {"Draft": "is a draft", "Discussing": "is under discussion", "Cancelled": "is cancelled"}
        for stage, message in stages.items():
            with self.subTest(stage=stage):
                self.assertEqual(stopped(Refused, form_of, status(stage, number=12)),
                                 f"resolution 12 {message}, and has no ballot before it is called")
