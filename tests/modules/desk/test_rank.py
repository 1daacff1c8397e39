"""The ranks of a ballot: the characters of docs/formats.md, what each stands for, and their order."""
import re
import sys

from tests.support.case import Case
from tests.support.program import TOP

sys.path.insert(0, str(TOP / "tools"))
from grdesk.desk.rank import LETTERS, NO_RANK, RANKS, preference_of, rank_number  # noqa: E402

# Some characters with the ranks that they stand for.
NUMBERS = {"1": 1, "9": 9, "a": 10, "b": 11, "z": 35, "-": 0}


class Ranks(Case):
    def test_each_character_stands_for_its_rank(self):
        self.assertEqual({mark: rank_number(mark) for mark in NUMBERS}, NUMBERS)
        self.assertEqual([*map(rank_number, RANKS)], [*range(1, 36)])

    def test_what_a_reader_of_a_tally_is_told_of_letters_is_so(self):
        message = re.findall("([a-z]) (?:stands )?for ([0-9]+)", LETTERS)
        self.assertEqual(len(message), 3)
        for letter, number in message:
            with self.subTest(letter=letter):
                self.assertEqual(rank_number(letter), int(number))

    def test_in_the_order_of_preference_what_has_no_rank_comes_last(self):
        self.assertEqual(sorted("-za19b", key=preference_of), ["1", "9", "a", "b", "z", NO_RANK])
        self.assertEqual([preference_of(mark) for mark in "1z-"], [0, 34, 35])
