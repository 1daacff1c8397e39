"""The part of a page that reports a closed vote, of votes that are made by hand. Cells are found by the headings of
their row and their column."""
import hashlib

from tests.support.case import Case
from tests.support.hand_made import tested, vote
from tests.support.html_pages import Page
from tests.support.html_tables import table_in
from grdesk.web.result import ballots, digests, facts, options, rounds, winner

NAMES = ["Red", "<b>Green</b>", "Blue", "None of the above"]
TESTS = {
    1: tested("kept", above=31, below=12, ratio=2),
    2: tested("kept", above=32, below=13),
    3: tested("dropped", above=3, below=14, quorum="failed", majority="failed"),
}
PREFERRED = {(1, 2): 21, (2, 1): 20, (1, 4): 31, (4, 1): 12, (2, 4): 13, (4, 2): 32}


def text_of(html):
    """What a reader sees of a part of a page."""
    return "".join(Page(f"<div>{html}</div>").elements[0][2])


def sheet_of(table):
    return {place: cell.text for place, cell in table.by_headings().items()}


class Winner(Case):
    def text(self, **changes):
        return text_of(winner(vote(NAMES, tests=TESTS, **changes))).split("\n")

    def test_a_winner_is_named_with_its_place(self):
        self.assertEqual(self.text(), ["The winner is choice 1, Red.",
                                       "Outcome (the Schwartz set after the last round): choice 1, Red."])

    def test_a_winner_by_the_casting_vote_is_told_so_beside_the_members_it_was_chosen_from(self):
        message = self.text(outcome=[1, 2], winner=2, last="Winner: 2 by casting vote")
        self.assertEqual(message, ["The winner is choice 2, <b>Green</b>, by the casting vote.",
                                "Outcome (the Schwartz set after the last round): choice 1, Red, choice 2, "
                                "<b>Green</b>."])

    def test_with_no_winner_all_members_are_named_the_last_one_too(self):
        for outcome, message in (([1, 2], "choice 1, Red and choice 2, <b>Green</b>"),
                              ([1, 2, 3], "choice 1, Red, choice 2, <b>Green</b> and choice 3, Blue")):
            with self.subTest(outcome=outcome):
                first = self.text(outcome=outcome, winner=None, last="Casting vote needed")[0]
                self.assertEqual(first, f"There is no winner yet. The casting vote chooses among {message}.")


class Facts(Case):
    def text(self, developers, count=2, received=None):
        return text_of(facts(vote(NAMES, ["1234"] * count, TESTS, developers=developers, received=received)))

    def test_the_quorum_is_that_of_the_developers_of_the_call_and_not_of_the_ballots(self):
        for developers, q, three_q, votes in ((1, "0.50", "1.50", 2), (4, "1.00", "3.00", 3), (5, "1.12", "3.35", 4),
                                              (16, "2.00", "6.00", 6), (17, "2.06", "6.18", 7),
                                              (1_000, "15.81", "47.43", 48)):
            with self.subTest(developers=developers):
                message = f"Developers who were current at the call: {developers}, so that Q is {q} and the quorum 3Q"
                self.assertIn(f"{message} is {three_q}, which {votes} votes meet (", self.text(developers))

    def test_ballots_and_votes_that_were_received_are_told_apart(self):
        self.assertTrue(self.text(4, 2, 5).startswith("Ballots: 2. Received, with those that were replaced: 5. Dev"))
        self.assertTrue(self.text(4, 2).startswith("Ballots: 2. Developers"))


class Options(Case):
    def table(self, **changes):
        return table_in(options(vote(NAMES, tests=TESTS, **changes)))

    def test_each_number_of_a_test_stands_under_its_heading(self):
        found = sheet_of(self.table())
        self.assertEqual({name: found["1", name] for name in
                          ("Option", "Above the default", "Below it", "Ratio", "Quorum", "Majority", "Test")},
                         {"Option": "Red", "Above the default": "31", "Below it": "12", "Ratio": "2", "Quorum": "met",
                          "Majority": "met", "Test": "kept"})
        self.assertEqual([found["3", name] for name in ("Quorum", "Majority", "Test")], ["failed", "failed", "dropped"])

    def test_the_default_option_has_no_test(self):
        found = sheet_of(self.table())
        self.assertEqual((found["4", "Option"], found["4", "Test"], found["4", "Ratio"]),
                         ("None of the above", "the default option", "the default option"))

    def test_a_summary_is_a_text_and_makes_no_element(self):
        self.assertEqual(sheet_of(self.table())["2", "Option"], "<b>Green</b>")

    def rows(self, mark, **changes):
        text = options(vote(NAMES, tests=TESTS, **changes))
        rows = [attrs for tag, attrs, _ in Page(f"<div>{text}</div>").elements if tag == "tr"][1:]
        return [place for place, attrs in enumerate(rows, start=1) if mark in attrs.get("class", "").split()]

    def test_members_of_the_outcome_and_what_was_dropped_are_drawn_otherwise(self):
        self.assertEqual(self.rows("member", outcome=[1, 2]), [1, 2])
        self.assertEqual(self.rows("dropped", outcome=[1, 2]), [3])
        self.assertEqual(self.rows("member", outcome=[4]), [4])


class Rounds(Case):
    def test_each_defeat_has_its_round_its_two_options_and_its_counts_both_ways(self):
        table = table_in(rounds(vote(NAMES, preferred=PREFERRED, rounds={1: [(1, 2)], 2: [(1, 4), (4, 2)]})))
        self.assertEqual(table.columns(), ["Round", "Winner of the defeat", "Loser", "For it", "Against it"])
        self.assertEqual([[cell.text for cell in row] for row in table.rows[1:]], [
            ["1", "1 Red", "2 <b>Green</b>", "21", "20"],
            ["2", "1 Red", "4 None of the above", "31", "12"],
            ["2", "4 None of the above", "2 <b>Green</b>", "32", "13"],
        ])

    def test_without_a_round_a_sentence_says_so(self):
        message = "No round dropped anything: no member of the Schwartz set defeats another."
        self.assertEqual(text_of(rounds(vote(NAMES))), message)


class Ballots(Case):
    def test_each_ballot_has_its_ranks_and_its_receipt_in_the_order_of_the_tally(self):
        shown = vote(NAMES)._replace(ballots=[("z1-2", "b" * 64), ("1-23", "a" * 64)])
        rows = [[cell.text for cell in row] for row in table_in(ballots(shown)).rows]
        self.assertEqual(rows, [["Ranks", "Receipt"], ["z1-2", "b" * 64], ["1-23", "a" * 64]])

    def test_letters_are_told_what_they_stand_for(self):
        self.assertIn("a stands for 10, b for 11, and so on up to z for 35.", text_of(ballots(vote(NAMES, ["1234"]))))


class Digests(Case):
    def test_each_sheet_has_its_own_sha_256(self):
        found = sheet_of(table_in(digests("the tally\n", "the r\u00e9sult\n")))
        for name, text in ("tally", "the tally\n"), ("result", "the r\u00e9sult\n"):
            with self.subTest(sheet=name):
                self.assertEqual(found[name, "SHA-256"], hashlib.sha256(text.encode()).hexdigest())
