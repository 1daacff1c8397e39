"""What is read of the two sheets of a closed vote, which are written out here: what each line comes to, and which
sheets are those of no vote."""
import sys

from tests.support.case import Case
from tests.support.in_process import stopped
from tests.support.program import TOP

sys.path.insert(0, str(TOP / "tools"))
from grdesk.error import Failed  # noqa: E402
from grdesk.web.closed_vote import vote_of  # noqa: E402

RECEIPTS = "a" * 64, "b" * 64, "c" * 64
TALLY = f"""\
Tally of resolution 7
Option 1: Red
Option 2: Green: or Blue
Option 3: Grey
Option 4: None of the above
Ballots: 3
V: 12-a {RECEIPTS[0]}
V: 1-23 {RECEIPTS[1]}
V: z1-2 {RECEIPTS[2]}
"""
# The numbers are those of no count: each of them is another one, so that none is taken for a neighbour.
RESULT = """\
Result of resolution 7
Voting: 2026-01-15T00:00:00Z to 2026-01-22T00:00:00Z
Developers: 16
Ballots: 3
Received: 5
Option 1: Red
Option 2: Green: or Blue
Option 3: Grey
Option 4: None of the above
Test 1: above 31, below 12, ratio 2, quorum met, majority met, kept
Test 2: above 32, below 13, ratio 1, quorum met, majority met, kept
Test 3: above 3, below 14, ratio 1, quorum failed, majority failed, dropped
Pair 1 2: 21 20
Pair 1 4: 31 12
Pair 2 4: 13 32
Round 1: drop 1>2 21:20
Round 2: drop 1>4 31:12, 4>2 32:13
Schwartz: 1 2
Winner: 2 by casting vote
"""


def read(tally=TALLY, result=RESULT, number=7):
    return vote_of(number, tally, result)


def replaced(text, *changes):
    for old, new in changes:
        if text.count(old) != 1:
            raise ValueError(f"{old!r} stands there {text.count(old)} times")
        text = text.replace(old, new)
    return text


class Lines(Case):
    """What stands in each line."""

    def test_the_head_of_the_result(self):
        vote = read()
        self.assertEqual((vote.number, vote.voting, vote.developers, vote.received),
                         (7, "2026-01-15T00:00:00Z to 2026-01-22T00:00:00Z", 16, 5))

    def test_the_options_by_their_places(self):
        self.assertEqual(read().options, {1: "Red", 2: "Green: or Blue", 3: "Grey", 4: "None of the above"})

    def test_the_ballots_in_their_order(self):
        self.assertEqual(read().ballots, [("12-a", RECEIPTS[0]), ("1-23", RECEIPTS[1]), ("z1-2", RECEIPTS[2])])

    def test_the_test_of_each_option_but_the_default_one(self):
        self.assertEqual(read().tests, {
            1: (31, 12, 2, "met", "met", "kept"),
            2: (32, 13, 1, "met", "met", "kept"),
            3: (3, 14, 1, "failed", "failed", "dropped"),
        })

    def test_the_counts_of_a_pair_both_ways(self):
        self.assertEqual(read().preferred, {(1, 2): 21, (2, 1): 20, (1, 4): 31, (4, 1): 12, (2, 4): 13, (4, 2): 32})

    def test_each_defeat_that_a_round_dropped(self):
        self.assertEqual(read().rounds, {1: [(1, 2)], 2: [(1, 4), (4, 2)]})

    def test_the_outcome_and_the_last_line(self):
        vote = read()
        self.assertEqual((vote.outcome, vote.winner, vote.last), ([1, 2], 2, "Winner: 2 by casting vote"))
        for last, winner in ("Winner: 1", 1), ("Casting vote needed", None):
            with self.subTest(last=last):
                vote = read(result=replaced(RESULT, ("Winner: 2 by casting vote", last)))
                self.assertEqual((vote.winner, vote.last), (winner, last))

    def test_a_result_of_version_1_does_not_say_how_many_were_received(self):
        self.assertIsNone(read(result=replaced(RESULT, ("Received: 5\n", ""))).received)

    def test_as_many_may_be_received_as_there_are_ballots_and_not_one_less(self):
        self.assertEqual(read(result=replaced(RESULT, ("Received: 5", "Received: 3"))).received, 3)
        message = stopped(Failed, read, TALLY, replaced(RESULT, ("Received: 5", "Received: 2")))
        self.assertEqual(message, "the result says that 2 votes were received, and has 3 ballots")


class Kept(Case):
    def test_what_the_tests_kept_and_the_default_option_are_kept(self):
        self.assertEqual(read().kept_options(), [1, 2, 4])

    def test_a_defeat_is_of_the_greater_count_and_has_the_round_that_dropped_it(self):
        self.assertEqual(read().defeats(), {(1, 2): 1, (1, 4): 2, (4, 2): 2})
        some = replaced(RESULT, ("Round 2: drop 1>4 31:12, 4>2 32:13", "Round 2: drop 4>2 32:13"))
        self.assertEqual(read(result=some).defeats(), {(1, 2): 1, (1, 4): None, (4, 2): 2})

    def test_of_two_that_are_level_neither_defeats_the_other(self):
        level = replaced(RESULT, ("Pair 1 2: 21 20", "Pair 1 2: 20 20"), ("Round 1: drop 1>2 21:20\n", ""))
        self.assertEqual(read(result=level).defeats(), {(1, 4): 2, (4, 2): 2})


class Others(Case):
    """Sheets that are those of no vote, or of two."""

    NO_VOTE = "the tally and the result are not those of one vote"
    NO_OPTION = "the result names an option that it does not have, so what answers is no desk"

    def test_sheets_of_two_votes_are_told(self):
        for tally, result in (
            (replaced(TALLY, ("Option 3: Grey", "Option 3: Gray")), RESULT),
            (replaced(TALLY, (f"V: 1-23 {RECEIPTS[1]}\n", "")), RESULT),
            (replaced(TALLY, ("Ballots: 3", "Ballots: 4")), RESULT),
            (TALLY, replaced(RESULT, ("Ballots: 3", "Ballots: 2"))),
        ):
            with self.subTest(tally=tally, result=result):
                self.assertEqual(stopped(Failed, read, tally, result), self.NO_VOTE)

    def test_sheets_of_another_resolution_are_told(self):
        message = "line 1 of the {} of resolution 7 does not fit such a sheet, so what answers is no desk"
        other = replaced(TALLY, ("Tally of resolution 7", "Tally of resolution 8"))
        self.assertEqual(stopped(Failed, read, other), message.format("tally"))
        other = replaced(RESULT, ("Result of resolution 7", "Result of resolution 8"))
        self.assertEqual(stopped(Failed, read, TALLY, other), message.format("result"))

    def test_an_option_that_is_not_there_or_was_not_kept_is_in_no_pair_and_no_outcome_and_wins_nothing(self):
        for change in (
            ("Pair 2 4: 13 32", "Pair 2 5: 13 32"),
            ("Pair 2 4: 13 32", "Pair 2 4: 13 32\nPair 2 3: 1 2"),
            ("Schwartz: 1 2", "Schwartz: 1 2 5"),
            ("Schwartz: 1 2", "Schwartz: 1 2 3"),
            ("Winner: 2 by casting vote", "Winner: 4"),
        ):
            with self.subTest(change=change):
                # A pair that is gone would be missed by its round first.
                result = replaced(RESULT, (", 4>2 32:13", ""), change)
                self.assertEqual(stopped(Failed, read, TALLY, result), self.NO_OPTION)

    def test_a_round_drops_no_defeat_with_other_counts_than_its_pair(self):
        for old, new in ("1>2 21:20", "1>2 20:21"), ("1>2 21:20", "2>1 21:20"), ("1>2 21:20", "1>3 21:20"):
            with self.subTest(new=new):
                message = stopped(Failed, read, TALLY, replaced(RESULT, (old, new)))
                a, b = new.split()[0].split(">")
                self.assertEqual(message, f"round 1 of the result has another count of {a} and {b} than their pair")

    def test_a_line_too_many_a_line_too_few_and_a_sheet_that_is_cut_off_are_told(self):
        for tally, result, message in (
            (TALLY + "V: x\n", RESULT, "line 10 of the tally of resolution 7 does not fit such a sheet"),
            (TALLY[:-1], RESULT, "the tally of resolution 7 has no end"),
            (TALLY, RESULT + "More\n", "line 20 of the result of resolution 7 does not fit such a sheet"),
            (TALLY, RESULT[:-1], "the result of resolution 7 has no end"),
            (TALLY, RESULT[: RESULT.index("Winner")], "line 19 of the result of resolution 7 does not fit such a"),
            (replaced(TALLY, ("V: 12-a ", "V: 12-A ")), RESULT, "line 7 of the tally of resolution 7 does not fit"),
        ):
            with self.subTest(message=message):
                self.assertEqual(stopped(Failed, read, tally, result)[: len(message)], message)
