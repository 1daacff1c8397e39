"""Who voted, from the sheets and the rows of desks that are made by hand: the number of developers is that of the call,
whatever the roll has become since, and the list warns at just the counts that it names."""
import sys

from tests.support.case import Case
from tests.support.program import TOP

sys.path.insert(0, str(TOP / "tools"))
from grdesk.ballots.electorate import electorate_of  # noqa: E402

STATUS = """\
Resolution {number}
Stage: Closed
Discussion: 2026-01-01T00:00:00Z to 2026-01-15T00:00:00Z
Voting: 2026-01-15T00:00:00Z to 2026-01-22T00:00:00Z
Developers: {developers}
"""
ALIKE = "all ballots are alike, so that this list tells who voted how"
FEW = "only {} voted, so that the tally nearly tells who voted how"


class Desk:
    """A desk of which two resolutions are closed. Its roll has so many who are current, and who are retired, now."""

    def __init__(self, at_call, current, retired, ballots):
        self.at_call, self.ballots = at_call, ballots
        people = [f"D: d{number} current Name {number}" for number in range(1, current + 1)]
        people += [f"D: r{number} retired Retired {number}" for number in range(1, retired + 1)]
        self.roll = "\n".join([f"Developers: {current + retired}", f"Current: {current}", *people, ""])

    def sheet(self, kind, *number):
        if kind == "status":
            return STATUS.format(number=number[0], developers=self.at_call)
        return {"roll": self.roll, "tally": f"Tally of resolution {number}\n"}[kind]

    def rows(self):
        return {"ballot2": {(of, login.encode()): {"ranks": ranks.encode()} for (of, login), ranks in
                            self.ballots.items()}}


def listed(ballots, at_call=12, current=12, retired=0, number=1):
    """The list of a resolution. The ballots are ranks by resolution and login."""
    return electorate_of(Desk(at_call, current, retired, ballots), number)


def of_logins(*logins, ranks=("12", "21")):
    """Ballots of these, whose ranks are not alike."""
    return {(1, login): ranks[place % len(ranks)] for place, login in enumerate(logins)}


class Counts(Case):
    def test_the_developers_are_those_who_were_current_at_the_call(self):
        for what, at_call, current, retired in (
            ("one was retired before the call", 12, 12, 1),
            ("one was retired after it", 12, 11, 1),
            ("one was added after it", 12, 13, 0),
        ):
            with self.subTest(what=what):
                text = listed(of_logins("d1", "d2"), at_call, current, retired).text()
                self.assertEqual(text.split("\n")[1], "Developers: 12 current at the call, 2 voted")

    def test_who_voted_stands_in_the_order_of_logins_with_the_name(self):
        text = listed(of_logins("d2", "d10", "r1", "d1"), retired=1).text()
        self.assertEqual(text.split("\n")[2:], ["d1 Name 1", "d10 Name 10", "d2 Name 2", "r1 Retired 1", ""])

    def test_ballots_on_another_resolution_are_not_counted(self):
        ballots = {**of_logins("d1", "d2"), (2, "d3"): "12", (11, "d4"): "12"}
        self.assertEqual([login for login, _ in listed(ballots).voters], ["d1", "d2"])
        self.assertEqual([login for login, _ in listed(ballots, number=2).voters], ["d3"])


class Warnings(Case):
    def warnings(self, *logins, **ranks):
        return list(listed(of_logins(*logins, **ranks)).warnings())

    def test_of_four_voters_it_is_told_that_they_are_few_and_of_five_it_is_not(self):
        self.assertEqual(self.warnings("d1", "d2", "d3", "d4"), [FEW.format("4 developers")])
        self.assertEqual(self.warnings("d1", "d2", "d3", "d4", "d5"), [])

    def test_of_one_voter_both_are_told_and_of_nobody_neither(self):
        self.assertEqual(self.warnings("d1"), [FEW.format("1 developer"), ALIKE])
        self.assertEqual(self.warnings(), [])

    def test_ballots_are_alike_if_their_ranks_are_and_one_other_is_enough_that_they_are_not(self):
        five = "d1", "d2", "d3", "d4", "d5"
        self.assertEqual(self.warnings(*five, ranks=("12",)), [ALIKE])
        self.assertEqual(self.warnings(*five, ranks=("12", "12", "12", "12", "21")), [])

    def test_ballots_on_another_resolution_make_none_of_this_one_alike_or_not(self):
        ballots = {(1, f"d{number}"): "12" for number in range(1, 6)} | {(2, "d1"): "21"}
        self.assertEqual(list(listed(ballots).warnings()), [ALIKE])
