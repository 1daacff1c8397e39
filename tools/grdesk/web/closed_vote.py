"""A closed vote, as its tally and its result tell it. Nothing is counted here: each number stands in one of the two."""
from typing import NamedTuple, Optional

from grdesk.desk.sheet import NUMBER, TIME, SheetLines, outcome_in
from grdesk.error import Failed


class OptionTest(NamedTuple):
    """What the tests of an option came to, in the words of the result."""

    above: int
    below: int
    ratio: int
    quorum: str
    majority: str
    verdict: str


class ClosedVote(NamedTuple):
    """A vote. Options are known by their places; the last one has that of the default option."""

    number: int
    voting: str
    developers: int
    options: dict
    tests: dict
    # How many voters prefer the one to the other, for each two kept options, both ways.
    preferred: dict
    # The defeats that each round dropped.
    rounds: dict
    outcome: list
    # The last line, and the winner that it names.
    last: str
    winner: Optional[int]
    ballots: list
    # How many votes were accepted, replaced ones too. A desk of version 1 did not count them.
    received: Optional[int]

    def kept_options(self):
        return [place for place in self.options if place not in self.tests or self.tests[place].verdict == "kept"]

    def defeats(self):
        """The kept options of which one defeats the other, the winner first, with the round that dropped it."""
        dropped = {pair: number for number, pairs in self.rounds.items() for pair in pairs}
        return {(a, b): dropped.get((a, b)) for (a, b), count in self.preferred.items() if count > self.preferred[b, a]}


def options_of(lines):
    return {int(line[1]): line[2] for line in lines.all(f"Option {NUMBER}: (.*)")}


def received_of(lines, least):
    """How many votes were accepted, where the result says so: as many as there are ballots, or more."""
    line = lines.find("Received: (0|[1-9][0-9]{0,12})")
    if line and int(line[1]) < least:
        raise Failed(f"the result says that {line[1]} votes were received, and has {least} ballots")
    return int(line[1]) if line else None


def test_of(line):
    return OptionTest(*map(int, line.groups()[1:4]), *line.groups()[4:])


def preferred_of(lines):
    found = {}
    for line in lines.all(f"Pair {NUMBER} {NUMBER}: {NUMBER} {NUMBER}"):
        a, b, count, other = map(int, line.groups())
        found[a, b], found[b, a] = count, other
    return found


def rounds_of(lines, preferred):
    """The defeats of each round, whose counts are those of their pairs."""
    rounds = {}
    for line in lines.all(f"Round {NUMBER}: drop (.+)"):
        defeats = []
        for defeat in line[2].split(", "):
            found = SheetLines("the result", f"{defeat}\n").take(f"{NUMBER}>{NUMBER} {NUMBER}:{NUMBER}")
            a, b, count, other = map(int, found.groups())
            if (preferred.get((a, b)), preferred.get((b, a))) != (count, other):
                raise Failed(f"round {line[1]} of the result has another count of {a} and {b} than their pair")
            defeats.append((a, b))
        rounds[int(line[1])] = defeats
    return rounds


def vote_of(number, tally, result):
    """The vote of these two sheets, which have to agree."""
    lines = SheetLines(f"the tally of resolution {number}", tally)
    lines.take(f"Tally of resolution {number}")
    options_of_tally = options_of(lines)
    count_of_tally = int(lines.take(f"Ballots: {NUMBER}")[1])
    ballots = [(line[1], line[2]) for line in lines.all("V: ([1-9a-z-]+) ([0-9a-f]{64})")]
    lines.end()

    lines = SheetLines(f"the result of resolution {number}", result)
    lines.take(f"Result of resolution {number}")
    voting = lines.take(f"Voting: ({TIME} to {TIME})")[1]
    developers = int(lines.take(f"Developers: {NUMBER}")[1])
    count = int(lines.take(f"Ballots: {NUMBER}")[1])
    received = received_of(lines, count)
    options = options_of(lines)
    form = f"Test {NUMBER}: above {NUMBER}, below {NUMBER}, ratio ([1-9]), quorum (met|failed), majority (met|failed), "
    tests = {int(line[1]): test_of(line) for line in lines.all(f"{form}(kept|dropped)")}
    preferred = preferred_of(lines)
    rounds = rounds_of(lines, preferred)
    outcome = outcome_in(lines)
    last = lines.take(f"Winner: {NUMBER}(?: by casting vote)?|Casting vote needed")
    winner = int(last[1]) if last[1] else None
    lines.end()
    if (options, count, len(ballots)) != (options_of_tally, count_of_tally, count):
        raise Failed("the tally and the result are not those of one vote")
    # The default option has no test, and is always kept.
    kept = {option for option in options if option not in tests or tests[option].verdict == "kept"}
    named = {option for pair in preferred for option in pair} | set(outcome)
    if not named <= kept or winner not in (None, *outcome):
        raise Failed("the result names an option that it does not have, so what answers is no desk")
    shown = tests, preferred, rounds, outcome, last[0], winner, ballots, received
    return ClosedVote(number, voting, developers, options, *shown)
