"""A vote of 34 choices and 2,000 ballots, as large as one may be, for test_recounts.py: its ballots, a count of them by
the words of A.5 that is no part of the desk or of examples/recount, and how the vote is led through the program."""
from typing import NamedTuple

from tests.support.program import DAY, T0, Ran, expect, make_desk, once, receipt, run, serve

CHOICES = 34
DEVELOPERS = 2_000
PLACES = range(1, CHOICES + 2)
DEFAULT = PLACES[-1]
RANKS = "123456789abcdefghijklmnopqrstuvwxyz"

CALLED = T0 + 14 * DAY
CLOSED = CALLED + 14 * DAY

# With the ballots that are drawn from this seed all options are kept, and there are so many rounds. Other seeds come to
# fewer or to more, many of them to none.
SEED = 199
ROUNDS = 94


class Draw:
    """A linear congruential generator. What it draws is the same wherever it runs."""

    def __init__(self, seed):
        self.state = seed

    def below(self, limit):
        self.state = (self.state * 6_364_136_223_846_793_005 + 1_442_695_040_888_963_407) % 2**64
        return (self.state >> 33) % limit

    def mark(self, eighths):
        """Any rank in so many of eight cases, and otherwise none."""
        rank = RANKS[self.below(len(RANKS))]
        return rank if self.below(8) < eighths else "-"


def draw_ballots():
    """A ballot of each developer. A choice has a rank on seven of eight, the default option on one of eight."""
    draw = Draw(SEED)
    return ["".join(draw.mark(1 if place == DEFAULT else 7) for place in PLACES) for _ in range(DEVELOPERS)]


class Outcome(NamedTuple):
    """The options that are kept, how many rounds drop defeats, and the options from which the winner is chosen."""

    kept: list
    rounds: int
    members: list


def count(ballots):
    """Counts ballots by A.5, where each ratio is 1."""
    votes = preferences(ballots)
    kept = [place for place in PLACES if place == DEFAULT or is_kept(votes, place)]
    defeated = {a: {b for b in kept if votes[a, b] > votes[b, a]} for a in kept}
    rounds = 0
    while True:
        reached = {a: reached_from(a, defeated) for a in kept}
        members = [a for a in kept if all(b in reached[a] or a not in reached[b] for b in kept)]
        # The fewer voters are for a defeat, the weaker it is, and with as many for it, the more are against it.
        strengths = {(a, b): (votes[a, b], -votes[b, a]) for a in members for b in defeated[a] if b in members}
        if not strengths:
            return Outcome(kept, rounds, members)
        weakest = min(strengths.values())
        for (a, b), strength in strengths.items():
            if strength == weakest:
                defeated[a].remove(b)
        rounds += 1


def preferences(ballots):
    """How many voters prefer the first option of two to the second."""
    votes = dict.fromkeys(((a, b) for a in PLACES for b in PLACES), 0)
    for ballot in ballots:
        positions = {place: (RANKS + "-").index(mark) for place, mark in zip(PLACES, ballot)}
        for a in PLACES:
            for b in PLACES:
                votes[a, b] += positions[a] < positions[b]
    return votes


def is_kept(votes, place):
    """Whether a choice has the quorum and the majority."""
    above, below = votes[place, DEFAULT], votes[DEFAULT, place]
    return 4 * above * above >= 9 * DEVELOPERS and above > below


def reached_from(option, defeated):
    """The options that this one defeats, those that these defeat, and so on."""
    reached, next_ones = set(), [option]
    while next_ones:
        for other in defeated[next_ones.pop()] - reached:
            reached.add(other)
            next_ones.append(other)
    return reached


def lead(work):
    """Leads the vote over a new desk in this folder. Gives its ballots, what one choice too many came to, and the tally
    and the result printed."""
    file, roll, ballots = work / "desk.db", work / "roll.csv", draw_ballots()
    make_desk(file)
    developers = (f"d{number},Dora Dean,current\n" for number in range(1, DEVELOPERS + 1))
    roll.write_text(f"login,name,status\n{''.join(developers)}")
    added = f"ok 1 added {DEVELOPERS} changed 0 same 0\n"
    expect("import of the roll", run("import", file, roll, "--at", T0), Ran(0, added.encode(), b""))
    one_more = propose(file)
    once(file, CALLED, "/resolutions/1/call", "days=14", f"ok 36 places {DEFAULT} until {CLOSED}")
    vote(file, ballots)
    once(file, CLOSED, "/resolutions/1/close", "", f"ok {37 + DEVELOPERS}")
    return ballots, one_more, printed("tally", file), printed("result", file)


def propose(file):
    """The Leader proposes a resolution and adds choices, as many as there may be. Gives the response to one more."""
    with serve(file, CHOICES + 1, "--at", T0) as desk:
        desk.accepts("/resolutions", choice(1), "ok 2 resolution 1")
        for number in range(2, CHOICES + 1):
            desk.accepts("/resolutions/1/choice", choice(number), f"ok {number + 1} choice {number}")
        one_more = desk.ask("POST", "/resolutions/1/choice", choice(CHOICES + 1))
        expect("serve: its end", desk.ended(), Ran(0, b"", b""))
    return one_more


def choice(number):
    return f"author=@leader&summary=C{number}&text=Choice+{number}&ratio=1"


def vote(file, ballots):
    """Each developer votes, all by one `serve`."""
    with serve(file, len(ballots), "--at", CALLED) as desk:
        for number, ranks in enumerate(ballots, 1):
            login, token = f"d{number}", f"token{number:04}"
            desk.accepts(
                "/resolutions/1/vote",
                f"login={login}&ranks={ranks}&token={token}",
                f"ok {36 + number} receipt {receipt(1, login, token)}",
            )
        expect("serve: its end", desk.ended(), Ran(0, b"", b""))


def printed(kind, file):
    """A sheet of the resolution, as the program prints it."""
    ran = run(kind, file, 1)
    expect(f"{kind}: its status and its error output", (ran.status, ran.err), (0, b""))
    return ran.out.decode()
