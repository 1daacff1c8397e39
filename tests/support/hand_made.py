"""Resolutions, choices, developers, votes and acts as the tools have them, which a test makes by hand."""
import sys

from tests.support.program import DAY, T0, TOP

sys.path.insert(0, str(TOP / "tools"))
from grdesk.acts.situation import DeskView, Situation  # noqa: E402
from grdesk.desk.sheet import Choice, Developer, Status  # noqa: E402
from grdesk.journal.entry import Entry, Fate  # noqa: E402
from grdesk.web.closed_vote import ClosedVote, OptionTest  # noqa: E402

# A discussion of the shortest length, and a voting of a week after it.
DISCUSSION = T0, T0 + 14 * DAY
VOTING = T0 + 14 * DAY, T0 + 21 * DAY


def choice(number=1, **changes):
    """A choice that a developer proposes, introduced when the discussion began, but for what is said."""
    values = {"summary": f"Summary {number}", "ratio": 1, "proposer": "developer eve", "sponsors": ["bob"],
              "introduced": T0, "short": None, "place": None, "text": [f"The text of {number}."]}
    return Choice(number=number, **{**values, **changes})


def status(stage="Discussing", choices=None, number=1, discussion=DISCUSSION, voting=None, developers=None):
    """A resolution under discussion, with one choice, but for what is said."""
    return Status(number, stage, discussion, voting, developers, [choice()] if choices is None else choices)


def roll(current, retired=0, **names):
    """Developers by their logins: those with names are current too, and so many others are, or are retired."""
    people = [Developer(login, True, name) for login, name in names.items()]
    people += [Developer(f"d{number}", True, f"Name {number}") for number in range(1, current - len(names) + 1)]
    people += [Developer(f"r{number}", False, f"Retired {number}") for number in range(1, retired + 1)]
    return {each.login: each for each in people}


def entry(number, path, moment=T0, answer="ok 1\n", fate=Fate.ACCEPTED, **fields):
    """An act of a journal."""
    return Entry(str(number), path, fields, None, moment, fate, answer=answer)


class SeenByHand(DeskView):
    """A desk whose sheets are known, and whose file has these rows; with None it is seen by a port."""

    def __init__(self, known, rows=None):
        super().__init__(None, {**known, "rows": rows})


def case(name, values=None, at=T0, of=None, people=None, rows=None, outcome=None, resolution=1):
    """An act on the resolution of a status, by whose desk it is looked at; without a status nothing is."""
    known = {("status", resolution): of, ("roll",): people or {}, ("result", resolution): outcome}
    texts = {field: text.encode() for field, text in (values or {}).items()}
    return Situation(name, resolution, texts, at, None if of is None else SeenByHand(known, rows))


def tested(verdict, above=0, below=0, ratio=1, quorum="met", majority="met"):
    """The test of an option, which kept or dropped it."""
    return OptionTest(above, below, ratio, quorum, majority, verdict)


def vote(options, ballots=(), tests=None, preferred=None, **changes):
    """A closed vote of options by their names, the default option last. All of them are kept, but for what is said."""
    names = dict(enumerate(options, start=1))
    values = {"number": 1, "voting": "", "developers": 9, "rounds": {}, "outcome": [1], "last": "Winner: 1",
              "winner": 1, "received": None, **changes}
    receipts = [(ranks, "0" * 64) for ranks in ballots]
    return ClosedVote(options=names, ballots=receipts, tests=tests or {}, preferred=preferred or {}, **values)
