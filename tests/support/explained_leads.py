"""Desks that are led by acts, right ones and wrong ones, at random moments or by hand, with each sentence on an answer
held against the desk. What does not hold is collected, so that one failure hides no other."""
import sys
from collections import Counter
from contextlib import contextmanager

from tests.support.program import DAY, T0, TOP, Ran, expect, fail, tool
from tests.support.promises import (
    LATEST,
    PROMISES,
    Desk,
    act_in,
    fields_of,
    found_in,
    holds,
    name_of,
    of_choice,
    roll_act,
)

sys.path.insert(0, str(TOP / "tools"))
from grdesk.acts import explanation  # noqa: E402
from grdesk.acts.act import ACTS  # noqa: E402
from grdesk.acts.refusal import MEANINGS  # noqa: E402

# How many acts come to a desk that is led at random.
STEPS = 60
SPANS = [0, 0, 0, 1, 3_600, DAY // 2, DAY - 1, DAY, 2 * DAY, 5 * DAY, 7 * DAY]
# What is met besides the refusals: choices after a withdrawal, or with a sponsor or a proposer less or more.
OTHERS = [
    "introduced, and not short",
    "not introduced",
    "short before",
    "short now",
    "still short",
    "not short any more",
]
# How often each act comes, of a hundred or so.
WEIGHTS = {
    "developer": 4,
    "propose": 8,
    "choice": 10,
    "sponsor": 14,
    "unsponsor": 8,
    "withdraw": 6,
    "adopt": 6,
    "amend": 8,
    "vary": 14,
    "call": 12,
    "vote": 14,
    "close": 6,
    "cast": 5,
}
CALLED, ENDED = T0 + 15 * DAY, T0 + 22 * DAY
LEADER = {"author": "@leader", "summary": "Red", "text": "r", "ratio": "1"}
PEOPLE = [f"d{number}" for number in range(1, 5)]


class Lead:
    """A desk that is led: what was looked at, how often each refusal was met, and each end, and what did not hold."""

    def __init__(self, work):
        self.desk = Desk(work)
        self.met = Counter()
        self.failures = []

    @contextmanager
    def collected(self, what):
        """Collects what does not hold, also where the sentences could not be made at all."""
        try:
            yield
        except Exception as error:
            self.failures.append((what, f"{type(error).__name__}: {error}"))

    def refused(self, at, act, answer):
        """Holds the sentences of a refusal against the desk. Gives them."""
        status, line = answer
        message = list(explanation.sentences(self.desk.case(at, act), status, line))
        name = name_of(line)
        expect(f"what {name} means", message[0], f"{name}: {MEANINGS[name]}")
        PROMISES[name](self.desk, at, act, "\n".join(message[1:]))
        self.met[name] += 1
        return message

    def accepted(self, at, act, line, before):
        """Holds the sentences of an act that was accepted against the desk."""
        name, number, _ = act
        sentences = list(explanation.sentences(self.desk.case(at, act), 200, line, before))
        if name in explanation.GIVING:
            of_the_choice = [each for each in sentences if each.startswith("choice ")]
            self.given(at, act, "\n".join(of_the_choice), before)
            sentences = [each for each in sentences if each not in of_the_choice]
        message = "\n".join(sentences)
        if name == "call":
            self.called(act, line, message)
        elif name in (*explanation.MOVING, "propose"):
            number = int(line.split()[-1]) if name == "propose" else number
            self.moved(at, name, number, message, before)
        elif name in explanation.TAKING:
            self.taken(at, act, message, before)

    def moved(self, at, name, number, message, before):
        """The end of a discussion is right by a second, and is reported where it has moved."""
        end = end_in(self.desk.case(at, (name, number, {})).status())
        if "ends" in message:
            expect(f"the end after {name}", found_in(message, r"ends \S+ \((\d+)\)"), [end])
            holds(self.desk, end - 1, act_in("call", number), ("TooEarly", True))
            holds(self.desk, end, act_in("call", number), ("TooEarly", False))
            self.met["an end that moved"] += 1
        elif "draft" in message:
            holds(self.desk, at, act_in("call", number), ("WrongStage", True))
        else:
            expect(f"the end after {name}", (message, end), ("", end_in(before)))

    def given(self, at, act, message, before):
        """Of a choice that was short it is said whether it still lapses, and of another one nothing."""
        expect(f"whether {act} finds a choice that is short", bool(message), short_in(before, act) is not None)
        if "it lapses" in message:
            self.taken(at, act, message, before)
        elif message:
            number, choice = act[1], act[2]["choice"]
            expect(f"what {act} has done", message, f"choice {choice} of resolution {number} is not short any more")
            amend = of_choice("amend", act, minor="1", summary="S", text="T")
            holds(self.desk, LATEST, amend, ("Lapsed", False))
            self.met["not short any more"] += 1

    def taken(self, at, act, message, before):
        """A choice that is said to lapse does so, at just that moment, and another one at no moment."""
        amend = of_choice("amend", act, minor="1", summary="S", text="T")
        if "it lapses" not in message:
            holds(self.desk, LATEST, amend, ("Lapsed", False))
            self.met["introduced, and not short" if "is not short" in message else "not introduced"] += 1
            return
        [end] = found_in(message, r"it lapses \S+ \((\d+)\)")
        holds(self.desk, end - 1, amend, ("Lapsed", False))
        holds(self.desk, end, amend, ("Lapsed", True))
        was_short = short_in(before, act) is not None
        expect(f"whether {act} finds a choice that is short", "is short since" in message, was_short)
        adopt = of_choice("adopt", act, author="@leader")
        holds(self.desk, end - 1, adopt, ("HasProposer", "a proposer" not in message))
        kind = "still short" if act[0] in explanation.GIVING else "short before" if was_short else "short now"
        self.met[kind] += 1

    def called(self, act, line, message):
        """The end of a voting is right by a second."""
        if "cancelled" in line:
            expect("a call that cancels", "is cancelled" in message, True)
            return
        [end] = found_in(message, r"ends \S+ \((\d+)\)")
        if end > LATEST:
            expect("a voting that never ends", "can never be closed" in message, True)
            return
        holds(self.desk, end - 1, act_in("close", act[1]), ("TooEarly", True))
        holds(self.desk, end, act_in("close", act[1]), ("TooEarly", False))
        self.met["a voting"] += 1

    def takes(self, at, act):
        """An act that takes something from a choice or gives it something, and what is said of that."""
        with self.collected(f"{act} at {at}"):
            before = self.desk.case(at, act).status()
            status, line = self.desk.answer(self.desk.file, at, act)
            expect(f"{act} at {at}", (status, line[:3]), (200, "ok "))
            self.accepted(at, act, line, before)

    def is_refused(self, at, act, name, expected=None):
        """An act that is refused so, and what is said of that, besides what the refusal means."""
        with self.collected(f"{act} at {at}"):
            answer = self.desk.answer(self.desk.file, at, act)
            expect(f"{act} at {at}", name_of(answer[1]), name)
            message = self.refused(at, act, answer)
            if expected is not None:
                expect(f"what is said of {name}", message[1:], expected)


def led(work, lead_by, *more):
    """A desk that is led so."""
    lead = Lead(work)
    with lead.collected("an act that is taken"):
        lead_by(lead, *more)
    return lead


def does(desk, at, *acts):
    for act in acts:
        status, line = desk.answer(desk.file, at, act)
        expect(f"{act} at {at}", (status, line[:3]), (200, "ok "))


def short_in(status, act):
    """Since when the choice that an act names is short, or None."""
    return status.choices[int(act[2]["choice"]) - 1].short


def end_in(status):
    return None if status.discussion is None else status.discussion[1]


# By chance.


def random_values(chance, name, size):
    """Fields that are right in most cases."""
    login = f"d{chance.randint(1, size + 1)}" if chance.random() < 0.95 else "Nobody"
    author = chance.choice(["@leader", "@committee", login, login])
    days = chance.randint(-8, 8) if name == "vary" else chance.choice([6, 7, 7, 14, 21, 22])
    values = {
        "choice": str(chance.choice([1, 1, 1, 2, 2, 3, 4])),
        "login": login,
        "author": author,
        "name": chance.choice(["One", "O\u202en", ""]),
        "status": chance.choice(["current", "current", "retired"]),
        "minor": chance.choice("01"),
        "summary": chance.choice(["Red", "Green & blue", "a" * 81] if chance.random() < 0.2 else ["Red"]),
        "text": "The desk is painted.",
        "ratio": chance.choice(["1", "1", "1", "3", "10"]),
        "days": str(days),
        "place": str(chance.randint(1, 4)),
        "ranks": "".join(chance.choice("12-") for _ in range(chance.randint(2, 4))),
        "token": chance.choice(["tokenA01", "tokenA01", "short"]),
    }
    return {field: values[field] for field in fields_of(name)}


def lead_at_random(lead, chance, size):
    """Leads a desk of so many developers by random acts."""
    desk, clock = lead.desk, T0
    for login in range(1, size + 1):
        expect("a developer", desk.answer(desk.file, clock, roll_act(f"d{login}"))[0], 200)
    resolutions = 0
    for _ in range(STEPS):
        [name] = chance.choices(list(WEIGHTS), WEIGHTS.values())
        number = chance.choice([max(1, resolutions)] * 4 + [*range(1, resolutions + 2)])
        act = name, number if "{r}" in ACTS[name][0] else None, random_values(chance, name, size)
        at = clock + chance.choice(SPANS)
        if chance.random() < 0.05:
            at = chance.choice([clock - 1, clock - DAY, 0, LATEST + 1])
        before = desk.case(at, act).status() if name in (*explanation.MOVING, *explanation.TAKING) else None
        answer = desk.answer(desk.file, at, act)
        if answer[0] == 200:
            clock = at
            resolutions += name == "propose"
            with lead.collected(f"{act} at {at}"):
                lead.accepted(at, act, answer[1], before)
        else:
            look_at_refusal(lead, at, act, answer, is_by_tool=answer[0] == 409 and chance.random() < 0.1)


def look_at_refusal(lead, at, act, answer, is_by_tool):
    with lead.collected(f"{act} at {at}"):
        if answer[0] != 409:
            fail(f"the answer is {answer}")
        message = lead.refused(at, act, answer)
        if is_by_tool:
            look_at_tool(lead.desk, at, act, answer[1], message)


def look_at_tool(desk, at, act, line, message):
    """gr-desk act prints the desk's line alone, and the sentences on error output."""
    name, number, values = act
    if name in ("vote", "call"):
        return
    words = [name, *([number] if number else []), *(f"{field}={text}" for field, text in values.items())]
    ran = tool("act", "--desk", desk.file, "--at", at, "--ahead", *words)
    said = "".join(f"gr-desk act: {each}\n" for each in message).encode()
    expect(f"gr-desk act of {act}", ran, Ran(1, line.encode(), said))


# By hand.


def lead_a_discussion(lead):
    """A discussion that was changed in its first week, what days would do then, and who acts in it."""
    desk = lead.desk
    does(desk, T0, *map(roll_act, PEOPLE), *(("propose", None, LEADER) for _ in range(3)))
    changed_at, too_late = T0 + 6 * DAY, T0 + 11 * DAY + 1
    does(desk, T0, *(("sponsor", 1, {"choice": "1", "login": login}) for login in ("d3", "d4")))
    lead.is_refused(T0, ("unsponsor", 1, {"choice": "1", "login": "d1"}), "NotSponsor")
    lead.takes(T0, ("unsponsor", 1, {"choice": "1", "login": "d4"}))
    # Six days more would end it just 48 hours later.
    lead.is_refused(changed_at, ("vary", 2, {"days": "-7"}), "EndsTooSoon")
    does(desk, changed_at, ("choice", 1, LEADER))
    lead.takes(changed_at, ("withdraw", 3, {"choice": "1"}))
    does(desk, changed_at + 1, ("sponsor", 3, {"choice": "1", "login": "d3"}))
    changed_at += 1
    lead.takes(changed_at, ("unsponsor", 3, {"choice": "1", "login": "d3"}))
    lead.is_refused(changed_at, ("adopt", 1, {"choice": "2", "author": "d1"}), "HasProposer")
    does(desk, changed_at, ("withdraw", 1, {"choice": "2"}))
    lead.is_refused(changed_at, ("withdraw", 1, {"choice": "2"}), "NoProposer")
    does(desk, changed_at, ("developer", None, {"login": "d2", "name": "Two", "status": "retired"}))
    lead.is_refused(changed_at, ("sponsor", 1, {"choice": "1", "login": "d2"}), "NotCurrent")
    lead.is_refused(T0, ("vary", 1, {"days": "0"}), "ClockBack")
    # A change that puts the end off, so that less days do than without it.
    does(desk, T0 + 10 * DAY, ("choice", 2, LEADER))
    lead.takes(T0 + 10 * DAY, ("withdraw", 2, {"choice": "1"}))
    lead.takes(T0 + 10 * DAY, ("adopt", 2, {"choice": "1", "author": "@committee"}))
    lead.is_refused(T0 + 12 * DAY + 1, ("vary", 2, {"days": "-7"}), "EndsTooSoon")
    for at in too_late, T0 + 12 * DAY + 1, T0 + 13 * DAY + DAY // 2:
        lead.is_refused(at, ("vary", 1, {"days": "-7"}), "EndsTooSoon")
    late = {"Lapsed": ("adopt", 1, {"choice": "2", "author": "d1"}), "Ended": ("choice", 1, LEADER)}
    for name, act in late.items():
        lead.is_refused(T0 + 14 * DAY, act, name)
    # From here on no date does any more.
    does(desk, T0 + 14 * DAY, roll_act("d2"))
    for name, act in late.items():
        lead.is_refused(T0 + 15 * DAY, act, name)
    does(desk, T0 + 15 * DAY, ("call", 3, {"days": "7"}), ("propose", None, LEADER | {"author": "d1"}))
    lead.takes(T0 + 15 * DAY, ("withdraw", 4, {"choice": "1"}))
    for number in 3, 4:
        lead.is_refused(T0 + 15 * DAY, ("vary", number, {"days": "0"}), "WrongStage")


def discuss(desk):
    """Two resolutions under discussion: the first has three choices, and the second two."""
    does(desk, T0, *map(roll_act, PEOPLE))
    does(desk, T0, *(("propose", None, LEADER) for _ in range(2)))
    does(desk, T0, *(("choice", number, LEADER) for number in (1, 1, 2)))


def call(desk):
    does(desk, CALLED, ("call", 1, {"days": "7"}), ("call", 2, {"days": "7"}))


def vote(desk):
    """The first resolution has two places that are level, and the second has a winner."""
    for number, ranks in (1, "1123"), (2, "123"):
        votes = ({"login": login, "ranks": ranks, "token": "tokenA01"} for login in PEOPLE)
        does(desk, CALLED, *(("vote", number, each) for each in votes))


def close(desk):
    does(desk, ENDED, ("close", 1, {}), ("close", 2, {}))


def lead_votes(lead):
    """What chance seldom meets: a vote of which two places are level, one that has a winner, and what is full."""
    desk = lead.desk
    discuss(desk)
    call(desk)
    lead.is_refused(CALLED, ("vote", 1, {"login": "d1", "ranks": "123", "token": "tokenA01"}), "BadRanks")
    vote(desk)
    lead.is_refused(ENDED, ("cast", 1, {"place": "1"}), "WrongStage")
    close(desk)
    lead.is_refused(ENDED, ("close", 1, {}), "WrongStage")
    # Whatever its date, the stage takes no such act any more.
    late = ("vote", 1, {"login": "d1", "ranks": "1123", "token": "tokenA01"})
    of_stage = f"WrongStage: {MEANINGS['WrongStage']}; resolution 1 is closed, which takes cast"
    at_clock = f"at the desk's clock, 2026-01-23T00:00:00Z ({ENDED}), it would be refused too: {of_stage}"
    lead.is_refused(ENDED - 1, late, "ClockBack", [at_clock])
    lead.is_refused(ENDED, ("cast", 1, {"place": "3"}), "NotTied")
    lead.is_refused(ENDED, ("cast", 1, {"place": "5"}), "NoChoice")
    lead.is_refused(ENDED, ("cast", 2, {"place": "2"}), "NotTied")
    does(desk, ENDED, ("cast", 1, {"place": "2"}))
    lead.is_refused(ENDED, ("cast", 1, {"place": "1"}), "Already")
    does(desk, ENDED, ("propose", None, LEADER), *(("choice", 3, LEADER) for _ in range(33)))
    lead.is_refused(ENDED, ("choice", 3, LEADER), "Full")
    late = LATEST - 5 * DAY
    does(desk, late, ("call", 3, {"days": "7"}))
    lead.is_refused(LATEST, ("close", 3, {}), "TooEarly")
    rows = "login,name,status\nd1,One,current\n\"d 2\",Two,current\n"
    lead.is_refused(late, ("import", None, {"roll": rows}), "BadRoll", ["record 3 is 'd 2,Two,current'"])
    rows = f"login,name,status\nd1,{'x' * 100_000},current\n"
    lead.is_refused(late, ("import", None, {"roll": rows}), "BadRoll", [f"record 2 is 'd1,{'x' * 197}..'"])
