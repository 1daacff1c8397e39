"""What the lines of a journal come to: each act with what became of it, and the number that the desk gave it."""
import re
from dataclasses import dataclass
from enum import Enum
from typing import Optional

from grdesk.acts.act import Act, act_at, fields_at
from grdesk.output import shown

# How long after its request an act may have come whose answer was never kept, in seconds.
LATEST_COMING = 60

OF_AN_ENTRY = re.compile("v?[1-9][0-9]{0,9}", re.ASCII)
NUMBER_AT_DESK = re.compile("[1-9][0-9]{0,9}", re.ASCII)
ACCEPTED = re.compile(r"ok ([1-9][0-9]{0,9})((?: .*)?\n)", re.ASCII)

# The fields of each kind of line in each of its forms, after `form` and `line`, and of what type each is. A line is
# written in the latest form of its kind, and those of earlier forms are read.
NONE = type(None)
OF_AN_ACT = {"number": str, "desk": (str, NONE), "path": str, "fields": dict, "source": (dict, NONE)}
OF_A_REPLAY = {"desk": str, "without": (str, NONE), "answers": dict, "sha256": str}
LINES = {
    ("act", 1): {**OF_AN_ACT, "moment": (int, NONE), "before": (int, NONE), "count": (int, NONE)},
    ("held", 1): {**OF_AN_ACT, "moment": int, "until": (int, NONE)},
    ("answer", 1): {"number": str, "status": int, "text": str, "after": (int, NONE)},
    ("found", 1): {"number": str, "count": (int, NONE)},
    ("dropped", 1): {"number": str},
    ("dropped", 2): {"number": str, "source": (dict, NONE)},
    ("replay", 1): OF_A_REPLAY,
    ("replay", 2): {**OF_A_REPLAY, "inode": int, "count": int},
    ("replayed", 1): {"is_done": bool},
    ("replaced", 1): {"resolution": int, "login": str, "ranks": str, "token": (str, NONE), "source": dict},
}
FORMS = dict(sorted(LINES))


class UnknownForm(Exception):
    """A line is of no known form."""


class Fate(Enum):
    """What became of an act."""

    HELD = "held"
    DROPPED = "dropped"
    # It was sent, and its answer is not kept.
    OPEN = "no answer is kept"
    ACCEPTED = "accepted"
    NOT_ACCEPTED = "not accepted"
    # It was accepted, and the desk went back to a copy from before it.
    GONE = "accepted, and gone with the desk that had it"


@dataclass
class Entry:
    """An act of a journal. Its moment is None where only the seconds before and after it are known."""

    number: str
    path: str
    fields: dict
    source: Optional[dict]
    moment: Optional[int]
    fate: Fate = Fate.OPEN
    is_held: bool = False
    # When the time of objection is over of a held act; None where it waits for those before it alone.
    until: Optional[int] = None
    before: Optional[int] = None
    after: Optional[int] = None
    # How many acts the desk had accepted just before, where that was looked at.
    count: Optional[int] = None
    # Its place in the order in which acts were sent. If the desk has accepted an open one, its number is higher than
    # `above`, that of the last act before it, and lower than `below`, that of the first one after it, if there is one.
    order: int = 0
    above: int = 0
    below: Optional[int] = None
    # The line of the answer.
    answer: Optional[str] = None
    # Where the objection came from for which it was dropped.
    why_dropped: Optional[dict] = None

    @property
    def is_vote(self):
        return self.number.startswith("v")

    @property
    def is_by_port(self):
        """Whether it was sent by a port or a socket: then no moment of it is known, and no count before it."""
        return self.moment is None

    @property
    def act(self):
        return act_at(self.path)[0]

    @property
    def resolution(self):
        """The number of the resolution that it names, as a word, or that it made."""
        if self.act == "propose":
            made = re.search(r" resolution ([0-9]+)\n", self.answer or "")
            return made and made[1]
        return act_at(self.path)[1]

    def again(self):
        """The act itself, as it was sent."""
        return Act.of_texts(self.path, self.fields)

    def seconds(self):
        """The seconds at one of which it came. A clock that was set back meanwhile leaves the one before."""
        if self.moment is not None:
            return range(self.moment, self.moment + 1)
        last = self.before + LATEST_COMING if self.after is None else max(self.before, self.after)
        return range(self.before, last + 1)

    def words(self):
        """What it says, in the words of gr-desk act. Of a vote it says the login alone, and of a text nothing."""
        named = [f"{field}={self.fields[field]}" for field in self.fields if field in NAMED]
        return shown(" ".join([self.act, *filter(None, [act_at(self.path)[1]]), *named]))


@dataclass
class Replaced:
    """A ballot that a later one of the same voter replaced before it was sent, so that no act has it. Its token is None
    if its form has none."""

    resolution: int
    fields: dict
    source: dict


def arrived(entry):
    """When the mail of an act arrived, as far as is known: at the act's own moment if its source does not say it."""
    moment = (entry.source or {}).get("arrived")
    return moment if isinstance(moment, int) else entry.seconds()[-1]


# The fields that stand in one line with the act.
NAMED = ["login", "name", "status", "author", "summary", "ratio", "choice", "minor", "days", "place"]


class Entries:
    """The acts of a journal, as its lines tell them one after the other."""

    def __init__(self):
        self.lines = []
        self.all = {}
        # How many there are: of votes, and of the others.
        self.counts = {True: 0, False: 0}
        # How many were sent.
        self.sent = 0
        # The acts that the desk has, as far as is known, by the numbers that it gave them, in their order, and the last
        # number.
        self.accepted = {}
        self.last = 0
        # Those of which it is not known whether the desk has them, in the order in which they were sent.
        self.open = []
        self.desk = None
        # The line of a replay that was begun, and of which no line says whether it was done.
        self.replay = None
        # The ballots that were replaced before they were sent.
        self.replaced = []
        # Where the lines are that say of acts without an answer what became of them, by the numbers of these acts.
        self.settled = {}

    @classmethod
    def of(cls, lines):
        """The acts of these lines."""
        entries = cls()
        for line in lines:
            entries.take(line)
        return entries

    def held(self):
        """The held acts in the order in which they must be entered."""
        held = [each for each in self.all.values() if each.fate is Fate.HELD]
        return sorted(held, key=lambda each: each.moment)

    def coming(self):
        """The held acts in that order, each with the moment from which on it can be entered: its time of objection is
        over then, and so is that of each one before it."""
        earliest = 0
        for entry in self.held():
            earliest = max(earliest, entry.moment, entry.until or 0)
            yield earliest, entry

    def next_number(self, is_vote):
        return f"{'v' if is_vote else ''}{self.counts[is_vote] + 1}"

    @property
    def waiting(self):
        """The open acts after the last one that the desk has."""
        return [entry for entry in self.open if entry.below is None]

    def missing(self, after, last=None):
        """The numbers after this one, up to the last, of which no act is known."""
        last = self.last if last is None else last
        return [number for number in range(after + 1, last + 1) if number not in self.accepted]

    def may_have(self, entry, number):
        """Whether this may be the number of an open act, if the desk has accepted it."""
        is_before = entry.below is None or number < entry.below
        return entry.above < number and is_before and number not in self.accepted

    def numbers_for(self, entry):
        """The numbers that an open act may have. None: each one after the last."""
        if entry.below is None:
            return None
        return [number for number in range(entry.above + 1, entry.below) if self.may_have(entry, number)]

    def take(self, line):
        """Takes the next line."""
        check_form(line)
        getattr(self, f"take_{line['line']}")(line)
        self.lines.append(line)

    def after(self, line):
        """The acts with one more line. One that says again what became of an act counts in the place of the first."""
        check_form(line)
        if line["line"] != "found" or line["number"] not in self.settled:
            self.take(line)
            return self
        place = self.settled[line["number"]]
        return Entries.of([*self.lines[:place], line, *self.lines[place + 1 :]])

    def unsettled(self, number):
        """The acts as they are where nothing says what became of this one."""
        place = self.settled.get(number)
        return self if place is None else Entries.of([*self.lines[:place], *self.lines[place + 1 :]])

    def entry(self, number, *fates):
        """The act of this number, of which one of these is known so far."""
        entry = self.all.get(number)
        if entry is None or entry.fate not in fates:
            raise UnknownForm
        return entry

    def take_act(self, line):
        """An act is about to be sent: a new one, or one that was held."""
        if (line["moment"] is None) == (line["before"] is None):
            raise UnknownForm
        if line["number"] in self.all:
            entry = self.entry(line["number"], Fate.HELD)
            self.settled.pop(entry.number, None)
        else:
            entry = self.new(line)
        entry.fate = Fate.OPEN
        entry.moment, entry.before, entry.count = line["moment"], line["before"], line["count"]
        self.sent += 1
        entry.order, entry.above, entry.below = self.sent, self.last, None
        self.open.append(entry)

    def take_held(self, line):
        entry = self.new(line)
        entry.fate, entry.is_held, entry.until = Fate.HELD, True, line["until"]

    def new(self, line):
        if set(line["fields"]) != fields_at(line["path"]):
            raise UnknownForm
        if line["number"] != self.next_number(Act(line["path"], {}).is_vote):
            raise UnknownForm
        if line["desk"] is not None:
            self.desk = line["desk"]
        entry = Entry(*(line[field] for field in ("number", "path", "fields", "source", "moment")))
        self.all[entry.number] = entry
        self.counts[entry.is_vote] += 1
        return entry

    def take_answer(self, line):
        entry = self.entry(line["number"], Fate.OPEN)
        entry.answer, entry.after = line["text"], line["after"]
        self.settle(entry, line["status"], line["text"])

    def settle(self, entry, status, text):
        """An answer says what became of an act, unless it is that of a fault."""
        match = ACCEPTED.fullmatch(text)
        if status == 200 and match:
            self.accept(entry, int(match[1]))
        elif status not in (200, 503):
            self.refuse(entry)

    def refuse(self, entry):
        entry.fate = Fate.NOT_ACCEPTED
        self.close(entry)

    def close(self, entry):
        """Takes an act out of those that are open."""
        self.open = [each for each in self.open if each is not entry]

    def accept(self, entry, count):
        """Puts an act at its number. The desk went back if it has given that number before. An act that was open before
        stays so, however many numbers are free between: who has them is not known. If none is free, it has none."""
        self.close(entry)
        if not self.may_have(entry, count):
            self.go_back(count - 1)
        is_between = count < self.last
        self.accepted[count] = entry
        if is_between:
            self.accepted = dict(sorted(self.accepted.items()))
        self.last = max(self.last, count)
        entry.fate = Fate.ACCEPTED
        for each in self.open:
            if each.order > entry.order:
                each.above = max(each.above, count)
            elif each.below is None or each.below > count:
                each.below = count
        for each in self.open:
            if self.numbers_for(each) == []:
                self.refuse(each)

    def go_back(self, count):
        """The desk has no more than so many of the acts."""
        for number in [number for number in self.accepted if number > count]:
            self.accepted.pop(number).fate = Fate.GONE
        self.last = max(self.accepted, default=0)
        for each in self.open:
            if each.above >= count:
                self.refuse(each)
            elif each.below is not None:
                each.below = min(each.below, count + 1)

    def take_found(self, line):
        """It was looked for an act of which no answer is kept. One that was held is so again where it did not come."""
        entry = self.entry(line["number"], Fate.OPEN)
        self.settled[entry.number] = len(self.lines)
        if line["count"] is None:
            self.refuse(entry)
            entry.fate = Fate.HELD if entry.is_held else entry.fate
        elif entry.below is not None and not self.may_have(entry, line["count"]):
            raise UnknownForm
        else:
            self.accept(entry, line["count"])

    def take_dropped(self, line):
        entry = self.entry(line["number"], Fate.HELD, Fate.OPEN)
        self.refuse(entry)
        entry.fate, entry.why_dropped = Fate.DROPPED, line.get("source")

    def take_replaced(self, line):
        if not isinstance(line["source"].get("arrived"), int):
            raise UnknownForm
        fields = {name: line[name] for name in ("login", "ranks", "token")}
        self.replaced.append(Replaced(line["resolution"], fields, line["source"]))

    def take_replay(self, line):
        self.replay = line

    def take_replayed(self, line):
        if self.replay is None:
            raise UnknownForm
        replay, self.replay = self.replay, None
        if not line["is_done"]:
            return
        # The desk was made of what the journal says here.
        self.settled = {}
        self.desk = replay["desk"]
        if replay["without"] is not None:
            self.leave_out(self.entry(replay["without"], *Fate))
        for number, text in replay["answers"].items():
            entry = self.entry(number, Fate.OPEN)
            entry.answer = text
            self.settle(entry, 200 if ACCEPTED.fullmatch(text) else 409, text)

    def leave_out(self, entry):
        """Takes out an act, and lowers the numbers after it."""
        free = self.numbers_for(entry) if entry.fate is Fate.OPEN else None
        self.close(entry)
        place = self.number_of(entry)
        if free and len(free) == 1:
            # An earlier program took it for the one with this number.
            place = free[0]
        if place is not None:
            others = ((number, each) for number, each in self.accepted.items() if each is not entry)
            self.accepted = {number - (number > place): each for number, each in others}
            self.last = max(self.accepted, default=0)
            for each in self.open:
                each.above -= each.above >= place
                each.below = each.below and each.below - (each.below > place)
        entry.fate = Fate.GONE

    def number_of(self, entry):
        """The number that the desk gave an act, or None."""
        return next((number for number, each in self.accepted.items() if each is entry), None)


def line_of(kind, **fields):
    """A line of this kind, in its latest form."""
    line = {"form": FORMS[kind], "line": kind, **fields}
    check_form(line)
    return line


def check_form(line):
    """Looks whether a line has just the fields of its kind, each of its type."""
    if not isinstance(line, dict) or not isinstance(line.get("line"), str) or type(line.get("form")) is not int:
        raise UnknownForm
    fields = LINES.get((line["line"], line["form"]))
    if fields is None or set(line) != {"form", "line", *fields}:
        raise UnknownForm
    if not all(isinstance(line[field], types) for field, types in fields.items()):
        raise UnknownForm
    texts = line.get("fields", {}), line.get("answers", {})
    if not all(isinstance(text, str) for each in texts for text in each.values()):
        raise UnknownForm
