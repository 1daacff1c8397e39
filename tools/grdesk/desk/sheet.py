"""The sheets of a desk for the tools beside this file: where they are read, what their lines say, and how what a desk
says is shown. docs/formats.md has the forms of the lines."""
import re
import subprocess
from contextlib import contextmanager
from typing import NamedTuple, Optional

from grdesk.dates import moment_of
from grdesk.desk.address import add_address, address_of, given_address
from grdesk.desk.copy import NO_FILE, copied_again, copy_desk, desk_at, log_of, private_folder, room_of
from grdesk.desk.digest import digests_of
from grdesk.desk.limit import REMEDY
from grdesk.desk.program import program
from grdesk.desk.request import NoResponse, answer_in, exchange, request_of
from grdesk.desk.row import header_in, rows_in
from grdesk.error import Failed, Refused, Wrong
from grdesk.output import counted, hand_on, shown

# How long an answer may take, in seconds: others may be served before, and silent ones for five seconds each.
PATIENCE = 60

NO_RESOLUTION = "refused 9 NoResolution"

# How many copies of a desk there are at most for its sheets: one, and that for a trial.
COPIES = 2


class NotGiven(Refused):
    """The desk refuses a sheet, by this line."""


class ServedSheets:
    """The sheets of the desk that `serve` holds. Each is one request, and so one of the connections that it counts."""

    def __init__(self, address):
        self.address = address
        self.requests = 0

    def header(self):
        """None, since no sheet reports the desk's clock, or how many acts it accepted."""
        return None

    def rows(self):
        """None, since the sheets do not tell all of the rows."""
        return None

    def tried(self, request, at):
        """None, since what is sent to a port is done."""
        return None

    def sheet(self, *words):
        try:
            status, body = exchange(self.address, request_of("GET", "/" + "/".join(map(str, words))), PATIENCE)
        except NoResponse as error:
            self.requests += error.was_connected
            message = f"{self.address} gave no sheet, after {counted(self.requests, 'connection')}"
            raise Failed(f"{message}: {error}") from None
        self.requests += 1
        if status not in (200, 409, 503):
            raise Failed(f"what listens on {self.address.name} is no desk, and answered status {status}")
        return answer_of(status == 200, status == 409, body)


class FileSheets:
    """The sheets of a desk in a file, as they were at one moment: they are read from one copy of it. The program runs
    once for each."""

    def __init__(self, copy, name):
        self.copy = copy
        self.name = name
        # What the program answered, by its words.
        self.answers = {}

    def digests(self):
        return digests_of(self.copy, log_of(self.copy))

    def header(self):
        return header_in(self.copy, self.name)

    def rows(self):
        """The rows of the tables."""
        return rows_in(self.copy, self.name)

    def tried(self, request, at):
        """What the desk would answer to a request at a moment, or None where a further copy does not tell."""
        line = [program(), "once", copied_again(self.copy, "tried"), "--at", str(at)]
        return answer_in(subprocess.run(line, input=request, capture_output=True, check=False).stdout)

    def sheet(self, *words):
        if words not in self.answers:
            self.answers[words] = self.run(*words)
        return answer_of(*self.answers[words])

    def run(self, kind, *number):
        """What the program answers: whether it is a sheet, whether it is a refusal, and its bytes."""
        line = [program(), kind, self.copy, *map(str, number)]
        try:
            ran = subprocess.run(line, stdin=subprocess.DEVNULL, capture_output=True, check=False)
        except OSError as error:
            raise Failed(f"{line[0]} cannot be run: {error.strerror}") from None
        if ran.stderr == NO_FILE:
            raise Failed(f"no file: {self.copy}, the private copy of {self.name}, was removed")
        if ran.returncode not in (0, 1) and not self.answers:
            hand_on(ran.stderr)
            raise Failed(f"{self.name} does not open")
        return ran.returncode == 0, ran.returncode == 1, ran.stdout or ran.stderr


def answer_of(is_given, is_refused, answer):
    """The text of a sheet; else what was answered says why there is none."""
    try:
        text = answer.decode()
    except UnicodeDecodeError:
        raise Failed("a sheet is no UTF-8, so what answers is no desk") from None
    if is_given:
        return text
    if is_refused and re.fullmatch("refused [0-9]+ [A-Za-z]+\n", text):
        raise NotGiven(text.removesuffix("\n"))
    hand_on(shown(text.removesuffix("\n")).encode() + b"\n")
    raise Failed("the desk gave no sheet, and said what is above")


def add_desk(parser):
    """Takes the words that name a desk: its file, or where the `serve` is reached that holds it."""
    parser.add_argument("desk", metavar="DESK", nargs="?", help="the file of the desk; not with --port or --socket")
    add_address(parser)


@contextmanager
def sheets_of(arguments):
    """The sheets of the desk that the words name."""
    if arguments.desk is None:
        yield ServedSheets(address_of(arguments))
        return
    if address := given_address(arguments):
        raise Wrong(f"a DESK and a {address.option} are given: one of them says which desk")
    file = desk_at(arguments.desk)
    with private_folder(room=room_of(file, COPIES)) as folder:
        copy = str(folder / "desk")
        copy_desk(file, copy)
        yield FileSheets(copy, arguments.desk)


# What the lines say.


class SheetLines:
    """The lines of a sheet, from the first one on."""

    def __init__(self, what, text):
        self.what = what
        if not text.endswith("\n"):
            raise Failed(f"{what} has no end")
        self.lines = text.split("\n")[:-1]
        self.at = 0

    def find(self, pattern):
        """Takes the next line where it has this form."""
        found = self.at < len(self.lines) and re.fullmatch(pattern, self.lines[self.at], re.ASCII | re.DOTALL)
        if found:
            self.at += 1
        return found

    def take(self, pattern):
        """Takes the next line, which has to have this form."""
        found = self.find(pattern)
        if not found:
            raise Failed(f"line {self.at + 1} of {self.what} does not fit such a sheet, so what answers is no desk")
        return found

    def all(self, pattern):
        """Takes each line that has this form."""
        found = []
        while line := self.find(pattern):
            found.append(line)
        return found

    def end(self):
        if self.at < len(self.lines):
            raise Failed(f"line {self.at + 1} of {self.what} does not fit such a sheet, so what answers is no desk")


NUMBER = "(0|[1-9][0-9]{0,9})"
TIME = "([0-9]{4}-[0-9]{2}-[0-9]{2}T[0-9]{2}:[0-9]{2}:[0-9]{2}Z)"
SOME_TIME = f"(?:{TIME}|no)"


def outcome_in(lines):
    """The places of the outcome set, from the line of a result that comes next."""
    return [int(place) for place in lines.take("Schwartz: ([0-9]+(?: [0-9]+)*)")[1].split()]


class Outcome(NamedTuple):
    """The places of the outcome set of a closed vote, and whether the casting vote has to choose among them."""

    places: list
    is_open: bool


def outcome_of(number, text):
    lines = SheetLines(f"the result of resolution {number}", text)
    lines.all("(?!Schwartz: ).*")
    return Outcome(outcome_in(lines), bool(lines.find("Casting vote needed")))


class Developer(NamedTuple):
    """A developer of the roll."""

    login: str
    is_current: bool
    name: str


def roll_of(text):
    """The developers of the roll."""
    lines = SheetLines("the roll", text)
    lines.take(f"Developers: {NUMBER}")
    lines.take(f"Current: {NUMBER}")
    found = lines.all(r"D: (\S+) (current|retired) (.*)")
    lines.end()
    return [Developer(line[1], line[2] == "current", line[3]) for line in found]


class Choice(NamedTuple):
    """A choice of a resolution; its moments are None for none, and its place is. Its text is given by its lines."""

    number: int
    summary: str
    ratio: int
    proposer: str
    sponsors: list
    introduced: Optional[int]
    short: Optional[int]
    place: Optional[int]
    text: list

    @property
    def developer(self):
        """The login of the developer who proposes it, or None."""
        kind, _, login = self.proposer.partition(" ")
        return login if kind == "developer" else None

    @property
    def lapse(self):
        """When a short choice lapses, unless it gets what it lacks before then (Constitution, A.2.3), or None."""
        return None if self.short is None else self.short + REMEDY


class Status(NamedTuple):
    """A resolution. Its spans are two moments, or None where its stage has none; so are the developers of its call."""

    number: int
    stage: str
    discussion: Optional[tuple]
    voting: Optional[tuple]
    developers: Optional[int]
    choices: list


def status_of(number, text):
    lines = SheetLines(f"the status of resolution {number}", text)
    lines.take(f"Resolution {number}")
    stage = lines.take("Stage: (Draft|Discussing|Voting|Closed|Cancelled)")[1]
    spans = [lines.find(f"{word}: {TIME} to {TIME}") for word in ("Discussion", "Voting")]
    developers = lines.find(f"Developers: {NUMBER}")
    discussion, voting = (span and (moment_of(span[1]), moment_of(span[2])) for span in spans)
    choices = []
    while head := lines.find(f"Choice {NUMBER}: (.*)"):
        choices.append(choice_of(int(head[1]), head[2], lines))
    lines.end()
    return Status(number, stage, discussion, voting, developers and int(developers[1]), choices)


def choice_of(number, summary, lines):
    ratio = int(lines.take("Ratio: ([1-9])")[1])
    proposer = lines.take("Proposer: (developer .+|leader|committee|none)")[1]
    sponsors = lines.take(f"Sponsors: {NUMBER}((?: [^ ]+)*)")[2].split()
    introduced = moment_of(lines.take(f"Introduced: {SOME_TIME}")[1])
    short = moment_of(lines.take(f"Short since: {SOME_TIME}")[1])
    place = lines.take(f"Place: (?:{NUMBER}|none)")[1]
    text = [line[1] for line in lines.all(r"\| (.*)")]
    return Choice(number, summary, ratio, proposer, sponsors, introduced, short, place and int(place), text)


def statuses_of(desk):
    """Each resolution of a desk, in the order of their numbers."""
    number = 1
    while True:
        try:
            text = desk.sheet("status", number)
        except NotGiven as refusal:
            if str(refusal) != NO_RESOLUTION:
                raise
            return
        yield status_of(number, text)
        number += 1


# How what a desk says is shown.

def proposer_of(choice):
    if choice.developer is not None:
        return f"proposed by {shown(choice.developer)}"
    return "nobody proposes it" if choice.proposer == "none" else f"proposed by the {choice.proposer}"
