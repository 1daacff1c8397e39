"""What a sentence of tools/grdesk/acts/explanation.py or tools/grdesk/acts/refusal.py promises, by the refusal, and a
look at each promise: copies of the desk are asked, which accept or refuse further acts as the sentence says."""
import re
import subprocess
import sys
from urllib.parse import quote

from tests.support.program import TOP, copy_desk, expect, fail, make_desk, request, run

sys.path.insert(0, str(TOP / "tools"))
from grdesk.acts.act import ACTS, SECRET  # noqa: E402
from grdesk.acts.refusal import MEANINGS, ends_too_soon  # noqa: E402
from grdesk.acts.situation import DeskView, Situation  # noqa: E402
from grdesk.desk.program import program  # noqa: E402
from grdesk.desk.sheet import FileSheets  # noqa: E402

LATEST = 4_102_444_799


class Desk:
    """A desk in a file, and what it was asked."""

    def __init__(self, work):
        self.file = work / "desk.db"
        self.copy = work / "copy.db"
        self.probes = 0
        make_desk(self.file)

    def answer(self, file, at, act):
        """The line of the answer to an act, as the sentences are made of: status and body."""
        name, number, values = act
        path = ACTS[name][0].replace("{r}", str(number))
        line = [program(), "once", file, "--at", str(at)]
        ran = subprocess.run(line, input=request("POST", path, form(values)), capture_output=True, check=False)
        head, _, body = ran.stdout.decode().partition("\r\n\r\n")
        return int(head.split()[1]), body

    def tried(self, at, act, *before):
        """The name of what a copy of the desk answers to an act, after others at the same moment."""
        copy_desk(self.file, self.copy)
        for each in before:
            expect(f"{each} before {act}", self.answer(self.copy, at, each)[0], 200)
        self.probes += 1
        return name_of(self.answer(self.copy, at, act)[1])

    def case(self, at, act, kind=FileSheets):
        """The act as it is explained, with the desk by its file, or as another kind sees it."""
        name, number, values = act
        copy = str(copy_desk(self.file, self.file.with_suffix(".seen")))
        seen = DeskView(lambda: kind(copy, str(self.file)), {})
        return Situation(name, number, {field: text.encode() for field, text in values.items()}, at, seen)


def form(values):
    if "roll" in values:
        return values["roll"]
    return "&".join(f"{field}={quote(text, safe='')}" for field, text in values.items())


def name_of(line):
    """The name of a refusal, or what else the line begins with."""
    words = line.split()
    return words[2] if words[0] == "refused" else words[0]


# What a sentence promises, by the refusal, as a form with the numbers of the promise, and a look at it.


def found_in(message, pattern):
    found = re.search(pattern, message)
    if not found:
        fail(f"the sentences\n{message}\ndo not say {pattern}")
    return [text and int(text) for text in found.groups()]


def holds(desk, at, act, expected, *before):
    """A copy of the desk refuses an act so, or not so."""
    name, is_refused = expected
    found = desk.tried(at, act, *before)
    if (found == name) != is_refused:
        fail(f"{act} at {at} is {found}, and {'must' if is_refused else 'must not'} be {name}")


def look_from(name, pattern):
    """Refused so before a moment, and not so from then on."""

    def look(desk, at, act, message):
        [moment] = found_in(message, pattern)
        holds(desk, moment - 1, act, (name, True))
        holds(desk, moment, act, (name, False))

    return look


def look_at_too_early(desk, at, act, message):
    if "takes no act that late" in message:
        holds(desk, LATEST, act, ("TooEarly", True))
    else:
        look_from("TooEarly", r"ends \S+ \((\d+)\); possible from then on")(desk, at, act, message)


def look_before(name):
    """Not refused so at the dates that are named, and at no other one that the desk takes."""

    def look(desk, at, act, message):
        if "no date would do" in message:
            [clock] = found_in(message, r"any more: the desk's clock is at \S+ \((\d+)\)")
            holds(desk, clock, act, (name, True))
            holds(desk, clock - 1, act, ("ClockBack", True))
        else:
            first, last = found_in(message, r"only a date from \S+ \((\d+)\) to \S+ \((\d+)\) would do")
            for moment in first, last:
                holds(desk, moment, act, (name, False))
            holds(desk, last + 1, act, (name, True))
            holds(desk, first - 1, act, ("ClockBack", True))

    return look


def changed(act, **values):
    name, number, old = act
    return name, number, old | values


def look_at_edges(refusal, **edges):
    """Fields that are taken up to an edge, and not beyond it."""

    def look(desk, at, act, message):
        fields = [field for field in edges if field in act[2]]
        act = changed(act, **{field: edges[field][0][0] for field in fields})
        for field in fields:
            for texts, is_refused in zip(edges[field], (False, True)):
                for text in texts:
                    holds(desk, at, changed(act, **{field: text}), (refusal, is_refused))

    return look


def look_at_days(desk, at, act, message):
    most, beyond = (7, 8) if act[0] == "vary" else (21, 22)
    least, below = (-7, -8) if act[0] == "vary" else (7, 6)
    for days, is_refused in (least, False), (most, False), (below, True), (beyond, True):
        holds(desk, at, changed(act, days=str(days)), ("BadDays", is_refused))


class SheetsAlone(FileSheets):
    """A desk whose rows are not seen, as by a port."""

    def rows(self):
        return None


def days_in(message):
    """The days of which a sentence says that they would do."""
    first, last = found_in(message, r"days=(-?\d+)(?: to (-?\d+))? would do")
    return range(first, (first if last is None else last) + 1)


def look_at_end(desk, at, act, message):
    fit = [] if "no days would do" in message else days_in(message)
    for days in range(-7, 8):
        holds(desk, at, changed(act, days=str(days)), ("EndsTooSoon", days not in fit))
    by_port = ends_too_soon(desk.case(at, act, SheetsAlone))
    surely = [] if by_port is None else days_in(by_port)
    expect(f"the days of {act} that do for sure, which a port tells", [days for days in surely if days not in fit], [])


def act_in(name, number):
    """An act with fields that have their form, of a choice that each resolution has."""
    values = {
        "choice": "1",
        "login": "d1",
        "author": "@leader",
        "minor": "1",
        "summary": "S",
        "text": "T",
        "ratio": "1",
        "days": "7",
        "place": "1",
        "ranks": "1",
        "token": "tokenA01",
    }
    return name, number, {field: values[field] for field in fields_of(name)}


def fields_of(name):
    return [*ACTS[name][1], *(SECRET if name == "vote" else [])]


def look_at_stage(desk, at, act, message):
    acts = re.search("which takes (.*)", message)[1].split(", ")
    for name, (path, _) in ACTS.items():
        if "{r}" in path:
            holds(desk, at, act_in(name, act[1]), ("WrongStage", name not in acts))


def look_at_numbers(desk, at, act, message):
    last = 1 if "choice 1 alone" in message else found_in(message, r"has the (?:choices|places) 1 to (\d+)")[0]
    field = "place" if act[0] == "cast" else "choice"
    for number, is_refused in (1, False), (last, False), (last + 1, True), (0, True):
        holds(desk, at, changed(act, **{field: str(number)}), ("NoChoice", is_refused))


def look_at_ranks(desk, at, act, message):
    count, given = found_in(message, r"has (\d+) places, and the ranks have (\d+) character")
    expect("the characters that were given", given, len(act[2]["ranks"]))
    for number, is_refused in (count, False), (count - 1, True), (count + 1, True):
        holds(desk, at, changed(act, ranks="1" * number), ("BadRanks", is_refused))


def look_at_places(desk, at, act, message):
    result = run("result", desk.file, act[1]).out.decode()
    count = len(re.findall("^Option ", result, re.M))
    if "has won" in message:
        places = []
        expect("the winner", f"Winner: {found_in(message, r'place ([0-9]+) has won')[0]}", result.splitlines()[-1])
    else:
        places = [int(place) for place in re.search("are level: (.*)", message)[1].split(", ")]
    for place in range(1, count + 1):
        holds(desk, at, changed(act, place=str(place)), ("NotTied", place not in places))


def logins(desk):
    return re.findall("^D: (\\S+) ", run("roll", desk.file).out.decode(), re.M)


def look_at_sponsors(desk, at, act, message):
    sponsors = re.search("the sponsors of choice [0-9]+ are: (.*)", message)[1].split(", ")
    for login in logins(desk):
        holds(desk, at, changed(act, login=login), ("NotSponsor", login not in sponsors))


def of_choice(name, act, **values):
    """Another act on the choice of an act."""
    return name, act[1], {"choice": act[2]["choice"]} | values


def look_at_already(desk, at, act, message):
    if act[0] == "cast":
        last = run("result", desk.file, act[1]).out.decode().splitlines()[-1]
        expect("the casting vote", last.endswith(" by casting vote"), True)
        return
    login = act[2]["login"]
    is_sponsor = re.search(f"^{login} (sponsors|proposes) choice {act[2]['choice']}$", message, re.M)[1] == "sponsors"
    holds(desk, at, of_choice("unsponsor", act, login=login), ("NotSponsor", not is_sponsor))
    if not is_sponsor:
        holds(desk, at, of_choice("withdraw", act), ("NoProposer", False))


def look_at_proposer(desk, at, act, message):
    proposer = re.search("choice [0-9]+ is proposed by (?:the )?(.*)$", message, re.M)[1]
    status = run("status", desk.file, act[1]).out.decode()
    lines = re.findall("^Proposer: (?:developer )?(.*)$", status, re.M)
    expect("the proposer", proposer, lines[int(act[2]["choice"]) - 1])
    holds(desk, at, of_choice("withdraw", act), ("NoProposer", False))


def look_at_no_proposer(desk, at, act, message):
    holds(desk, at, of_choice("adopt", act, author="@leader"), ("HasProposer", False))


def roll_act(login, name="N"):
    return "developer", None, {"login": login, "name": name, "status": "current"}


def look_at_developer(name):
    """Refused so no more, once the developer is current on the roll."""

    def look(desk, at, act, message):
        login = act[2].get("login") or act[2]["author"]
        expect("the login", login in message, True)
        holds(desk, at, act, (name, False), roll_act(login))

    return look


def look_at_clock_back(desk, at, act, message):
    """Where an act is said to be possible at the desk's clock, the desk takes it then. Otherwise it is refused as is
    said, and what is said of that refusal holds too."""
    refused = re.search(r"at the desk's clock, \S+ \((\d+)\), it would be refused too: (\w+): (.*)", message, re.DOTALL)
    pattern = r"possible from \S+ \((\d+)\) on"
    moment = int(refused[1]) if refused else found_in(message, pattern)[0]
    holds(desk, moment - 1, act, ("ClockBack", True))
    expect(f"{act} at {moment}", desk.tried(moment, act), refused[2] if refused else "ok")
    if refused:
        meaning = MEANINGS[refused[2]]
        expect("what it means", refused[3][: len(meaning)], meaning)
        PROMISES[refused[2]](desk, moment, act, refused[3][len(meaning) :].removeprefix("; "))


def look_at_nothing(desk, at, act, message):
    """What promises nothing that the desk could answer."""


LONG, TOO_LONG = "l" * 32, "l" * 33
PROMISES = {
    "BadMoment": lambda desk, at, act, message: [
        holds(desk, moment, act, ("BadMoment", moment in (0, LATEST + 1))) for moment in (0, 1, LATEST, LATEST + 1)
    ],
    "ClockBack": look_at_clock_back,
    "BadLogin": look_at_edges(
        "BadLogin",
        login=([LONG, "0.-_"], [TOO_LONG, ".a", "A", ""]),
        author=([LONG, "0.-_"], [TOO_LONG, ".a", "A", ""]),
    ),
    "BadText": look_at_edges(
        "BadText",
        name=(["ä" * 80], ["ä" * 81, "", "a\tb"]),
        summary=(["ä" * 80], ["ä" * 81, "", "a\x9f"]),
        text=(["ä" * 10_000, "\t\r\n"], ["a" * 20_001, "", "a\x7f"]),
    ),
    "BadRatio": look_at_edges("BadRatio", ratio=(["1", "9"], ["0", "10"])),
    "BadDays": look_at_days,
    "BadToken": look_at_edges("BadToken", token=(["aZ0aZ0aZ", "a" * 64], ["a" * 7, "a" * 65, "tokenA0-", ""])),
    "Full": look_at_nothing,
    "NoResolution": look_at_nothing,
    "NoChoice": look_at_numbers,
    "WrongStage": look_at_stage,
    "Ended": look_before("Ended"),
    "TooEarly": look_at_too_early,
    "NoDeveloper": look_at_developer("NoDeveloper"),
    "NotCurrent": look_at_developer("NotCurrent"),
    "Lapsed": look_before("Lapsed"),
    "Already": look_at_already,
    "NotSponsor": look_at_sponsors,
    "HasProposer": look_at_proposer,
    "NoProposer": look_at_no_proposer,
    "EndsTooSoon": look_at_end,
    "BadRanks": look_at_ranks,
    "NotTied": look_at_places,
    "BadRoll": look_at_nothing,
}
