"""Pages of closed votes with what their sheets say: those of examples/votes, and one of a vote whose summaries would
end a title, begin a script and turn the direction of what follows."""
import re
from functools import cached_property
from urllib.parse import quote

from tests.support.html_pages import Page
from tests.support.program import DAY, T0, TOP, Ran, expect, make_desk, run, serve, tool
from tests.support.served_sheets import served

EXAMPLES = TOP / "examples" / "votes"

# Summaries of a vote that goes in a circle, so that each of them stands in a title of the drawing too.
SUMMARIES = [
    "</title><script>document.title='run'</script>",
    "Green \u202egnihtyreve\u2069\u2069 & \"'",
    "<svg onload=document.title='run'> \u05d0\u05d1\u200f --> ]]>",
]
# How each of them has to stand on the page, after its place.
MARKED = [
    "<bdi>&lt;/title&gt;&lt;script&gt;document.title=&#x27;run&#x27;&lt;/script&gt;</bdi>",
    '<bdi>Green <span class="mark">U+202E</span>gnihtyreve<span class="mark">U+2069</span>'
    '<span class="mark">U+2069</span> &amp; &quot;&#x27;</bdi>',
    "<bdi>&lt;svg onload=document.title=&#x27;run&#x27;&gt; \u05d0\u05d1"
    '<span class="mark">U+200F</span> --&gt; ]]&gt;</bdi>',
]
LOGINS = [f"zebra{number}" for number in range(9)]
RANKS = ["1234"] * 4 + ["3124"] * 3 + ["2314"] * 2


class ShownVote:
    """The page of a closed vote, and what its tally and its result say."""

    def __init__(self, ran, tally, result):
        self.ran, self.result = ran, result
        self.text = ran.out.decode()
        self.options = dict(re.findall(r"^Option (\d+): (.*)$", result, re.M))
        self.ballots = ["".join(line) for line in re.findall(r"^V: (\S+) (\S+)$", tally, re.M)]
        self.outcome = self.value("Schwartz").split()

    @cached_property
    def seen(self):
        return Page(self.text)

    def value(self, name):
        """What stands after a name in the result."""
        return re.search(f"^{name}: (.*)$", self.result, re.M)[1]

    def named(self, places):
        return [f"choice {place}, {self.options[place]}" for place in places]

    def pairs(self):
        """How many voters prefer the one option to the other, for each two kept options, both ways."""
        found = {}
        for line in re.findall(r"^Pair (\d+) (\d+): (\d+) (\d+)$", self.result, re.M):
            a, b, count, other = map(int, line)
            found |= {(a, b): count, (b, a): other}
        return found

    def pairs_apart(self):
        """Those of which an option was not kept, counted from the ballots."""
        ranks = "123456789abcdefghijklmnopqrstuvwxyz-".index
        marks = [[ranks(mark) for mark in each[: len(self.options)]] for each in self.ballots]
        places, kept = range(1, len(self.options) + 1), self.pairs()
        apart = [(a, b) for a in places for b in places if a != b and (a, b) not in kept]
        return {(a, b): sum(each[a - 1] < each[b - 1] for each in marks) for a, b in apart}

    def tests(self):
        """What the test of each choice came to, with nothing between its parts."""
        form = r"^Test (\d+): above (\d+), below (\d+), ratio (\d), quorum (\w+), majority (\w+), (\w+)$"
        return {place: "".join(parts) for place, *parts in re.findall(form, self.result, re.M)}

    def rounds(self):
        """The counts of each defeat that a round dropped, by the round and the two options."""
        found = {}
        for number, defeats in re.findall(r"^Round (\d+): drop (.*)$", self.result, re.M):
            for a, b, count, other in re.findall(r"(\d+)>(\d+) (\d+):(\d+)", defeats):
                found[int(number), int(a), int(b)] = count, other
        return found

    def defeats(self):
        """The round that dropped each defeat, or None."""
        pairs, dropped = self.pairs(), {key[1:]: key[0] for key in self.rounds()}
        return {pair: dropped.get(pair) for pair, count in pairs.items() if count > pairs[pair[::-1]]}


def of_example(file):
    """The page of a vote of examples/votes, from its sheets by a port."""
    tally, result = file.read_bytes(), file.with_suffix(".result").read_bytes()
    with served(tally, result) as port:
        ran = tool("page", "--port", port, tally.split()[3].decode())
    return ShownVote(ran, tally.decode(), result.decode())


def of_desk(file):
    """The page of resolution 1 of a desk."""
    sheets = [run(kind, file, 1).out.decode() for kind in ("tally", "result")]
    # What shows nothing itself stands by its number on the page.
    marked = (re.sub("[\u202e\u2069\u200f]", lambda mark: f"U+{ord(mark[0]):04X}", sheet) for sheet in sheets)
    return ShownVote(tool("page", file, 1), *marked)


def desk_with_strange_summaries(work):
    """A desk on which resolution 1 has these summaries, and is closed. Gives it with its page by a port."""
    file, csv = work / "strange.db", work / "strange.csv"
    make_desk(file)
    csv.write_text("login,name,status\n" + "".join(f"{login},Name of {login},current\n" for login in LOGINS))
    expect("import", run("import", file, csv, "--at", T0), Ran(0, b"ok 1 added 9 changed 0 same 0\n", b""))
    forms = [f"author=@leader&summary={quote(summary, safe='')}&text=x&ratio=1" for summary in SUMMARIES]
    with serve(file, 3, "--at", T0) as desk:
        desk.accepts("/resolutions", forms[0], "ok 2 resolution 1")
        for number, form in enumerate(forms[1:], start=2):
            desk.accepts("/resolutions/1/choice", form, f"ok {number + 1} choice {number}")
        desk.ended()
    with serve(file, 10, "--at", T0 + 14 * DAY) as desk:
        desk.accepts("/resolutions/1/call", "days=7", f"ok 5 places 4 until {T0 + 21 * DAY}")
        for login, ranks in zip(LOGINS, RANKS):
            desk.ask("POST", "/resolutions/1/vote", f"login={login}&ranks={ranks}&token=secret{login}")
        desk.ended()
    with serve(file, 5, "--at", T0 + 21 * DAY) as desk:
        desk.accepts("/resolutions/1/close", "", "ok 15")
        by_port = tool("page", "--port", desk.port, 1)
        # The close and the four sheets of the page are all that it takes.
        expect("serve", desk.ended(), Ran(0, b"", b""))
    return file, by_port
