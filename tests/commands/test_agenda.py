"""Holds what gr-desk agenda says against the desk's own answers. Over rolls of many sizes a choice is introduced with
as many sponsors as it says, and not with one less. Over desks with resolutions of each stage, at many moments, the desk
accepts a call or a close just where the agenda says so, and places the choices that it names. One second before a
moment that is to come the desk answers otherwise than at it. A casting vote is taken for the places that are named, and
for no other. Before the desk's clock it takes no act, and the agenda warns. The agenda of a file and that over HTTP are
one."""
import re
import subprocess
import time

from tests.commands.agenda_runs import agenda, agenda_of, sections
from tests.support.case import Case
from tests.support.program import DAY, T0, Ran, build, compile_tools, copy_desk, expect, fail, make_desk, once, request
from tests.support.program import run, serve

# How many sponsors reach K, by the number of developers, written by hand: half of the square root, which is not
# rounded, and 5 at most.
SPONSORS = {0: 0, 1: 1, 4: 1, 5: 2, 16: 2, 17: 3, 36: 3, 37: 4, 64: 4, 65: 5, 100: 5, 101: 5, 2_000: 5}
RED = "author=d1&summary=Red&text=r&ratio=1"
LEADER = "author=@leader&summary=Green&text=g&ratio=1"
HALF = DAY // 2
BACK = "refused 2 ClockBack"
LATER = f"until then each act without --at is {BACK}"
NOTHING = [f"nothing, since each act at this moment is {BACK}"]


def import_roll(file, current, retired=0):
    rows = [f"d{n},A Name,{'current' if n <= current else 'retired'}\n" for n in range(1, current + retired + 1)]
    csv = file.with_suffix(".csv")
    csv.write_text("login,name,status\n" + "".join(rows))
    line = f"ok 1 added {current + retired} changed 0 same 0\n"
    expect("import", run("import", file, csv, "--at", T0), Ran(0, line.encode(), b""))


def do(file, at, *acts):
    """Has the desk accept these acts, each a path below /resolutions and a form."""
    with serve(file, len(acts), "--at", at) as desk:
        for path, form in acts:
            status, line = desk.ask("POST", f"/resolutions{path}", form)
            if status != 200:
                fail(f"{path} with {form} at {at}: {line}")
        desk.ended()


def answer(file, at, path, form):
    """What a copy of the desk answers to an act at a moment: its line."""
    copy = copy_desk(file, file.with_name("copy.db"))
    ran = run("once", copy, "--at", at, given=request("POST", f"/resolutions{path}", form))
    return ran.out.decode().rpartition("\r\n\r\n")[2].removesuffix("\n")


class Sponsors(Case):
    @classmethod
    def setUpClass(cls):
        build()
        compile_tools()

    def test_a_choice_is_introduced_with_just_as_many_sponsors_as_the_agenda_says(self):
        for current, sponsors in SPONSORS.items():
            with self.subTest(current=current):
                self.look_at_roll(current, sponsors)

    def look_at_roll(self, current, sponsors):
        """A roll with so many current developers, of which a choice needs so many sponsors."""
        file = self.folder() / "roll.db"
        make_desk(file)
        # One proposes it and may be retired after that, so that few developers are current.
        import_roll(file, max(current, 1), min(3, 2_000 - current))
        with serve(file, 99, "--at", T0) as desk:
            desk.accepts("/resolutions", RED, "ok 2 resolution 1")
            if current == 0:
                desk.accepts("/developers", "login=d1&name=A&status=retired", "ok 3")
            self.assertIn(f"sponsors: has 0, needs {sponsors}\n", agenda_of(file, T0))
            for has in range(1, 1 + min(sponsors, current - 1)):
                desk.accepts("/resolutions/1/sponsor", f"choice=1&login=d{has + 1}", f"ok {has + 2}")
                text = agenda_of(file, T0)
                said = f"sponsors: has {has}, needs {sponsors}\n" in text, "not introduced" not in text
                self.assertEqual(said, (True, has == sponsors), f"{has} sponsors")
                stage = desk.ask("GET", "/status/1")[1].split("\n")[1]
                self.assertEqual(stage, f"Stage: {'Discussing' if has == sponsors else 'Draft'}")


def make_first_desk(file):
    """Discussions with each cause of another end, choices that are short, and a draft."""
    make_desk(file)
    import_roll(file, 16)
    leader = [("", LEADER)] * 6
    sponsors = [("/1/sponsor", "choice=1&login=d2"), ("/1/sponsor", "choice=1&login=d3")]
    do(file, T0, ("", RED), *sponsors, *leader, ("", RED), ("/8/sponsor", "choice=1&login=d2"))
    do(file, T0, ("/2/vary", "days=-7"), ("/3/choice", RED), ("/1/choice", LEADER))
    do(file, T0 + 2 * DAY, ("/1/unsponsor", "choice=1&login=d3"), ("/4/withdraw", "choice=1"))
    do(file, T0 + 2 * DAY, ("/3/choice", LEADER), ("/5/vary", "days=7"))


def make_second_desk(file):
    """The same desk later: polls in their time and after it, and a choice whose lapse falls after the end."""
    do(file, T0 + 10 * DAY, ("/6/amend", "choice=1&minor=0&summary=Grey&text=x"))
    do(file, T0 + 13 * DAY + HALF, ("/7/withdraw", "choice=1"))
    do(file, T0 + 14 * DAY, ("/1/call", "days=7"), ("/2/call", "days=21"))


def make_third_desk(file):
    """A vote that is closed and level, one that has a winner, and one that was cancelled."""
    do(file, T0 + 15 * DAY, ("/4/call", "days=7"), ("/7/call", "days=7"), ("/3/call", "days=7"))
    do(file, T0 + 15 * DAY, *(("/3/vote", f"login=d{number}&ranks=112&token=tokenA01") for number in range(1, 13)))
    do(file, T0 + 22 * DAY, ("/1/close", ""), ("/3/close", ""))


RESOLUTIONS = range(1, 9)
LAPSE = 14 * DAY + HALF
# At which moments each of the desks is looked at, from T0 on.
SPANS = {
    "first": [2 * DAY, 3 * DAY - 1, 3 * DAY, 7 * DAY - 1, 7 * DAY, 14 * DAY - 1, 14 * DAY, 21 * DAY],
    "second": [14 * DAY, LAPSE - 1, LAPSE, 17 * DAY - 1, 17 * DAY, 21 * DAY - 1, 21 * DAY, 40 * DAY],
    "third": [22 * DAY, 35 * DAY - 1, 35 * DAY],
}
MOMENTS = [(name, T0 + span) for name, spans in SPANS.items() for span in spans]
ENDS_OF_VOTING = [
    "2026-01-22T00:00:00Z (1769040000) the voting on resolution 1 ends, and it may be closed",
    "2026-02-05T00:00:00Z (1770249600) the voting on resolution 2 ends, and it may be closed",
]
FIRST = """Agenda of 2026-01-03T12:00:00Z (1767441600): 16 current developers, 8 resolutions, 8 of them open

May be done now:
    nothing

Comes next:
    2026-01-04T00:00:00Z (1767484800) choice 1 of resolution 1 lapses, unless it gets 1 more sponsor before
    2026-01-04T00:00:00Z (1767484800) choice 1 of resolution 4 lapses, unless it gets a proposer, and 2 sponsors if a \
developer proposes it before
    2026-01-08T00:00:00Z (1767830400) the discussion of resolution 2 ends, and it may be called
    2026-01-15T00:00:00Z (1768435200) the discussion of resolution 1 ends, and it may be called
"""
PART = """
Resolution 1: Discussing
    Discussion: 2026-01-01T00:00:00Z (1767225600) to 2026-01-15T00:00:00Z (1768435200)
    Choice 1: Red
        proposed by d1; sponsors: has 1, needs 2
        short since 2026-01-03T00:00:00Z (1767398400), and lapses 2026-01-04T00:00:00Z (1767484800)
    Choice 2: Green
        proposed by the leader; sponsors: has 0, needs none

Resolution 2: Discussing
"""


def places_of(text, number):
    """The places among which the casting vote is said to choose."""
    found = re.search(f"^    resolution {number} waits for the casting vote among places (.*)$", text, re.M)
    return [int(place) for place in found[1].split(", ")] if found else []


def probe_of(what):
    """An act by which a moment that is to come is looked at: its path and form, and how the line begins before it and
    from then on. None where the sentence is of no such form."""
    if found := re.match("choice ([0-9]+) of resolution ([0-9]+) lapses, unless it gets (.*) before$", what):
        # One who sponsors nothing else here; a choice that nobody proposes takes a sponsor as well.
        return f"/{found[2]}/sponsor", f"choice={found[1]}&login=d9", "ok ", "refused 16 Lapsed"
    if found := re.match("the discussion of resolution ([0-9]+) ends, and it may be called$", what):
        return f"/{found[1]}/call", "days=7", "refused 13 TooEarly", "ok "
    if found := re.match("the voting on resolution ([0-9]+) ends, and it may be closed$", what):
        return f"/{found[1]}/close", "", "refused 13 TooEarly", "ok "
    return None


class Moments(Case):
    """Three desks with resolutions of each stage."""

    @classmethod
    def setUpClass(cls):
        build()
        compile_tools()
        cls.work = work = cls.shared_folder()
        cls.files = {name: work / f"{name}.db" for name in SPANS}
        make_first_desk(cls.files["first"])
        make_second_desk(copy_desk(cls.files["first"], cls.files["second"]))
        make_third_desk(copy_desk(cls.files["second"], cls.files["third"]))
        cls.texts = {}

    def text(self, name, at):
        """The agenda of a desk at a moment, which is asked for once."""
        if (name, at) not in self.texts:
            self.texts[name, at] = agenda_of(self.files[name], at)
        return self.texts[name, at]

    def test_the_status_says_whether_something_may_be_done(self):
        for name, at in MOMENTS:
            with self.subTest(desk=name, at=at):
                text = self.text(name, at)
                now = sections(text)[0]
                is_due = any(not line.startswith("nothing, ") and " can never " not in line for line in now)
                ran = agenda(self.files[name], "--due", "--at", at)
                self.assertEqual(ran[:2], (4 * is_due, text.encode()))

    def test_the_desk_accepts_a_call_or_a_close_just_where_the_agenda_says_so_and_no_other_casting_vote(self):
        asked = calls = 0
        for name, at in MOMENTS:
            with self.subTest(desk=name, at=at):
                text = self.text(name, at)
                copy = copy_desk(self.files[name], self.work / "copy.db")
                with serve(copy, 99, "--at", at) as desk:
                    for path, form, is_said in self.asked(text):
                        line = desk.ask("POST", f"/resolutions{path}", form)[1].removesuffix("\n")
                        asked += 1
                        calls += is_said and path.endswith("/call")
                        with self.subTest(path=path, form=form):
                            self.look_at_answer(text, path, line, is_said)
        self.assertTrue(asked and calls, (asked, calls))

    def test_the_desk_takes_a_casting_vote_for_each_place_that_the_agenda_names(self):
        casts = 0
        for name, at in MOMENTS:
            text = self.text(name, at)
            for number, place in [(number, place) for number in RESOLUTIONS for place in places_of(text, number)]:
                with self.subTest(desk=name, at=at, resolution=number, place=place):
                    casts += 1
                    message = answer(self.files[name], at, f"/{number}/cast", f"place={place}")
                    self.assertEqual(message[:3], "ok ")
        self.assertTrue(casts)

    def asked(self, text):
        """Acts, and whether the agenda says that they may be done. Those that the desk must refuse come first, since
        the others change something."""
        now = sections(text)[0]
        for number in RESOLUTIONS:
            places = places_of(text, number)
            yield from ((f"/{number}/cast", f"place={place}", False) for place in range(1, 5) if place not in places)
        for number in RESOLUTIONS:
            for act, word, form in ("call", "called", "days=14"), ("close", "closed", ""):
                said = [each for each in now if each.startswith(f"resolution {number} may be {word}, ")]
                yield f"/{number}/{act}", form, bool(said)

    def look_at_answer(self, text, path, line, is_said):
        self.assertEqual(line.startswith("ok "), is_said, f"{line}, where the agenda is\n{text}")
        if path.endswith("/call") and is_said:
            self.look_at_ballot(text, path.split("/")[1], line)

    def look_at_ballot(self, text, number, line):
        """What a call places is what is said."""
        part = text.partition(f"\nResolution {number}: ")[2].partition("\nResolution ")[0]
        ballot = re.search("    A call now would place (.*)\n", part)[1]
        if ballot == "no choice":
            cancels = f"^    resolution {number} may be called, .* so that cancels it$"
            is_said = re.search(cancels, text, re.M) is not None
            self.assertEqual((line.endswith(" cancelled"), is_said), (True, True), f"call of {number}")
        else:
            count = int(line.split()[3]) - 1
            self.assertEqual(ballot.split()[0], "choice" if count == 1 else "choices", f"choices of {number}")
            self.assertEqual(count, len(ballot.split(", ")), f"places of {number}")

    def test_at_a_moment_that_is_to_come_the_desk_answers_otherwise_than_a_second_before(self):
        # What was said before of the same desk was looked at before.
        seen = set()
        for name, at in MOMENTS:
            coming = sections(self.text(name, at))[1]
            with self.subTest(desk=name, at=at):
                passed = [line for line in coming if int(line.split("(")[1].split(")")[0]) <= at]
                self.assertEqual(passed, [], "what comes next, and does not lie after this moment")
            for line in [line for line in coming if (name, line) not in seen]:
                seen.add((name, line))
                with self.subTest(desk=name, at=at, line=line):
                    self.look_at_next(self.files[name], line)
        self.assertTrue(seen, "moments that are to come")

    def look_at_next(self, file, line):
        date, seconds, what = line.split(" ", 2)
        moment = int(subprocess.run(["date", "-u", "-d", date, "+%s"], capture_output=True, check=True).stdout)
        self.assertEqual(seconds, f"({moment})", f"the seconds of {date}")
        probe = probe_of(what)
        self.assertIsNotNone(probe, line)
        path, form, early, late = probe
        for when, expected in (moment - 1, early), (moment, late):
            message = answer(file, when, path, form)
            self.assertEqual(message[: len(expected)], expected, f"{path} at {when}: {message}")

    def test_the_ends_of_the_votings_come_next(self):
        voting = [line for line in sections(self.text("second", T0 + 14 * DAY))[1] if " voting " in line]
        self.assertEqual(voting, ENDS_OF_VOTING)

    def test_a_resolution_that_was_cancelled_or_has_a_winner_is_not_on_the_agenda(self):
        found = re.findall("^Resolution ([0-9]+)", self.text("third", T0 + 22 * DAY), re.M)
        self.assertEqual(found, ["2", "3", "5", "6", "8"])

    def test_the_agenda_begins_with_what_may_be_done_and_what_comes_next_and_has_each_choice(self):
        text = self.text("first", T0 + 2 * DAY + HALF)
        self.assertEqual(text[: len(FIRST)], FIRST)
        self.assertIn(PART, text)

    def test_over_http_it_is_the_same_and_each_sheet_is_one_connection(self):
        at = T0 + 2 * DAY + HALF
        with serve(self.files["first"], 10, "--at", at) as desk:
            asked = b"\n10 sheets were asked for, each by a connection of `serve`\n"
            message = Ran(0, self.text("first", at).encode() + asked, b"")
            self.assertEqual(agenda("--port", desk.port, "--at", at), message)
            self.assertEqual(desk.ended(), Ran(0, b"", b""), "serve")

    def test_at_a_moment_at_which_a_desk_takes_no_act_nothing_may_be_done(self):
        for at in 0, 4_102_444_800:
            with self.subTest(at=at):
                now = sections(agenda_of(self.files["first"], at))[0]
                self.assertEqual(now, ["nothing, since a desk takes no act at such a moment"])
                self.assertEqual(answer(self.files["first"], at, "/1/call", "days=7"), "refused 1 BadMoment")

    def warns(self, ran, seconds):
        """The agenda warns that its moment lies before the desk's clock."""
        message = f"gr-desk agenda: warning: --at is {seconds} before the desk's clock: "
        message += f"each act with that date is {BACK}\n"
        self.assertEqual((ran.status, ran.err), (0, message.encode()), "what it warns of")
        self.assertEqual(sections(ran.out.decode())[0], NOTHING, "what may be done")

    def test_before_the_desks_clock_it_takes_no_act_and_the_agenda_warns(self):
        # The last act of the one is shown by a choice that is short, and that of the other by a vote that was closed.
        for name, clock in ("first", T0 + 2 * DAY), ("third", T0 + 22 * DAY):
            file = self.files[name]
            with self.subTest(desk=name):
                self.warns(agenda(file, "--at", clock - 1), "1 second")
                self.assertEqual(answer(file, clock - 1, "/1/call", "days=7"), BACK)
                # At the clock it warns of nothing.
                self.text(name, clock)
            with self.subTest(desk=name, words="over HTTP"), serve(file, 99, "--at", clock) as desk:
                at = "--port", desk.port, "--at"
                self.warns(agenda(*at, clock - DAY), "86400 seconds or more")
                self.assertEqual(agenda(*at, clock).err, b"", "at its clock")


class Desks(Case):
    @classmethod
    def setUpClass(cls):
        build()
        compile_tools()

    def test_a_mark_of_direction_in_a_summary_is_shown_by_its_number(self):
        file = self.folder() / "strange.db"
        make_desk(file)
        do(file, T0, ("", "author=@leader&summary=Gr%E2%80%AEeen%C3%A9%E2%80%8B&text=x&ratio=1"))
        self.assertIn("    Choice 1: Gr<U+202E>eené<U+200B>\n", agenda_of(file, T0))
        with self.subTest(words="of a desk that `serve` holds"), serve(file, 9, "--at", T0) as desk:
            self.assertIn("Gr<U+202E>een", agenda_of(file, T0))
            self.assertEqual(desk.ask("GET", "/roll")[0], 200, "the connections that are left")

    def test_a_clock_later_than_the_machines_is_warned_of_by_a_file_and_not_by_a_port(self):
        # No sheet shows the moment of an act on a developer.
        file, clock = self.folder() / "late.db", 4_000_000_000
        make_desk(file)
        once(file, clock, "/developers", "login=d1&name=A&status=current", "ok 1")
        before = int(time.time())
        ran = agenda(file)
        after = int(time.time())
        form = f"gr-desk agenda: warning: the desk's clock is ([0-9]+) seconds later than the machine's: {LATER}\n"
        found = re.fullmatch(form, ran.err.decode())
        self.assertEqual((ran.status, bool(found)), (0, True), ran)
        self.assertTrue(before <= clock - int(found[1]) <= after, ran)
        self.assertEqual(sections(ran.out.decode() + "\n")[0], NOTHING, "what may be done there")
        with serve(file, 99, "--at", clock) as desk:
            self.assertEqual(agenda("--port", desk.port).err, b"", "of a port")
