"""What gr-desk agenda says at the exact second of each boundary, of resolutions and held acts that are made by hand.
test_agenda holds the agenda against the answers of desks."""
from contextlib import contextmanager
from types import SimpleNamespace
from unittest import mock

from tests.support.case import Case
from tests.support.hand_made import DISCUSSION, VOTING, choice, entry, status
from tests.support.in_process import loaded, said
from tests.support.program import DAY, T0
from grdesk.desk.row import Header
from grdesk.desk.sheet import NotGiven
from grdesk.journal.entry import Entries, Fate

LATEST = 4_102_444_799
END = DISCUSSION[1]
ENDED = "2026-01-15T00:00:00Z (1768435200)"
agenda = loaded("agenda")


def agenda_of(at, *statuses, developers=4, casting=()):
    """The agenda of resolutions at a moment. Of each that is closed, these places are level."""
    made = agenda.Agenda(at, developers)
    for each in statuses:
        made.add(each, list(casting))
    return made


def coming(made):
    return [text for _, text in made.next]


class Discussions(Case):
    def test_a_call_may_come_from_the_end_on_and_not_a_second_before(self):
        made = agenda_of(END - 1, status())
        message = "the discussion of resolution 1 ends, and it may be called"
        self.assertEqual((made.now, made.next), ([], [(END, message)]))
        made = agenda_of(END, status())
        message = f"resolution 1 may be called, since {ENDED}; it is due by 2026-01-22T00:00:00Z (1769040000) "
        self.assertEqual((made.now, made.next), ([f"{message}(Constitution, A.3.1)"], []))

    def test_a_call_is_due_up_to_seven_days_after_the_end_and_was_due_a_second_later(self):
        for at, is_due in (END + 7 * DAY - 1, True), (END + 7 * DAY, True), (END + 7 * DAY + 1, False):
            with self.subTest(at=at):
                [line] = agenda_of(at, status()).now
                verb = "is" if is_due else "was"
                self.assertIn(f"; it {verb} due by 2026-01-22T00:00:00Z (1769040000) (Constitution, A.3.1)", line)

    def test_a_call_with_no_live_choice_cancels_and_is_not_due(self):
        message = f"resolution 1 may be called, since {ENDED}; no choice is live, so that cancels it"
        for each in choice(1, short=END - DAY), choice(1, introduced=None):
            with self.subTest(choice=each):
                self.assertEqual(agenda_of(END, status(choices=[each])).now, [message])

    def test_a_call_places_the_choices_that_are_live_at_that_second(self):
        short = choice(2, short=END)
        for at, ballot in (END + DAY - 1, "choices 1, 2"), (END + DAY, "choice 1"):
            with self.subTest(at=at):
                made = agenda_of(at, status(choices=[choice(1), short, choice(3, introduced=None)]))
                self.assertIn(f"    A call now would place {ballot}\n", made.open[0])

    def test_a_discussion_has_its_times_and_from_its_end_on_what_a_call_would_place(self):
        times = f"    Discussion: 2026-01-01T00:00:00Z (1767225600) to {ENDED}"
        self.assertEqual(agenda_of(END - 1, status()).open[0].split("\n")[1:3], [times, "    Choice 1: Summary 1"])
        placed = "    A call now would place choice 1"
        self.assertEqual(agenda_of(END, status()).open[0].split("\n")[1:3], [times, placed])

    def test_a_call_names_each_choice_that_it_places(self):
        text = agenda_of(END, status(choices=[choice(number) for number in range(1, 12)])).open[0]
        self.assertIn("    A call now would place choices 1, 2, 3, 4, 5, 6, 7, 8, 9, 10, 11\n", text)

    def test_an_end_that_no_desk_sees_does_not_come_next(self):
        for end, expected in (LATEST, 1), (LATEST + 1, 0):
            with self.subTest(end=end):
                self.assertEqual(len(agenda_of(T0, status(discussion=(T0, end))).next), expected)


class Choices(Case):
    """What a choice needs, and until when."""

    def lines(self, at=T0, developers=4, stage="Discussing", **changes):
        of = status(stage, [choice(1, **changes)], discussion=None if stage == "Draft" else DISCUSSION)
        made = agenda_of(at, of, developers=developers)
        return made, made.open[0].split("\n")

    def test_a_short_choice_lapses_after_24_hours_and_not_a_second_before(self):
        made, lines = self.lines(T0 + DAY - 1, short=T0, sponsors=[])
        message = "choice 1 of resolution 1 lapses, unless it gets 1 more sponsor before"
        self.assertIn((T0 + DAY, message), made.next)
        self.assertIn("        short since 2026-01-01T00:00:00Z (1767225600), and lapses 2026-01-02T00:00:00Z "
                      "(1767312000)", lines)
        made, lines = self.lines(T0 + DAY, short=T0, sponsors=[])
        self.assertEqual([each for each in coming(made) if "lapses" in each], [])
        self.assertIn("        lapsed 2026-01-02T00:00:00Z (1767312000)", lines)

    def test_as_many_sponsors_are_needed_as_the_constitution_says(self):
        for developers, needs in (0, 0), (1, 1), (4, 1), (5, 2), (16, 2), (17, 3), (64, 4), (65, 5), (2_000, 5):
            with self.subTest(developers=developers):
                lines = self.lines(developers=developers)[1]
                self.assertIn(f"        proposed by eve; sponsors: has 1, needs {needs}", lines)

    def test_leader_and_committee_need_none_and_a_choice_without_a_proposer_needs_one_too(self):
        for proposer, message in (("leader", "proposed by the leader; sponsors: has 1, needs none"),
                               ("committee", "proposed by the committee; sponsors: has 1, needs none"),
                               ("none", "nobody proposes it; sponsors: has 1, needs 1, and a proposer")):
            with self.subTest(proposer=proposer):
                self.assertIn(f"        {message}", self.lines(proposer=proposer)[1])

    def test_what_a_short_choice_lacks_is_counted(self):
        for sponsors, proposer, message in (
            ([], "developer eve", "2 more sponsors"),
            (["bob"], "developer eve", "1 more sponsor"),
            (["bob", "dan"], "developer eve", "1 more sponsor"),
            ([], "none", "a proposer, and 2 sponsors if a developer proposes it"),
            (["bob"], "none", "a proposer, and 1 sponsor if a developer proposes it"),
            (["bob", "dan"], "none", "a proposer"),
            (["bob", "dan", "joe"], "none", "a proposer"),
        ):
            with self.subTest(sponsors=sponsors, proposer=proposer):
                made, _ = self.lines(developers=16, short=T0, sponsors=sponsors, proposer=proposer)
                self.assertIn(f"choice 1 of resolution 1 lapses, unless it gets {message} before", coming(made))

    def test_one_that_is_not_introduced_is_told_that_the_discussion_is_over_from_its_end_on(self):
        over = "        not introduced, and the discussion is over"
        self.assertIn("        not introduced", self.lines(END - 1, introduced=None)[1])
        self.assertIn(over, self.lines(END, introduced=None)[1])
        self.assertNotIn(over, self.lines(END, stage="Draft", introduced=None)[1])


class Votings(Case):
    def voting(self, end=VOTING[1], choices=None):
        return status("Voting", choices or [choice(1, place=1)], voting=(VOTING[0], end))

    def test_a_close_may_come_from_the_end_on_and_not_a_second_before(self):
        message = "the voting on resolution 1 ends, and it may be closed"
        made = agenda_of(VOTING[1] - 1, self.voting())
        self.assertEqual((made.now, made.next), ([], [(VOTING[1], message)]))
        made = agenda_of(VOTING[1], self.voting())
        self.assertEqual((made.now, made.next), (["resolution 1 may be closed, since 2026-01-22T00:00:00Z "
                                                  "(1769040000)"], []))

    def test_a_vote_that_ends_at_the_last_moment_can_be_closed_and_one_of_a_second_later_never(self):
        made = agenda_of(LATEST, self.voting(LATEST))
        self.assertEqual((len(made.now), made.never), (1, []))
        message = "resolution 1 can never be closed: its voting ends past the last moment of a desk"
        made = agenda_of(LATEST, self.voting(LATEST + 1))
        self.assertEqual((made.now, made.next, made.never), ([], [], [message]))

    def test_the_ballot_has_the_choices_with_places_alone(self):
        text = agenda_of(T0, self.voting(choices=[choice(1), choice(2, summary="R\u202eed", place=1)])).open[0]
        self.assertEqual([line for line in text.split("\n") if "Place" in line], ["    Place 1: R<U+202E>ed"])

    def test_a_closed_vote_waits_for_the_casting_vote_if_places_are_level(self):
        closed = status("Closed", [choice(1, place=1), choice(2, place=2)], voting=VOTING)
        message = "resolution 1 waits for the casting vote among places 1, 2"
        self.assertEqual(agenda_of(VOTING[1], closed, casting=[1, 2]).now, [message])
        made = agenda_of(VOTING[1], closed)
        self.assertEqual((made.now, made.open), ([], []))

    def test_a_cancelled_resolution_is_on_no_agenda(self):
        made = agenda_of(VOTING[1], status("Cancelled"))
        self.assertEqual((made.now, made.next, made.open), ([], [], []))


class Moments(Case):
    """From when on, and until when, something may be done at all."""

    def text(self, at, clock=0):
        made = agenda_of(at, status())
        return made.due(clock), made.text(4, 1, clock).split("\n")

    def test_at_the_desks_clock_a_call_may_come_and_a_second_before_it_nothing(self):
        due, lines = self.text(END, clock=END)
        self.assertEqual(len(due), 1)
        self.assertEqual(len(self.text(LATEST)[0]), 1)
        due, lines = self.text(END, clock=END + 1)
        self.assertEqual((due, lines[3]), ([], "    nothing, since each act at this moment is refused 2 ClockBack"))

    def test_a_desk_takes_acts_from_second_1_to_the_last_second_of_2099(self):
        never = "    nothing, since a desk takes no act at such a moment"
        for at, is_taken in (0, False), (1, True), (LATEST, True), (LATEST + 1, False):
            with self.subTest(at=at):
                self.assertEqual(self.text(at)[1][3] != never, is_taken)

    def test_the_head_counts_developers_and_resolutions_and_those_that_are_open(self):
        made = agenda_of(END, status(), status("Cancelled", number=2))
        message = f"Agenda of {ENDED}: 1 current developer, 2 resolutions, 1 of them open"
        self.assertEqual(made.text(1, 2, 0).split("\n")[0], message)

    def test_what_comes_next_stands_in_the_order_of_its_moments(self):
        made = agenda_of(T0, status(choices=[choice(1, short=T0 + 5)]), status(number=2, discussion=(T0, T0 + DAY)))
        lines = made.text(4, 2, 0).split("\nComes next:\n")[1].split("\n\n")[0].split("\n")
        self.assertEqual([line.split()[0] for line in lines],
                         ["2026-01-02T00:00:00Z", "2026-01-02T00:00:05Z", "2026-01-15T00:00:00Z"])

    def test_the_latest_act_that_the_sheets_show_is_the_latest_of_all(self):
        self.assertEqual(agenda_of(T0, status(choices=[choice(1, short=T0 + 9), choice(2)])).latest, T0 + 9)
        closed = status("Closed", [choice(1, place=1)], voting=VOTING)
        self.assertEqual(agenda_of(T0, closed, status(number=2)).latest, VOTING[1])
        voting = status("Voting", [choice(1, place=1)], voting=VOTING)
        self.assertEqual(agenda_of(T0, voting).latest, VOTING[0])
        draft = status("Draft", [choice(1, introduced=None)], discussion=None)
        self.assertEqual((agenda_of(T0, draft).latest, agenda_of(T0).latest), (0, 0))

    def test_a_moment_before_the_clock_is_warned_of_by_seconds_that_are_exact_or_the_least(self):
        message = "--at is 1 second before the desk's clock: each act with that date is refused 2 ClockBack"
        self.assertEqual(agenda.clock_warning(T0, True, T0 + 1, True), message)
        message = "--at is 90 seconds or more before the desk's clock: each act with that date is refused 2 ClockBack"
        self.assertEqual(agenda.clock_warning(T0, True, T0 + 90, False), message)


class HeldActs(Case):
    """Held acts of a journal: each is of a moment, and waits until one, or for those before it."""

    def held(self, *acts, accepted=3):
        entries = Entries()
        entries.last = accepted
        for number, moment, until in acts:
            path = "/resolutions/1/vote" if number.startswith("v") else "/resolutions/1/sponsor"
            fields = {"login": "bob"} if number.startswith("v") else {"choice": "1", "login": "bob"}
            made = entry(number, path, moment, fate=Fate.HELD, answer=None, **fields)
            made.until = until
            entries.all[number] = made
        return entries

    def agenda(self, at, entries, accepted=3, clock=T0):
        made = agenda_of(at, status())
        made.hold(entries, Header(accepted, clock))
        return made

    def test_one_may_be_entered_from_the_end_of_its_time_on_and_not_a_second_before(self):
        entries, until = self.held(("4", T0 + 9, T0 + DAY)), "2026-01-02T00:00:00Z (1767312000)"
        self.assertIn((T0 + DAY, "held act 4 may be entered: gr-desk journal due"),
                      self.agenda(T0 + DAY - 1, entries).next)
        made = self.agenda(T0 + DAY, entries)
        self.assertIn(f"held act 4 may be entered, since {until}: gr-desk journal due", made.now)
        self.assertEqual(made.held, ["4, of 2026-01-01T00:00:09Z (1767225609): sponsor 1 choice=1 login=bob"])

    def test_one_waits_for_those_with_earlier_dates_and_not_for_those_of_its_own_second(self):
        entries = self.held(("4", END - 1, None), ("5", END, None), ("v1", END - 1, None))
        [line] = [each for each in self.agenda(END, entries).now if "may be called" in each]
        self.assertTrue(line.endswith("; first comes what is held: 4, votes"), line)
        [line] = [each for each in self.agenda(END, self.held(("4", END - 1, None))).now if "may be called" in each]
        self.assertTrue(line.endswith("; first comes what is held: 4"), line)
        [line] = [each for each in self.agenda(END, self.held(("5", END, None))).now if "may be called" in each]
        self.assertNotIn("first comes", line)

    def test_one_of_the_desks_clock_can_be_entered_and_one_of_a_second_before_it_is_refused(self):
        entries = self.held(("4", T0 + 9, None))
        self.assertEqual(len(self.agenda(END, entries, clock=T0 + 9).held), 1)
        message = "  refused 2 ClockBack if it is entered: gr-desk journal drop 4"
        self.assertEqual(self.agenda(END, entries, clock=T0 + 10).held[1:], [message])

    def test_if_the_desk_lacks_an_act_of_the_journal_the_replay_comes_first(self):
        entries = self.held(("4", T0 + 9, None))
        made = self.agenda(END, entries, accepted=2)
        self.assertEqual([each.split("; ")[-1] for each in made.now], ["first comes gr-desk journal replay"])
        self.assertEqual(made.held[0], "the desk lacks acts that the journal has: gr-desk journal replay comes first")
        self.assertNotIn("first comes gr-desk journal replay", self.agenda(END, entries, accepted=3).now[0])

    def test_what_is_held_has_a_part_of_its_own_if_a_journal_is_read(self):
        for entries, lines in (self.held(("4", END, None)), ["    4, of 2026-01-15T00:00:00Z (1768435200): sponsor 1 "
                                                             "choice=1 login=bob"]), (self.held(), ["    nothing"]):
            with self.subTest(lines=lines):
                text = self.agenda(END, entries).text(4, 1, 0)
                self.assertEqual(text.split("\nHeld in the journal:\n")[1].split("\n\n")[0].split("\n"), lines)
        self.assertNotIn("Held in the journal", agenda_of(END, status()).text(4, 1, 0))

    def test_of_votes_that_are_held_nothing_is_told_but_that_there_are_some(self):
        entries = self.held(("v1", T0 + 9, T0 + DAY), ("v2", T0 + 10, T0 + 3 * DAY))
        made = self.agenda(T0 + DAY, entries)
        message = "the first of the held votes may be entered, since 2026-01-02T00:00:00Z (1767312000)"
        self.assertEqual((made.held, made.now), (["votes"], [f"{message}: gr-desk journal due"]))


CLOSED = """\
Resolution 1
Stage: Closed
Discussion: 2026-01-01T00:00:00Z to 2026-01-15T00:00:00Z
Voting: 2026-01-15T00:00:00Z to 2026-01-22T00:00:00Z
Developers: 4
"""


class Desk:
    """A desk in a file, with this clock. Resolution 1 of it is closed, and its result ends so."""

    def __init__(self, clock, last):
        self.clock, self.last = clock, last

    def sheet(self, kind, *number):
        if number > (1,):
            raise NotGiven("refused 9 NoResolution")
        return {"roll": "Developers: 1\nCurrent: 1\nD: eve current Eve\n", "status": CLOSED,
                "result": f"Result of resolution 1\nSchwartz: 1 2\n{self.last}\n"}[kind]

    def header(self):
        """By a port there is no clock."""
        return None if self.clock is None else Header(9, self.clock)


class Runs(Case):
    """Runs of the tool over such a desk: the status with which it ends, what may be done, and what it says."""

    CLOCK = VOTING[1]

    def run_at(self, at, last="Casting vote needed", is_due=True, clock=CLOCK):
        @contextmanager
        def sheets(words):
            yield Desk(clock, last)

        printed = []
        words = SimpleNamespace(at=at, due=is_due, desk="desk.db", journal=None)
        with mock.patch.object(agenda, "sheets_of", sheets), mock.patch.object(agenda, "say", printed.append):
            with mock.patch.object(agenda, "entries_of", lambda _: None), said() as text:
                status_of_run = agenda.run(words)
                lines = text.lines()
        self.head, _, _, now = printed[0].decode().split("\n")[:4]
        return status_of_run, now.strip(), lines

    def test_at_the_desks_clock_something_may_be_done_and_nothing_is_warned_of(self):
        casts = "resolution 1 waits for the casting vote among places 1, 2"
        self.assertEqual(self.run_at(self.CLOCK), (4, casts, []))
        self.assertEqual(self.run_at(self.CLOCK, is_due=False), (0, casts, []))

    def test_a_second_before_it_nothing_may_be_done_and_that_is_warned_of(self):
        status_of_run, now, lines = self.run_at(self.CLOCK - 1)
        self.assertEqual((status_of_run, now), (0, "nothing, since each act at this moment is refused 2 ClockBack"))
        message = "warning: --at is 1 second before the desk's clock: each act with that date is refused 2 ClockBack"
        self.assertEqual(lines, [f"gr-desk: {message}"])

    def test_by_a_port_the_latest_act_that_the_sheets_show_is_the_least_that_the_clock_can_be(self):
        casts = "resolution 1 waits for the casting vote among places 1, 2"
        self.assertEqual(self.run_at(self.CLOCK, clock=None), (4, casts, []))
        lines = self.run_at(self.CLOCK - 1, clock=None)[2]
        message = "warning: --at is 1 second or more before the desk's clock: each act with that date is refused 2 "
        message += "ClockBack"
        self.assertEqual(lines, [f"gr-desk: {message}"])

    def test_the_head_counts_what_the_sheets_have(self):
        self.run_at(self.CLOCK)
        message = "Agenda of 2026-01-22T00:00:00Z (1769040000): 1 current developer, 1 resolution, 1 of them open"
        self.assertEqual(self.head, message)

    def test_a_vote_that_has_a_winner_waits_for_nothing(self):
        for last in "Winner: 1 by casting vote", "Winner: 1":
            with self.subTest(last=last):
                self.assertEqual(self.run_at(self.CLOCK, last), (0, "nothing", []))
