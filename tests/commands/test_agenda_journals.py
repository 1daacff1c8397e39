"""Looks at what gr-desk agenda says of the held acts of a journal: what gr-desk journal due does, and of a call or a
close which of them come first. Of held votes it says that there are some, and no more."""
import os
import time

from tests.commands.agenda_runs import agenda, held_in, sections
from tests.commands.journal_case import JournalCase, is_silent, put_back
from tests.support.journaled import CALL, CALLED, DISCUSSION, ENDED, Journaled, reports
from tests.support.program import DAY, T0, copy_desk, once

AMEND = ["amend", "1", "choice=1", "minor=0", "summary=Crimson", "text=The desk is crimson."]
SPONSOR = ["sponsor", "1", "choice=1"]
AMENDED, OVER = T0 + 2 * DAY, T0 + 3 * DAY
SINCE = "2026-01-04T00:00:00Z (1767484800)"
HELD = [
    "    5, of 2026-01-03T00:00:00Z (1767398400): amend 1 choice=1 minor=0 summary=Crimson",
    "    6, of 2026-01-03T00:01:00Z (1767398460): sponsor 1 choice=1 login=d3",
    "    7, of 2026-01-04T00:00:00Z (1767484800): sponsor 1 choice=1 login=d4",
]


class HeldActs(JournalCase):
    """An act waits for a day, one after it, and one for long."""

    @classmethod
    def setUpClass(cls):
        super().setUpClass()
        cls.far = int(time.time()) + DAY
        cls.desk = desk = Journaled.made(cls.shared_folder(), "held", DISCUSSION[:4])
        cls.without = agenda(desk.file, "--journal", desk.journal)
        cls.came = [
            desk.act("--at", AMENDED, "--hold", "24h", *AMEND),
            desk.act("--at", AMENDED + 60, *SPONSOR, "login=d3"),
            desk.act("--at", OVER, "--hold-until", cls.far, *SPONSOR, "login=d4"),
        ]

    def at(self, at):
        """The agenda at a moment."""
        return agenda(self.desk.file, "--due", "--at", at, "--journal", self.desk.journal)

    def test_where_no_act_is_held_the_agenda_says_so(self):
        reports("no act held", self.without, 0, "Held in the journal:\n    nothing\n")

    def test_each_held_act_may_be_entered_from_its_time_on(self):
        for ran, text in zip(self.came, ("held 5 until ", "held 6 behind 5", "held 7 ")):
            reports("one that waits", ran, 0, text)
        acts = [f"held act {number} may be entered" for number in (5, 6)]
        may = [f"{each}, since {SINCE}: gr-desk journal due" for each in acts]
        comes = [f"{SINCE} {each}: gr-desk journal due" for each in acts]
        for at, status, now_expected, next_expected in (OVER - 1, 0, [], comes), (OVER, 4, may, []):
            with self.subTest(at=at):
                ran = self.at(at)
                now, coming = sections(ran.out.decode())
                self.assertEqual((ran.status, now), (status, now_expected), "what may be entered")
                self.assertEqual([each for each in coming if each in comes], next_expected, "what comes")
                self.assertEqual(held_in(ran.out.decode()), HELD)

    def test_the_agenda_has_until_when_an_act_waits(self):
        coming = sections(self.at(OVER).out.decode())[1]
        long = [line for line in coming if "held act 7 may be entered" in line]
        self.assertEqual([line.split(" ")[1] for line in long], [f"({self.far})"])

    def test_of_a_call_it_says_which_held_acts_come_first_and_the_call_is_not_sent_before(self):
        ran = self.at(CALLED)
        message = "by 2026-01-22T00:00:00Z (1769040000) (Constitution, A.3.1); first comes what is held: 5, 6, 7\n"
        reports("a call after them", ran, 4, "    resolution 1 may be called, since ", message)
        is_silent("what is held itself", ran, "gr-desk journal due; first")
        ran = self.copy_of(self.desk).act("--at", CALLED, *CALL[1])
        reports("what comes of it", ran, 1, "nothing was sent: acts with an earlier date are on hold, 5, 6, 7: ")

    def test_due_does_what_the_agenda_says(self):
        desk = self.copy_of(self.desk)
        waits = "7 (sponsor 1 choice=1 login=d4) is held until "
        reports("due", desk.tool("due"), 0, f"5: ok 5\n6: ok 6\n{waits}", f"({self.far})")
        after = agenda(desk.file, "--journal", desk.journal).out.decode()
        self.assertEqual(held_in(after), HELD[2:], "what is held after it")


class Journals(JournalCase):
    """Which journal is read."""

    @classmethod
    def setUpClass(cls):
        super().setUpClass()
        cls.desk = Journaled.made(cls.shared_folder(), "held", DISCUSSION[:4])
        cls.desk.act("--at", OVER, "--hold-until", int(time.time()) + DAY, *SPONSOR, "login=d4")
        cls.other = cls.desk.copied(cls.shared_folder(), "other")
        of_another = f"{cls.desk.journal} is the journal of the desk {cls.desk.file}, and not of {cls.other.file}"
        cls.of_another = of_another

    def by_environment(self, journal):
        return {"env": {**os.environ, "GR_DESK_JOURNAL": str(journal)}}

    def test_without_a_journal_no_held_act_is_reported(self):
        ran = agenda(self.desk.file)
        self.assertEqual((ran.status, b"Held in" in ran.out), (0, False))

    def test_the_journal_of_the_environment_is_read_as_one_that_is_named(self):
        at = "--at", T0 + 4 * DAY
        named = agenda(self.desk.file, *at, "--journal", self.desk.journal)
        self.assertIn(b"Held in the journal:\n    5, of ", named.out)
        self.assertEqual(agenda(self.desk.file, *at, **self.by_environment(self.desk.journal)), named)

    def test_a_journal_of_another_desk_is_refused_where_it_is_named_and_warned_of_where_it_is_not(self):
        with self.subTest(words="named"):
            ran = agenda(self.other.file, "--journal", self.desk.journal)
            reports("a journal of another desk", ran, 1, self.of_another)
        with self.subTest(words="of the environment"):
            ran = agenda(self.other.file, **self.by_environment(self.desk.journal))
            reports("that of the environment", ran, 0, f"warning: {self.of_another}, so no held act is known")

    def test_a_journal_that_is_not_there_fails_where_it_is_named_and_is_warned_of_where_it_is_not(self):
        journal = self.folder() / "no.journal"
        with self.subTest(words="named"):
            reports("named", agenda(self.desk.file, "--journal", journal), 3, "cannot be opened")
        with self.subTest(words="of the environment"):
            ran = agenda(self.desk.file, **self.by_environment(journal))
            reports("of the environment", ran, 0, "no.journal of GR_DESK_JOURNAL is not there")

    def test_a_journal_goes_with_the_file_of_a_desk(self):
        ran = agenda("--port", 9, "--journal", self.desk.journal)
        reports("a journal by a port", ran, 2, "--journal needs DESK")


class HeldInVain(JournalCase):
    """A held act that the desk takes no more, and one whose desk went back to a copy."""

    @classmethod
    def setUpClass(cls):
        super().setUpClass()
        work = cls.shared_folder()
        cls.desk = Journaled.made(work, "held", DISCUSSION[:3])
        cls.early = copy_desk(cls.desk.file, work / "early.db")
        cls.desk.accepts([DISCUSSION[3]])
        cls.came = cls.desk.act("--at", T0 + DAY, "--hold", "24h", *SPONSOR, "login=d3")

    def test_where_the_desk_lacks_acts_of_the_journal_the_replay_comes_first(self):
        reports("an act that waits", self.came, 0, "held 5 ")
        back = self.copy_of(self.desk)
        put_back(back, self.early)
        message = "    the desk lacks acts that the journal has: gr-desk journal replay comes first\n"
        for at, status, first in (T0 + 3 * DAY, 0, ""), (CALLED, 4, "A.3.1); first comes gr-desk journal replay\n"):
            with self.subTest(at=at):
                ran = agenda(back.file, "--due", "--at", at, "--journal", back.journal)
                reports("one whose desk went back", ran, status, message, first)
                is_silent("one whose desk went back", ran, "may be entered")
        with self.subTest(words="due"):
            reports("its due", back.tool("due"), 1, "gr-desk journal replay")

    def test_of_an_act_that_the_desk_takes_no_more_it_says_the_refusal(self):
        desk = self.copy_of(self.desk)
        once(desk.file, T0 + 2 * DAY, "/resolutions/1/sponsor", "choice=1&login=d4", "ok 5")
        ran = agenda(desk.file, "--due", "--at", T0 + 3 * DAY, "--journal", desk.journal)
        message = "      refused 2 ClockBack if it is entered: gr-desk journal drop 5\n"
        reports("an act that waits in vain", ran, 0, message)
        is_silent("an act that waits in vain", ran, "may be entered")
        message = "5: refused 2 ClockBack\n", "possible from 2026-01-03T00:00:00Z "
        reports("its due", desk.tool("due"), 1, *message)


class HeldVotes(JournalCase):
    """Two desks with votes that wait: one vote, and three."""

    @classmethod
    def setUpClass(cls):
        super().setUpClass()
        work = cls.shared_folder()
        cls.many = Journaled.made(work, "held_votes", [*DISCUSSION, CALL])
        cls.few = cls.many.copied(work, "held_vote")
        cls.came = []
        for each, logins in (cls.few, ["d1"]), (cls.many, ["d2", "d1", "d3"]):
            for login in logins:
                words = ["--at", CALLED + 60, "--hold", "1h", "vote", "1", f"login={login}"]
                cls.came.append(each.act(*words, given="bbz\ntokenA01\n"))

    def agendas(self, *words):
        """That of the desk with one vote, which that of the desk with three is too."""
        ran, other = (agenda(desk.file, *words, "--journal", desk.journal) for desk in (self.few, self.many))
        self.assertEqual(other, ran, "the agenda of one vote and of three")
        return ran

    def test_of_held_votes_it_says_that_there_are_some_and_from_when_on_the_first_may_be_entered(self):
        for ran in self.came:
            reports("a vote that waits", ran, 0, "held v")
        ran = self.agendas("--at", CALLED + DAY, "--due")
        since = "2026-01-15T01:01:00Z (1768438860)"
        message = f"    the first of the held votes may be entered, since {since}: gr-desk journal due\n"
        reports("held votes", ran, 4, message, "Held in the journal:\n    votes\n")
        is_silent("held votes", ran, "login=", "v1", "bbz", "tokenA01")

    def test_before_a_close_come_the_held_votes(self):
        ran = self.agendas("--at", ENDED)
        since = "2026-01-22T00:00:00Z (1769040000)"
        message = f"resolution 1 may be closed, since {since}; first comes what is held: votes\n"
        reports("a close after held votes", ran, 0, message)
