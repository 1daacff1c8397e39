"""Looks at what gr-desk act refuses before it sends anything: dates that would block a desk, words that do not go
together, files that are no desk, a desk that another process holds, and a journal of another desk. Nothing is sent
then, and the journal has nothing of it. A rehearsal takes any date."""
import time

from tests.commands.journal_case import JournalCase, is_silent
from tests.support.journaled import CALLED, DISCUSSION, ROLL_FILE, Journaled, reports
from tests.support.program import DAY, T0, serve

SPONSOR = ["sponsor", "1", "choice=1", "login=d3"]


def rows_of_refusals():
    """What is refused, its words, the exit status, and what is reported."""
    far, early = int(time.time()) + 5 * DAY, int(time.time()) - 6 * DAY
    too_early = "--at is 1970-08-23T11:48:21Z (20260101); a date is written as "
    six_days = "the call comes 6 days after its date, and its voters have so much less time"
    all_over = "when all of its time for votes is over"
    not_sent = "nothing was sent: "
    return [
        ("a date to come", ["--at", far, *SPONSOR], 1, not_sent, "later than the machine's clock by "),
        ("a call dated back", ["--at", CALLED, "call", "1", "days=7"], 1, not_sent, "with --yes", all_over),
        ("one with time left", ["--at", early, "call", "1", "days=7"], 1, not_sent, "with --yes", six_days),
        ("one without", ["--at", early, "call", "1", "days=6"], 1, not_sent, "with --yes", "is over"),
        ("a held call", ["--hold", "2h", "call", "1", "days=7"], 1, not_sent, "2 hours", "with --yes"),
        ("one that waits in vain", ["--at", T0, "--hold", "1h", *SPONSOR], 1, not_sent, "would wait in vain"),
        ("no offset", ["--at", "2026-01-14 21:07", *SPONSOR], 2, "does not say its offset"),
        ("a port too", ["--port", 9, *SPONSOR], 2, "a --desk and a --port are given"),
        ("two ends", ["--hold", "24h", "--hold-until", far, *SPONSOR], 2, "--hold and --hold-until are given"),
        ("no duration", ["--hold", "1 day", *SPONSOR], 2, "a DURATION is written like 24h"),
        ("a year", ["--at", 2026, *SPONSOR], 2, "--at is 1970-01-01T00:33:46Z (2026); a date is written as "),
        ("a day", ["--at", 20260101, *SPONSOR], 2, too_early),
        ("the last second before 2000", ["--at", 946_684_799, *SPONSOR], 2, "--at is 1999-12-31T23:59:59Z"),
        ("an end that is a year", ["--at", T0 + 5, "--hold-until", 2026, *SPONSOR], 2, "--hold-until is 1970-"),
        ("an end before the act", ["--at", T0 + 5, "--hold-until", T0, *SPONSOR], 2, "later than the act"),
    ]


class Refusals(JournalCase):
    def leaves(self, desk, words, run):
        """Runs a line that leaves a desk and its journal as they were. Gives what came of it."""
        before = desk.rows(), desk.lines()
        ran = run()
        self.assertEqual((desk.rows(), desk.lines()), before, f"what {words} left")
        return ran

    def test_an_act_whose_words_speak_against_it_is_not_sent_and_not_kept(self):
        for what, words, status, *texts in rows_of_refusals():
            with self.subTest(words=what):
                desk = self.made(DISCUSSION)
                reports(what, self.leaves(desk, what, lambda: desk.act(*words)), status, *texts)

    def test_what_only_a_file_takes_is_refused_by_a_port(self):
        desk = self.made(DISCUSSION)
        for words in ["--at", T0], ["--ahead"], ["--hold", "1h", "--journal", desk.journal]:
            with self.subTest(words=words):
                ran = self.leaves(desk, words, lambda: desk.run("act", "--port", 9, *words, *SPONSOR))
                reports(f"{words} by a port", ran, 2, "needs --desk")

    def test_a_desk_that_is_not_there_or_has_no_name_is_refused(self):
        desk = self.made(DISCUSSION)
        with self.subTest(words="no desk"):
            ran = desk.run("act", "--desk", self.folder() / "no.db", *SPONSOR)
            reports("no desk", ran, 3, "nothing was sent: ", "is not there")
        with self.subTest(words="no name"):
            reports("no name", desk.run("act", "--desk", "", *SPONSOR), 2, "a name of a desk is empty")

    def test_a_source_without_a_journal_is_refused(self):
        desk = self.made(DISCUSSION)
        words = ["act", "--desk", desk.file, "--source", "x", *SPONSOR]
        ran = self.leaves(desk, words, lambda: desk.run(*words))
        reports("a source without a journal", ran, 2, "--source needs a journal")

    def test_a_journal_of_another_desk_is_refused(self):
        desk = self.made(DISCUSSION)
        other = self.copy_of(desk, "another")
        other.journal.write_bytes(b"".join(desk.lines()))
        ran = self.leaves(other, "an act", lambda: other.act("--at", T0 + 3 * DAY, *SPONSOR))
        reports("a journal of another desk", ran, 1, "nothing was sent: ", str(desk.file))

    def test_an_early_date_that_is_taken_is_refused_by_the_desk(self):
        for words in ["--at", 946_684_800], ["--at", 2026, "--ahead"]:
            with self.subTest(words=words):
                ran = self.made(DISCUSSION).act(*words, "vary", "1", "days=1")
                reports(f"an early date by {words}", ran, 1, "refused 2 ClockBack")

    def test_a_rehearsal_takes_a_date_to_come_and_leaves_a_desk_whose_clock_is_ahead(self):
        desk, far = self.made(DISCUSSION), int(time.time()) + DAY
        ahead = ["--at", far, "--ahead"]
        reports("a vary", desk.act(*ahead, "vary", "1", "days=1"), 1, "refused 12 Ended")
        reports("an act", desk.act(*ahead, "unsponsor", "1", "choice=1", "login=d2"), 0, "ok 6")
        ran = desk.act("sponsor", "1", "choice=1", "login=d2")
        reports("an act after it", ran, 1, "nothing was sent: the desk's clock is ", "with --ahead")

    def test_a_desk_that_another_process_holds_is_sent_nothing_and_nothing_is_kept(self):
        desk = self.made(DISCUSSION[:1])
        kept = desk.lines()
        with serve(desk.file, 1):
            for words, run in ("act", lambda: desk.act("close", "1")), ("replay", lambda: desk.tool("replay")):
                with self.subTest(words=words):
                    message = "nothing was sent: another process holds ", "systemctl stop gr_desk"
                    reports("a desk that is held", run(), 3, *message)
        self.assertEqual(desk.lines(), kept)


class NoDesk(JournalCase):
    def test_a_replay_and_a_check_name_a_file_that_is_no_desk_and_leave_it(self):
        desk = self.made(DISCUSSION[:1])
        roll = self.folder() / "roll.csv"
        roll.write_text(ROLL_FILE)
        for words in ["replay", desk.journal, roll], ["check", desk.journal, desk.file, "--from", roll]:
            with self.subTest(words=words[0]):
                ran = desk.run("journal", *words)
                reports(words[0], ran, 3, f"{roll} does not open, and the program said: fault F2 Store")
                is_silent(words[0], ran, ".desk-")
                self.assertEqual(roll.read_text(), ROLL_FILE)

    def test_an_act_on_a_file_that_is_no_desk_is_not_sent_and_not_kept(self):
        work = self.folder()
        roll, journal = work / "roll.csv", work / "never.journal"
        roll.write_text(ROLL_FILE)
        desk = Journaled(work, "no")
        # The second is a file that each account may open, and none may read from its beginning.
        for file, why in (roll, f"{roll} cannot be read as a desk: "), ("/proc/self/mem", "cannot be copied: "):
            for words in [], ["--journal", journal]:
                with self.subTest(file=file, words=words):
                    ran = desk.run("act", "--desk", file, *words, "close", "1")
                    reports(f"act on {file}", ran, 3, "gr-desk act: nothing was sent: ", why)
        self.assertEqual(journal.read_bytes(), b"")
