"""Looks at gr-desk journal replay. It brings a copy of a desk to the rows of the desk that is gone, by the acts of the
journal, or leaves it as it is, byte for byte: where acts are missing, where an answer differs, and in another desk. An
act may be left out. A replay that was killed after its copy had the place of the desk is found done."""
import json
import re
import sqlite3
import stat
from contextlib import closing

from tests.commands.journal_case import SECRETS, SHORTER, JournalCase, entries_in, is_silent, put_back
from tests.support.failing import failing
from tests.support.journaled import (
    CALL,
    CALLED,
    CLOSE,
    DISCUSSION,
    ENDED,
    VOTES,
    WHOLE,
    Journaled,
    accepted_of,
    reports,
    same_rows,
    vote_of,
)
from tests.support.program import DAY, T0, Ran, copy_desk, make_desk, once, receipt, serve
from grdesk.journal.entry import Entries, line_of
from grdesk.journal.stopped_replay import became_of, with_replay

WITHDRAW = ["withdraw", "1", "choice=1"]


class ReplayCase(JournalCase):
    """A test with a copy of the night, from before the call."""

    @classmethod
    def setUpClass(cls):
        super().setUpClass()
        work = cls.shared_folder()
        cls.night = copy_desk(Journaled.made(work, "night", DISCUSSION).file, work / "copy.db")


class Replays(JournalCase):
    """A disk dies in the middle of voting: there are the night's copy and the journal."""

    @classmethod
    def setUpClass(cls):
        super().setUpClass()
        work = cls.shared_folder()
        cls.night = work / "night.db"
        cls.voted = Journaled.made(work, "dies", DISCUSSION)
        cls.backup = cls.voted.run("backup", cls.voted.file, cls.night)
        cls.voted.accepts([CALL, *VOTES[:3]])

    def restored(self):
        """The desk as gr-desk restore puts it back from the copy, and its journal."""
        desk = self.copy_of(self.voted, "dies")
        for path in desk.file, desk.file.with_name(f"{desk.file.name}-wal"):
            path.unlink(missing_ok=True)
        reports("restore", desk.run("restore", self.night, desk.file), 0, "ok")
        return desk

    def test_a_replay_brings_the_copy_of_the_night_to_the_rows_of_the_desk_that_is_gone(self):
        reports("backup", self.backup, 0, "ok")
        held, desk = self.voted.rows(), self.restored()
        ran = desk.tool("replay")
        reports("a replay", ran, 0, "entered 6: ", "entered the votes between\nok\n")
        is_silent("a replay", ran, *SECRETS)
        same_rows("after a replay", desk.file, held)
        reports("a second one", desk.tool("replay"), 0, "nothing is missing in the desk\nok\n")
        same_rows("after a second one", desk.file, held)
        self.assertEqual(stat.filemode(desk.file.stat().st_mode), "-rw-------", "its mode")
        desk.accepts([VOTES[3], CLOSE])
        reports("its check", desk.tool("check"), 0, "ok")
        reports("its check from the copy", desk.tool("check", "--from", self.night), 0, "ok")

    def test_a_replay_that_is_done_says_so_although_its_journal_takes_no_more(self):
        held, desk = self.voted.rows(), self.restored()
        line = ["journal", "replay", desk.journal, desk.file]
        ran = desk.run(*line, environment=failing(self.folder(), lines=1))
        message = f"the replay is done, and {desk.file} has these acts, but {desk.journal} cannot be written: No space"
        reports("a replay on a full disk", ran, 0, message, "entered the votes between\nok\n")
        same_rows("after a replay on a full disk", desk.file, held)
        reports("the next replay", desk.tool("replay"), 0, "so it is done", "nothing is missing in the desk")

    def test_a_dry_run_says_what_a_replay_would_enter_and_enters_nothing(self):
        desk = self.restored()
        before = desk.file.read_bytes(), desk.lines()
        ran = desk.tool("replay", "--dry-run")
        message = "would enter 6: 2026-01-15T00:00:00Z", "would enter the votes between"
        reports("a replay that is tried", ran, 0, *message)
        is_silent("a replay that is tried", ran, *SECRETS)
        self.assertEqual((desk.file.read_bytes(), desk.lines()), before, "the desk and its journal")

    def test_no_act_is_sent_before_the_replay(self):
        desk = self.restored()
        before = desk.file.read_bytes(), desk.lines()
        for words in WITHDRAW, ["--yes", *WITHDRAW], CALL[1]:
            with self.subTest(words=words):
                ran = desk.act("--at", CALLED + DAY + 1, *words)
                message = "nothing was sent: ", "gr-desk journal replay", "with --give-up"
                reports("an act before the replay", ran, 1, *message)
                self.assertEqual((desk.file.read_bytes(), desk.lines()), before, "the desk and its journal")

    def test_the_acts_that_a_desk_lacks_are_given_up_by_give_up_alone(self):
        desk = self.copy_of(self.voted)
        put_back(desk, self.night)
        ran = desk.act("--at", CALLED + DAY + 1, "--give-up", *WITHDRAW)
        message = f"{desk.file} lacks acts that {desk.journal} has, and they are given up"
        reports("one that gives up", ran, 0, "ok 6", message)
        reports("the replay after it", desk.tool("replay"), 0, "nothing is missing in the desk")
        reports("the check after it", desk.tool("check"), 0, "ok")

    def test_give_up_goes_with_a_desk_and_a_journal_and_not_with_hold(self):
        desk = self.copy_of(self.voted)
        put_back(desk, self.night)
        with self.subTest(words="--hold"):
            ran = desk.act("--at", CALLED + DAY + 1, "--give-up", "--hold", "1h", *WITHDRAW)
            reports("an act that waits and gives up", ran, 2, "--give-up and --hold are given")
        for place in ["--port", 9, "--journal", desk.journal], ["--desk", desk.file]:
            with self.subTest(words=place[0]):
                ran = desk.run("act", *place, "--give-up", *WITHDRAW)
                reports("one without a journal or a desk", ran, 2, "--give-up needs --desk and a journal")


class Refusals(ReplayCase):
    """What a replay does not enter, with the desk as it was after it."""

    def refuses(self, desk, status, *texts):
        """A replay does not enter anything. Gives what came of it."""
        before = desk.file.read_bytes()
        ran = desk.tool("replay")
        reports("a replay", ran, status, "nothing was entered: ", *texts)
        self.assertEqual(desk.file.read_bytes(), before, "the desk after it")
        return ran

    def test_a_replay_by_a_journal_that_ends_before_its_desk_says_so(self):
        for vote, acts, kept in SHORTER:
            with self.subTest(vote=vote, kept=kept), self.shorter_journal(vote, acts, kept) as (desk, lacks):
                ran = desk.tool("replay")
                message = f"gr-desk journal: nothing was entered: {lacks}\n"
                self.assertEqual((ran.status, ran.out, ran.err.decode()), (1, b"", message))

    def with_acts_by_another_way(self, acts):
        """A desk with these acts, two that came by another way, and one after them, in whose place the copy is."""
        desk = self.made(acts)
        at, count = acts[-1][0], len(acts)
        for number in count + 1, count + 2:
            once(desk.file, at, "/developers", f"login=e{number}&name=A&status=current", f"ok {number}")
        ran = desk.act("--at", at, "developer", "login=e9", "name=A", "status=current")
        reports("an act after others", ran, 0, f"ok {count + 3}", "has acts that came by another way")
        put_back(desk, self.night)
        return desk

    def test_where_acts_came_by_another_way_nothing_is_entered_and_their_numbers_are_named(self):
        self.refuses(self.with_acts_by_another_way(DISCUSSION), 1, "with the numbers 6 to 7")

    def test_their_numbers_are_not_named_where_they_tell_how_many_ballots_of_a_running_vote_came(self):
        desk = self.with_acts_by_another_way([*DISCUSSION, CALL, *VOTES])
        ran = self.refuses(desk, 1, "acts that came by another way are missing in the journal\n")
        is_silent("a replay of a running vote", ran, "numbers")

    def test_nothing_is_entered_into_another_desk_that_has_more_acts(self):
        desk = self.made(DISCUSSION[:2], "stranger")
        once(desk.file, T0 + 5, "/resolutions/1/sponsor", "choice=1&login=d2", "ok 3")
        other = self.made(WHOLE, "other")
        kept = desk.journal.read_bytes(), other.file.read_bytes()
        ran = desk.run("journal", "replay", desk.journal, other.file)
        reports("a replay into another desk that has more", ran, 1, "may be another desk")
        self.assertEqual((desk.journal.read_bytes(), other.file.read_bytes()), kept, "the journal and the desk")

    def test_a_replay_stops_at_the_first_answer_that_differs(self):
        for words, old, new, message in [
            ("a vote", receipt(1, "d2", "tokenA02"), "0" * 64, "v2, a vote, is answered in another way than it was"),
            ("a call", str(ENDED), str(ENDED + 1), "6 (call 1 days=7) was answered `ok 6 places 3 until 1769040001`"),
        ]:
            with self.subTest(words=words):
                desk = self.made([*DISCUSSION, CALL, *VOTES])
                put_back(desk, self.night)
                desk.journal.write_bytes(desk.journal.read_bytes().replace(old.encode(), new.encode()))
                ran = self.refuses(desk, 1, message)
                is_silent("a replay that differs", ran, receipt(1, "d2", "tokenA02"), "tokenA02")
                self.assertEqual(list(desk.file.parent.glob(".desk-*")), [], "what stands beside it")


class OtherDesks(ReplayCase):
    """Desks that have as many acts as the first ones of a journal, and the last at the same moment."""

    def refused(self, journaled, file, *texts):
        """A replay enters nothing into a desk, which is another one, and its journal stays. Gives what it reports."""
        before = file.read_bytes(), journaled.lines()
        ran = journaled.run("journal", "replay", journaled.journal, file)
        message = f"nothing was entered: {file} is no copy of the desk of {journaled.journal}"
        reports("a replay into another desk", ran, 1, message, *texts)
        self.assertEqual((file.read_bytes(), journaled.lines()), before, "the desk and the journal")
        return ran

    def test_a_desk_with_another_roll_of_the_same_moment_is_refused(self):
        desk = self.made([*DISCUSSION[:1], (T0 + 5, ["developer", "login=d9", "name=N", "status=current"], "", "ok 2")])
        other = Journaled(self.folder(), "other")
        rows = "".join(f"f{number},Another {number},current\n" for number in range(40))
        make_desk(other.file)
        given = f"login,name,status\n{rows}"
        reports("another roll", other.act("--at", T0, "import", given=given), 0, "ok 1 added 40 ")
        ran = self.refused(desk, other.file, "developer login d1: the row is missing; ", "; and more. ")
        is_silent("a replay into another desk", ran, "Another", "The Name of")

    def test_a_desk_in_whose_place_another_one_was_put_is_refused(self):
        desk, other = self.made(WHOLE), self.made([*DISCUSSION[:4], (*DISCUSSION[4][:1], *self.another())])
        put_back(desk, other.file)
        self.refused(desk, desk.file, "choice resolution 1, number 1: summary; choice resolution 1, number 1: body. ")

    def another(self):
        """Another amendment."""
        return ["amend", "1", "choice=1", "minor=0", "summary=Scarlet", "text=The desk is scarlet."], "", "ok 5"

    def test_the_moment_of_the_last_act_is_compared_too(self):
        desk, other = self.made(WHOLE), self.made(DISCUSSION[:1])
        other.accepts([(T0 + 5, *DISCUSSION[1][1:])])
        self.refused(desk, other.file, "desk id 1: clock")

    def test_of_the_ballots_of_a_running_vote_it_is_said_only_that_they_differ(self):
        desk = self.made(WHOLE)
        other = self.made([*DISCUSSION, CALL, vote_of(CALLED + 60, "d4", "zzz", "tokenB01", 7)])
        for acts in [], VOTES[1:3]:
            other.accepts(acts)
            with self.subTest(acts=len(acts)):
                message = "make other rows: ballot2 resolution 1: its ballots differ, and no more is said while it is"
                ran = self.refused(desk, other.file, message)
                is_silent("a replay into another desk", ran, "login d", *SECRETS)


class FromCopies(ReplayCase):
    """The journal lacks the first acts of a desk: it began later."""

    @classmethod
    def setUpClass(cls):
        super().setUpClass()
        work = cls.shared_folder()
        cls.early = Journaled.made(work, "early", DISCUSSION[:3]).file
        cls.desk = Journaled.made(work, "later", WHOLE)
        cls.desk.journal.write_bytes(b"".join(cls.lines_of_later(cls.desk)))

    @staticmethod
    def lines_of_later(desk):
        """The lines of a journal without its first three acts."""
        for line in map(json.loads, desk.lines()[6:]):
            if not line["number"].startswith("v"):
                line["number"] = str(int(line["number"]) - 3)
            yield json.dumps(line).encode() + b"\n"

    def setUp(self):
        self.held = self.desk.rows()
        self.restored = self.copy_of(self.desk)
        put_back(self.restored, self.night)

    def refuses(self, *words):
        before = self.restored.file.read_bytes(), self.restored.lines()
        ran = self.restored.tool("replay", *words)
        self.assertEqual((self.restored.file.read_bytes(), self.restored.lines()), before, "the desk and its journal")
        return ran

    def test_without_a_copy_nothing_is_entered_and_that_is_said(self):
        message = "nothing was entered: acts that came by another way are missing in the journal"
        message = f"{message}, with the numbers 1 to 3"
        reports("a replay", self.refuses(), 1, message, "--from COPY, an earlier copy of it that has them, shows it\n")

    def test_from_an_earlier_copy_the_acts_are_entered_and_compared(self):
        reports("a replay", self.restored.tool("replay", "--from", self.early), 0, "entered 3: ", "ok\n")
        same_rows("after a replay", self.restored.file, self.held)

    def test_a_copy_with_as_many_acts_is_taken_for_what_it_is(self):
        reports("a replay", self.restored.tool("replay", "--from", self.night), 0, "entered 3: ", "ok\n")
        same_rows("after a replay", self.restored.file, self.held)

    def test_no_copy_vouches_for_a_desk_that_can_be_compared_with_all_acts(self):
        whole = self.made(DISCUSSION)
        copy = copy_desk(whole.file, self.folder() / "copy.db")
        before = whole.file.read_bytes(), whole.lines()
        ran = whole.tool("replay", "--from", copy)
        reports("a replay", ran, 1, " has all acts from the first on, ", "leave out --from\n")
        self.assertEqual((whole.file.read_bytes(), whole.lines()), before)

    def test_a_copy_with_more_acts_is_refused(self):
        ran = self.refuses("--from", self.desk.file)
        reports("a replay", ran, 1, f"{self.desk.file} has more acts than {self.restored.file}; give an earlier copy")

    def test_a_desk_with_other_rows_is_refused_from_a_copy_too(self):
        other = self.made([*DISCUSSION[:4], (*DISCUSSION[4][:1], *OtherDesks.another(self))])
        put_back(self.restored, other.file)
        reports("a replay", self.refuses("--from", self.early), 1, "is no copy of the desk of ", "number 1: summary; ")


# An act that a replay is to leave out, and the call after it, with its number and without that act.
VARY = (T0 + 5 * DAY, ["vary", "1", "days=7"], "", "ok 6")
LATE_CALL = (CALLED + 7 * DAY, CALL[1], "", f"ok 7 places 3 until {ENDED + 7 * DAY}")
CALL_WITHOUT = (CALLED + 7 * DAY, CALL[1], "", f"ok 6 places 3 until {ENDED + 7 * DAY}")


class Omissions(ReplayCase):
    """A wrong act is left out, and those after it have lower counts."""

    @classmethod
    def setUpClass(cls):
        super().setUpClass()
        work = cls.shared_folder()
        vote = CALLED + 8 * DAY, "d1", "113", "tokenA01"
        cls.desk = Journaled.made(work, "without", [*DISCUSSION, VARY, LATE_CALL, vote_of(*vote, 8)])
        cls.expected = Journaled.made(work, "expected", [*DISCUSSION, CALL_WITHOUT, vote_of(*vote, 7)])
        cls.replayed = cls.desk.copied(work, "replayed")
        put_back(cls.replayed, cls.night)
        cls.came = cls.replayed.tool("replay", "--without", "6")

    def test_an_act_that_the_desk_has_cannot_be_left_out(self):
        ran = self.copy_of(self.desk).tool("replay", "--without", "6")
        reports("without an act that it has", ran, 1, "6 is not one of the acts")

    def test_a_replay_without_an_act_makes_the_desk_that_never_had_it(self):
        reports("a replay without 6", self.came, 0, "ok")
        same_rows("without 6", self.replayed.file, self.expected.rows())
        reports("the check without 6", self.replayed.tool("check"), 0, "ok")

    def test_the_list_has_the_act_as_gone_and_the_new_numbers_of_those_after_it(self):
        reports("the list without 6", self.replayed.tool("list"), 0, "gone with the desk that had it")
        closed = self.copy_of(self.replayed)
        closed.accepts([(ENDED + 7 * DAY, ["close", "1"], "", "ok 8")])
        message = closed.tool("list").out.decode()
        numbers = re.findall("^ +(ok [0-9]+)", message, re.M)
        self.assertEqual(numbers, [f"ok {number}" for number in (1, 2, 3, 4, 5, 6, 8)])
        self.assertIn(f"call 1 days=7\n      ok 6 places 3 until {ENDED + 7 * DAY}\n", message)

    def test_a_replay_that_was_killed_before_it_was_in_the_journal_is_found_done(self):
        desk = self.copy_of(self.replayed)
        kept = desk.lines()
        desk.journal.write_bytes(b"".join(kept[:-1]))
        reports("the check after a kill", desk.tool("check"), 0, "ok")
        self.assertEqual(desk.lines(), kept[:-1], "the lines that a check leaves")
        reports("a replay after it", desk.tool("replay"), 0, "nothing is missing")

    def test_a_second_replay_leaves_out_the_act_again(self):
        desk = self.copy_of(self.replayed)
        desk.accepts([vote_of(CALLED + 9 * DAY, "d2", "113", "tokenA02", 8)])
        reports("the check after another act", desk.tool("check"), 0, "ok")
        held = desk.rows()
        put_back(desk, self.night)
        reports("a second replay", desk.tool("replay"), 0, "ok")
        same_rows("after a second replay", desk.file, held)


class KilledReplays(ReplayCase):
    """A replay that left out an act was killed once its copy had the place of the desk, and an act came by another way
    before the next tool ran."""

    def killed(self):
        """The desk, by a replay of its own: by its inode it is known again, so it is no copy."""
        desk = self.made([*DISCUSSION, VARY, LATE_CALL])
        put_back(desk, self.night)
        reports("a replay without 6", desk.tool("replay", "--without", "6"), 0, "ok")
        desk.journal.write_bytes(b"".join(desk.lines()[:-1]))
        once(desk.file, LATE_CALL[0], "/developers", "login=e7&name=A&status=current", "ok 7")
        return desk

    def done(self, desk):
        """What the next tool reports."""
        is_done = f"a replay was stopped: its copy is in the place of {desk.file}, so it is done"
        return f"{is_done}; acts have come by another"

    def test_the_replay_is_found_done_by_a_list(self):
        desk = self.killed()
        reports("list after a kill", desk.tool("list"), 0, self.done(desk), "gone with the desk that had it")
        self.assertEqual(accepted_of(desk.file), 7, "the acts of the desk")

    def test_the_replay_is_found_done_by_another_replay_which_enters_nothing(self):
        desk = self.killed()
        lacks = f"nothing was entered: {desk.file} has acts that {desk.journal} lacks"
        reports("replay after a kill", desk.tool("replay"), 1, self.done(desk), lacks)
        self.assertEqual(accepted_of(desk.file), 7, "the acts of the desk")

    def test_the_replay_is_found_done_by_an_act_and_no_act_is_lost_or_doubled(self):
        desk = self.killed()
        developer = "developer", "login=e8", "name=A", "status=current"
        reports("act after a kill", desk.act("--at", LATE_CALL[0], *developer), 0, self.done(desk), "ok 8\n")
        self.assertEqual(accepted_of(desk.file), 8, "the acts of the desk")
        found = {number: entry.number for number, entry in entries_in(desk.journal).accepted.items()}
        self.assertEqual(found, {1: "1", 2: "2", 3: "3", 4: "4", 5: "5", 6: "7", 8: "8"})
        # The copy has not the place of the desk any more, where an earlier one was put back.
        desk.journal.write_bytes(b"".join(desk.lines()[:-3]))
        put_back(desk, self.night)
        message = f"a replay was stopped: its copy is not in the place of {desk.file}, so nothing was entered\n"
        reports("a replay of both", desk.tool("replay"), 0, message, "entered 6: ", "entered 7: ", "ok\n")
        reports("its check", desk.tool("check"), 0, "ok")


class PutBackAfterAReplay(ReplayCase):
    """A replay that left out an act was killed when the journal had its line. By then its copy had the place of the
    desk, or not, and something else was put there."""

    DONE = "a replay was stopped: its copy is in the place of {0}, so it is done\n"
    NOT_DONE = "a replay was stopped: its copy is not in the place of {0}, so nothing was entered\n"

    def setUp(self):
        self.desk = self.made([*DISCUSSION, VARY, LATE_CALL])
        self.newer = copy_desk(self.desk.file, self.folder() / "newer.db")
        put_back(self.desk, self.night)
        reports("a replay without 6", self.desk.tool("replay", "--without", "6"), 0, "ok")
        self.desk.journal.write_bytes(b"".join(self.desk.lines()[:-1]))

    def put_into_the_file(self, copy):
        """Puts a copy there, which gets the inode of the one that the replay has put there."""
        inode = self.desk.file.stat().st_ino
        whole = copy_desk(copy, self.folder() / "whole.db")
        with closing(sqlite3.connect(whole)) as conn:
            conn.execute("PRAGMA wal_checkpoint(TRUNCATE)")
        self.desk.file.write_bytes(whole.read_bytes())
        self.desk.file.with_name(f"{self.desk.file.name}-wal").unlink(missing_ok=True)
        self.assertEqual((self.desk.file.stat().st_ino, accepted_of(self.desk.file)), (inode, accepted_of(copy)))

    def finds(self, words, *texts):
        """The tool reports what became of the replay, and these texts."""
        expected = words.format(self.desk.file), *texts
        reports("a list", self.desk.tool("list"), 0, *expected)
        reports("an act", self.desk.act("--at", LATE_CALL[0], "developer", "login=e7", "name=A", "status=current"), 0,
                *expected[:1])
        reports("the check after it", self.desk.tool("check"), 0, "ok\n")

    def accepted(self):
        found = {number: entry.number for number, entry in entries_in(self.desk.journal).accepted.items()}
        return list(found.values())

    def test_a_newer_copy_with_the_same_inode_is_not_taken_for_the_replay(self):
        self.put_into_the_file(self.newer)
        self.finds(self.NOT_DONE)
        self.assertEqual(self.accepted(), ["1", "2", "3", "4", "5", "6", "7", "8"])

    def test_a_copy_of_the_replayed_desk_with_another_inode_is_taken_for_it(self):
        with closing(sqlite3.connect(self.desk.file)) as conn:
            conn.execute("VACUUM")
        put_back(self.desk, copy_desk(self.desk.file, self.folder() / "replayed.db"))
        self.finds(self.DONE, "gone with the desk that had it")
        self.assertEqual(self.accepted(), ["1", "2", "3", "4", "5", "7", "8"])

    def test_while_the_desk_cannot_be_read_that_is_said_and_found_out_later(self):
        replayed = copy_desk(self.desk.file, self.folder() / "replayed.db")
        message = f"a replay was stopped, and {self.desk.file} cannot be read to see whether it was done: "
        before = self.desk.lines()
        self.desk.file.write_bytes(b"no desk\n")
        reports("a list of what is no desk", self.desk.tool("list"), 0, message)
        reports("an act with what is no desk", self.desk.tool("drop", "1"), 3, f"nothing was done: {message}",
                "; put a copy of that desk in its place, or move it away\n")
        self.desk.file.unlink()
        reports("a list without a desk", self.desk.tool("list"), 0, f"{message}No such file or directory\n")
        reports("an act without a desk", self.desk.tool("drop", "1"), 1, message)
        self.assertEqual(self.desk.lines(), before)
        put_back(self.desk, replayed)
        self.finds(self.DONE)

    def test_a_replay_whose_open_act_was_settled_meanwhile_is_not_done(self):
        entries = Entries()
        fields = {"login": "d1", "name": "One", "status": "current"}
        what = {"number": "1", "desk": "/desk", "path": "/developers", "fields": fields, "source": None}
        known = {"sha256": "", "inode": 1, "count": 1}
        for line in [line_of("act", **what, moment=T0, before=None, count=0),
                     line_of("replay", desk="/desk", without=None, answers={"1": "ok 1\n"}, **known)]:
            entries.take(line)
        self.assertEqual(with_replay(entries).last, 1)
        entries.take(line_of("found", number="1", count=None))
        self.assertEqual(became_of(entries)[0], False)


class OtherPlaces(ReplayCase):
    def test_a_desk_that_is_put_back_at_another_place_takes_its_journal_with_it(self):
        desk = self.made(WHOLE, "moves")
        moved = Journaled(self.folder(), "moved")
        moved.journal = desk.journal
        copy_desk(self.night, moved.file)
        message = "is the journal of the desk"
        reports("an act at another place", moved.act("--at", ENDED, "close", "1"), 1, message)
        now = f"is the journal of {moved.file}, and no longer of {desk.file}"
        reports("its replay", moved.tool("replay"), 0, "ok", now)
        same_rows("at the new place", moved.file, desk.rows())
        developer = ["developer", "login=d5", "name=A", "status=current"]
        reports("an act there", moved.act("--at", ENDED, *developer), 0, "ok 12")
        reports("an act at the old place", desk.act("--at", ENDED, "close", "1"), 1, message)


class Ports(JournalCase):
    """Acts that came by a port, and have no exact moment."""

    @classmethod
    def setUpClass(cls):
        super().setUpClass()
        work = cls.shared_folder()
        cls.desk = desk = Journaled.made(work, "ports")
        cls.first = copy_desk(desk.file, work / "first.db")
        developers = [["developer", f"login=d{number}", "name=A", "status=current"] for number in range(3)]
        refused = ["sponsor", "9", "choice=1", "login=a"]
        acts = [*developers, ["propose", "author=@leader", "summary=Red", "text=a", "ratio=1"], refused]
        with serve(desk.file, len(acts)) as served:
            for words in acts:
                desk.run("act", "--port", served.port, "--journal", desk.journal, *words)
            cls.ended = served.ended()
        cls.count = len(acts)

    def test_an_act_by_a_port_has_the_seconds_between_which_it_came(self):
        self.assertEqual(self.ended, Ran(0, b"", b""))
        lines = [json.loads(line) for line in self.desk.lines()]
        self.assertEqual(len(lines), 2 * self.count)
        for act, answer in zip(lines[::2], lines[1::2]):
            with self.subTest(number=act["number"]):
                self.assertEqual((act["moment"], act["desk"]), (None, None))
                self.assertLessEqual(act["before"], answer["after"])
        reports("the check of acts by a port", self.desk.tool("check"), 0, "ok")

    def test_a_replay_of_acts_by_a_port_makes_the_same_roll(self):
        desk = self.copy_of(self.desk)
        held = desk.rows()
        put_back(desk, self.first)
        reports("a replay of acts by a port", desk.tool("replay"), 0, "ok")
        self.assertEqual(desk.rows()["developer"], held["developer"])

    def test_an_act_by_a_port_that_comes_before_the_replay_says_the_way_back_and_that_leads_to_the_same_rows(self):
        desk = self.copy_of(self.desk)
        put_back(desk, self.first)
        reports("a replay of acts by a port", desk.tool("replay"), 0, "ok")
        held, words = desk.rows(), ["--journal", desk.journal, "developer", "login=d9", "name=A", "status=current"]
        put_back(desk, self.first)
        with serve(desk.file, 2) as served:
            ran = desk.run("act", "--port", served.port, *words)
            way_back = "remove the last two lines of the journal"
            reports("an act before a replay", ran, 0, "ok 1", "gives them up", way_back)
            is_silent("the next one", desk.run("act", "--port", served.port, *words), "given up")
            served.ended()
        desk.journal.write_bytes(b"".join(desk.lines()[:-4]))
        put_back(desk, self.first)
        reports("the replay after it", desk.tool("replay"), 0, "ok")
        same_rows("after the way back", desk.file, held)


class CloseMoments(JournalCase):
    """Acts by a port within few seconds, each of which may have come in a second that another one has in the rows."""

    def test_each_act_gets_the_second_that_is_in_the_rows(self):
        moments = T0, T0 + 1, T0 + 2, T0 + 4, T0 + 5
        desk = self.made([(at, *act[1:]) for at, act in zip(moments, DISCUSSION)])
        lines = [json.loads(line) for line in desk.lines()]
        for act, answer in zip(lines[::2], lines[1::2]):
            act["before"], answer["after"], act["moment"] = act["moment"] - 2, act["moment"] + 1, None
        desk.journal.write_text("".join(f"{json.dumps(line)}\n" for line in lines))
        reports("a check", desk.tool("check"), 0, "ok\n")
        reports("a replay", desk.tool("replay"), 0, "nothing is missing in the desk\n")


class Spans(JournalCase):
    """A vote whose acts came within spans of several seconds: a call and a close have just one that is right."""

    @classmethod
    def setUpClass(cls):
        super().setUpClass()
        cls.desk = Journaled.made(cls.shared_folder(), "spans", WHOLE)
        lines = [json.loads(line) for line in cls.desk.lines()]
        for act, answer in zip(lines[::2], lines[1::2]):
            act["before"], answer["after"], act["moment"] = act["moment"] - 2, act["moment"] + 1, None
        cls.desk.journal.write_text("".join(f"{json.dumps(line)}\n" for line in lines))

    def test_a_check_tries_the_seconds_of_a_span(self):
        reports("the check of spans", self.desk.tool("check"), 0, "ok")

    def test_a_replay_finds_the_seconds_of_the_call_and_the_close(self):
        desk = self.copy_of(self.desk)
        held = desk.rows()
        put_back(desk, self.made(name="empty").file)
        reports("a replay of spans", desk.tool("replay"), 0, "ok")
        found = desk.rows()
        for table in "developer", "sponsor", "ballot2":
            with self.subTest(table=table):
                self.assertEqual(found[table], held[table])
        self.assertEqual((found["resolution"][0][5], found["desk"][0][3]), (CALLED, ENDED), "the call and the close")
