"""Looks at open acts: those that were sent, and of which no answer is kept. That a desk has accepted one that came by a
port is never taken from a number: it stays open until the rows of the desk show it, or the Secretary says so by gr-desk
journal settle. No replay enters anything while nobody knows of such an act, and no check has a right desk undone."""
import json
import socket
import time
from threading import Thread

from tests.commands.journal_case import SECRETS, JournalCase, entries_in, is_silent, put_back
from tests.support.case import Case
from tests.support.journaled import CALL, DISCUSSION, VOTES, Journaled, reports
from tests.support.program import DAY, LOCAL, PATIENCE, T0, copy_desk, once, receipt, serve
from grdesk.error import Refused
from grdesk.journal.entry import Entries, Entry, Fate, UnknownForm, line_of
from grdesk.journal.open_act import check_settles

VARY = ["vary", "1", "days=1"]
OF_VARY = "the journal has no answer to 4 (vary 1 days=1)"
NEWCOMER = ["developer", "login=d9", "name=Nine", "status=current"]
SETTLE = "run gr-desk journal settle 4 accepted, or settle 4 refused"


class GrowingJournal:
    """The acts of a journal, which gets one line after the other."""

    def __init__(self):
        self.entries = Entries()

    def act(self, moment=None, count=None, held=False):
        """An act is sent: to a port, or to a file at a moment; or it is held. Gives what is kept of it."""
        number = self.entries.next_number(False)
        before = T0 if moment is None else None
        if held:
            self.entries.take(line_of("held", **self.what(number), moment=T0, until=None))
        else:
            self.entries.take(line_of("act", **self.what(number), moment=moment, before=before, count=count))
        return self.entries.all[number]

    def sent(self, entry):
        """An act that was held is sent."""
        self.entries.take(line_of("act", **self.what(entry.number), moment=T0, before=None, count=0))

    def what(self, number):
        fields = {"login": "d1", "name": "One", "status": "current"}
        return {"number": number, "desk": None, "path": "/developers", "fields": fields, "source": None}

    def answered(self, count, **how):
        """An act is sent, and accepted with this number."""
        entry = self.act(**how)
        after = T0 + 1 if entry.is_by_port else None
        self.entries.take(line_of("answer", number=entry.number, status=200, text=f"ok {count}\n", after=after))
        return entry

    def found(self, entry, count):
        self.entries.take(line_of("found", number=entry.number, count=count))

    def fates(self):
        return [entry.fate for entry in self.entries.all.values()]


class Numbers(Case):
    """What the numbers of a journal say of an open act, and what they do not say."""

    def journal_with(self, *counts):
        journal = GrowingJournal()
        for count in counts:
            journal.answered(count)
        return journal

    def test_an_act_over_which_the_clock_was_set_back_came_at_the_second_before_it(self):
        entry = Entry("1", "/resolutions/1/close", {}, None, None, before=1_000, after=990)
        self.assertEqual(list(entry.seconds()), [1_000])

    def test_an_act_by_a_port_with_the_one_free_number_is_not_accepted_for_that(self):
        journal = self.journal_with(1, 2, 3)
        lost = journal.act()
        journal.answered(5)
        self.assertEqual((lost.fate, sorted(journal.entries.accepted)), (Fate.OPEN, [1, 2, 3, 5]))
        self.assertEqual(journal.entries.numbers_for(lost), [4])

    def test_nor_is_one_to_a_file_with_another_one_after_it(self):
        journal = self.journal_with(1, 2, 3)
        lost = journal.act(moment=T0, count=3)
        journal.answered(5)
        self.assertEqual(lost.fate, Fate.OPEN)

    def test_nor_are_several_with_as_many_numbers(self):
        journal = self.journal_with(1)
        lost = [journal.act() for _ in range(3)]
        journal.answered(5)
        self.assertEqual([entry.fate for entry in lost], [Fate.OPEN] * 3)
        self.assertEqual([journal.entries.numbers_for(entry) for entry in lost], [[2, 3, 4]] * 3)
        journal.found(lost[1], 3)
        self.assertEqual([journal.entries.numbers_for(lost[place]) for place in (0, 2)], [[2], [4]])

    def test_one_without_a_free_number_was_not_accepted(self):
        journal = self.journal_with(1, 2)
        lost = journal.act()
        journal.answered(3)
        self.assertEqual(lost.fate, Fate.NOT_ACCEPTED)

    def test_a_line_of_an_earlier_program_that_settles_the_last_of_two_leaves_the_first_open(self):
        journal = self.journal_with(1, 2)
        first, last = journal.act(), journal.act()
        journal.found(last, 4)
        self.assertEqual((first.fate, last.fate), (Fate.OPEN, Fate.ACCEPTED))
        self.assertEqual(journal.entries.numbers_for(first), [3])

    def test_a_replay_of_an_earlier_program_that_left_it_out_has_lower_numbers_after_it(self):
        journal = self.journal_with(1)
        lost = journal.act()
        journal.answered(3)
        known = {"sha256": "", "inode": 1, "count": 2}
        journal.entries.take(line_of("replay", desk="/desk", without=lost.number, answers={}, **known))
        journal.entries.take(line_of("replayed", is_done=True))
        found = {number: entry.number for number, entry in journal.entries.accepted.items()}
        self.assertEqual((lost.fate, found, journal.entries.last), (Fate.GONE, {1: "1", 2: "3"}, 2))

    def test_an_act_that_is_settled_between_others_leaves_those_after_it(self):
        journal = self.journal_with(1)
        lost = journal.act()
        journal.answered(3)
        journal.found(lost, 2)
        self.assertEqual(journal.fates(), [Fate.ACCEPTED] * 3)
        self.assertEqual([entry.number for entry in journal.entries.accepted.values()], ["1", "2", "3"])

    def test_a_line_that_gives_it_a_number_of_another_is_of_no_form(self):
        journal = self.journal_with(1)
        lost = journal.act()
        journal.answered(3)
        for count in 1, 3, 4:
            with self.subTest(count=count), self.assertRaises(UnknownForm):
                journal.found(lost, count)

    def test_what_is_said_again_of_an_act_counts_in_the_place_of_the_first_word(self):
        journal = self.journal_with(1)
        lost = journal.act()
        journal.found(lost, 2)
        journal.answered(2)
        self.assertEqual(journal.fates(), [Fate.ACCEPTED, Fate.GONE, Fate.ACCEPTED])
        journal.entries = journal.entries.after(line_of("found", number=lost.number, count=None))
        self.assertEqual(journal.fates(), [Fate.ACCEPTED, Fate.NOT_ACCEPTED, Fate.ACCEPTED])
        self.assertEqual([entry.number for entry in journal.entries.accepted.values()], ["1", "3"])

    def test_an_act_that_was_sent_again_is_not_settled_by_what_was_said_before(self):
        journal = self.journal_with()
        held = journal.act(held=True)
        journal.sent(held)
        journal.found(held, None)
        journal.sent(held)
        self.assertEqual(journal.entries.settled, {})
        journal.found(held, 1)
        self.assertEqual(journal.fates(), [Fate.ACCEPTED])

    def test_what_later_lines_contradict_is_refused_and_changes_nothing(self):
        journal = self.journal_with()
        held = journal.act(held=True)
        journal.sent(held)
        journal.found(held, None)
        journal.entries.take(line_of("dropped", number=held.number, source=None))
        with self.assertRaisesRegex(Refused, "the journal has lines after it that do not go with that"):
            check_settles(journal.entries, held, 1)
        self.assertEqual(journal.fates(), [Fate.DROPPED])

    def test_after_a_desk_went_back_an_act_that_came_later_is_not_in_it(self):
        journal = self.journal_with(1, 2, 3)
        lost = journal.act()
        journal.answered(5)
        later = journal.act()
        journal.answered(3)
        self.assertEqual((lost.fate, later.fate), (Fate.NOT_ACCEPTED, Fate.NOT_ACCEPTED))
        self.assertEqual(sorted(journal.entries.accepted), [1, 2, 3])


def lost_by_port(desk, *words, given=""):
    """An act is sent to a port where what listens takes it and gives no answer."""

    def take():
        peer = listener.accept()[0]
        with peer:
            peer.recv(65_536)

    with socket.create_server((LOCAL, 0)) as listener:
        thread = Thread(target=take, daemon=True)
        thread.start()
        port = listener.getsockname()[1]
        ran = desk.run("act", "--port", port, "--journal", desk.journal, *words, given=given)
        thread.join(PATIENCE)
    reports("an act whose answer is lost", ran, 3, "lost: the answer did not come whole")
    return ran


class OpenCase(JournalCase):
    """A test of a desk whose resolution is under discussion now, with three acts, and a copy of it."""

    @classmethod
    def setUpClass(cls):
        super().setUpClass()
        begin = int(time.time()) - 1_000
        acts = [(begin + (at - T0) // DAY, *act) for at, *act in DISCUSSION[:3]]
        cls.begun = Journaled.made(cls.shared_folder(), "begun", acts)

    def setUp(self):
        self.desk = self.copy_of(self.begun)
        self.night = copy_desk(self.desk.file, self.folder() / "night.db")

    def comes(self, path, form, line):
        """An act comes by another way, and is accepted with this line."""
        once(self.desk.file, int(time.time()), path, form, line)

    def fate(self, number="4"):
        return entries_in(self.desk.journal).all[number].fate

    def leaves(self, command, *words):
        """What a line reports that leaves the desk and its journal as they were."""
        before = self.desk.file.read_bytes(), self.desk.lines()
        ran = self.desk.tool(command, *words)
        self.assertEqual((self.desk.file.read_bytes(), self.desk.lines()), before, "the desk and its journal")
        return ran


class Withdrawn(OpenCase):
    """A withdrawal came by another way, and the answer to a `vary` by a port was lost: it never came to the desk. The
    next act was accepted with a number that leaves one free."""

    def setUp(self):
        super().setUp()
        self.comes("/resolutions/1/withdraw", "choice=1", "ok 4")
        lost_by_port(self.desk, *VARY)
        self.next = self.desk.act(*NEWCOMER)

    def test_the_next_act_says_that_it_is_open(self):
        message = "4 (vary 1 days=1), sent ", "the desk may have accepted it", SETTLE
        reports("the next act", self.next, 0, "ok 5\n", *message)
        self.assertEqual(self.fate(), Fate.OPEN)

    def test_a_list_says_that_no_answer_is_kept(self):
        reports("the list", self.desk.tool("list"), 0, "  vary 1 days=1\n      no answer is kept\n")

    def test_a_replay_into_the_copy_enters_nothing_and_says_why(self):
        put_back(self.desk, self.night)
        message = "nothing was entered: the journal has no answer to 4, and nobody can tell which the desk has"
        reports("a replay", self.leaves("replay"), 1, message, SETTLE)
        reports("a replay that is tried", self.leaves("replay", "--dry-run"), 1, message, SETTLE)

    def test_once_the_secretary_has_refused_it_a_replay_says_that_an_act_is_missing(self):
        put_back(self.desk, self.night)
        reports("settle", self.desk.tool("settle", "4", "refused"), 0, "ok\n", "counts as not accepted")
        message = "nothing was entered: acts that came by another way are missing in the journal, with the numbers 4"
        reports("a replay", self.leaves("replay"), 1, message)

    def test_a_check_advises_no_replay_of_the_right_desk(self):
        ran = self.leaves("check")
        reports("a check", ran, 1, "the journal has no answer to 4, and nobody can tell", "one of the two is wrong",
                "if an act came by another way, the desk is right: a replay would undo that act")
        is_silent("a check", ran, "mend it; ", "a copy and a replay mend it", "enters the others")

    def test_a_replay_of_the_right_desk_enters_nothing(self):
        reports("a replay", self.leaves("replay"), 1, "nothing was entered: ")


class Lost(OpenCase):
    """The answer to a `vary` by a port was lost, and nothing else came."""

    def accepted(self):
        lost_by_port(self.desk, *VARY)
        self.comes("/resolutions/1/vary", "days=1", "ok 4")

    def test_by_the_file_one_that_the_desk_has_is_found_by_its_rows(self):
        self.accepted()
        reports("the next act", self.desk.act(*NEWCOMER), 0, "ok 5\n", f"{OF_VARY}: the desk has accepted it")
        self.assertEqual(self.fate(), Fate.ACCEPTED)
        reports("the check", self.desk.tool("check"), 0, "ok\n")

    def test_by_the_file_one_that_the_desk_has_not_is_found_by_its_rows(self):
        lost_by_port(self.desk, *VARY)
        reports("the next act", self.desk.act(*NEWCOMER), 0, "ok 4\n", f"{OF_VARY}: the desk has not accepted it")
        self.assertEqual(self.fate(), Fate.NOT_ACCEPTED)
        reports("the check", self.desk.tool("check"), 0, "ok\n")

    def test_by_the_file_one_with_the_next_number_that_is_another_act_stays_open(self):
        lost_by_port(self.desk, *VARY)
        self.comes("/resolutions/1/vary", "days=2", "ok 4")
        reports("the next act", self.desk.act(*NEWCOMER), 0, "ok 5\n", "the desk may have accepted it", SETTLE)
        self.assertEqual(self.fate(), Fate.OPEN)

    def test_by_the_file_one_between_others_is_found_by_its_rows(self):
        self.accepted()
        with serve(self.desk.file, 1) as served:
            ran = self.desk.run("act", "--port", served.port, "--journal", self.desk.journal, *NEWCOMER)
            reports("an act by a port", ran, 0, "ok 5\n", "4 (vary 1 days=1), sent ", SETTLE)
            served.ended()
        self.assertEqual(self.fate(), Fate.OPEN, "by a port alone")
        reports("a check", self.leaves("check"), 0, "ok\n", f"{OF_VARY}: the desk has accepted it")
        reports("due", self.desk.tool("due"), 0, "nothing is held")
        reports("a replay", self.desk.tool("replay"), 0, "nothing is missing in the desk", "the desk has accepted it")
        self.assertEqual(self.fate(), Fate.ACCEPTED)

    def test_two_that_say_the_same_stay_open_where_the_desk_has_one(self):
        lost_by_port(self.desk, *VARY)
        self.accepted()
        reports("the next act", self.desk.act(*NEWCOMER), 0, "ok 5\n", "run gr-desk journal settle N accepted")
        self.assertEqual([self.fate("4"), self.fate("5")], [Fate.OPEN] * 2)

    def test_a_replay_enters_nothing_where_the_desk_that_is_gone_may_have_had_it(self):
        self.accepted()
        held = self.desk.rows()
        put_back(self.desk, self.night)
        message = "nothing was entered: the journal has no answer to 4, and nobody can tell which the desk has"
        reports("a replay", self.leaves("replay"), 1, message, SETTLE)
        reports("settle", self.desk.tool("settle", "4", "accepted", "--as", "4"), 0, "ok\n",
                "4 (vary 1 days=1) counts as accepted, as act 4 of the desk")
        reports("a replay then", self.desk.tool("replay"), 0, "entered 4: ", "ok\n")
        for table in "developer", "sponsor", "ballot2":
            self.assertEqual(self.desk.rows()[table], held[table])
        self.assertEqual(self.desk.rows()["resolution"][0][4], held["resolution"][0][4], "the days that were added")
        reports("a second replay", self.desk.tool("replay"), 0, "nothing is missing in the desk")

    def test_a_replay_of_the_desk_that_has_it_settles_it_and_a_dry_run_keeps_nothing(self):
        self.accepted()
        ran = self.leaves("replay", "--dry-run")
        reports("a replay that is tried", ran, 0, f"{OF_VARY}: the desk has accepted it", "nothing is missing")
        reports("a replay", self.desk.tool("replay"), 0, "nothing is missing in the desk")
        self.assertEqual(self.fate(), Fate.ACCEPTED)


class Settlements(OpenCase):
    """What the Secretary says of open acts."""

    def test_the_only_number_that_is_free_need_not_be_said(self):
        lost_by_port(self.desk, *VARY)
        self.comes("/resolutions/1/vary", "days=1", "ok 4")
        self.comes("/developers", "login=d8&name=Eight&status=current", "ok 5")
        with open(self.desk.journal, "a") as journal:
            for line in self.by_port("5", 5):
                print(json.dumps(line), file=journal)
        reports("settle", self.desk.tool("settle", "4", "accepted"), 0, "ok\n", "as act 4 of the desk")
        found = {number: entry.number for number, entry in entries_in(self.desk.journal).accepted.items()}
        self.assertEqual(found, {1: "1", 2: "2", 3: "3", 4: "4", 5: "5"})
        reports("a check", self.desk.tool("check"), 0, "ok\n")

    def by_port(self, number, count):
        """The lines of an act that came by a port just now."""
        now = int(time.time())
        fields = {"login": "d8", "name": "Eight", "status": "current"}
        what = {"number": number, "desk": None, "path": "/developers", "fields": fields, "source": None}
        yield line_of("act", **what, moment=None, before=now - 5, count=None)
        yield line_of("answer", number=number, status=200, text=f"ok {count}\n", after=now + 5)

    def test_what_cannot_be_is_refused_and_changes_nothing(self):
        lost_by_port(self.desk, *VARY)
        for words, status, message in [
            (["4", "accepted"], 1, "it may have one of several numbers; say which the desk gave it, by --as COUNT"),
            (["4", "accepted", "--as", "3"], 1, "4 cannot be act 3 of the desk"),
            (["3", "accepted", "--as", "4"], 1, "3 is not an act whose answer is missing"),
            (["3", "refused"], 1, "3 is not an act whose answer is missing"),
            (["9", "refused"], 1, "9 is not an act whose answer is missing"),
            (["4", "refused", "--as", "4"], 2, "--as goes with accepted: an act that was refused has no number"),
            (["4", "maybe"], 2, "not 'maybe'"),
            (["4", "accepted", "--as", "04"], 2, "is like 7, and not '04'"),
            (["x", "accepted"], 2, "is like 7, or v7 for a vote, and not 'x'"),
            (["4"], 2, "the following arguments are required: accepted|refused"),
        ]:
            with self.subTest(words=words):
                reports(f"settle {words}", self.leaves("settle", *words), status, message)

    def test_the_other_word_takes_back_what_was_said_and_the_journal_keeps_both_lines(self):
        lost_by_port(self.desk, *VARY)
        self.comes("/resolutions/1/vary", "days=1", "ok 4")
        reports("settle", self.desk.tool("settle", "4", "refused"), 0, "4 (vary 1 days=1) counts as not accepted\n")
        before = self.desk.lines()
        again = self.desk.tool("settle", "4", "accepted", "--as", "4")
        reports("settle again", again, 0, "ok\n", "4 (vary 1 days=1) counts as accepted, as act 4 of the desk")
        self.assertEqual((self.desk.lines()[:-1], self.fate()), (before, Fate.ACCEPTED))
        reports("the check", self.desk.tool("check"), 0, "ok\n")
        reports("settle once more", self.desk.tool("settle", "4", "refused"), 0, "counts as not accepted\n")
        self.assertEqual(self.fate(), Fate.NOT_ACCEPTED)

    def test_what_was_said_before_changes_nothing_if_it_is_said_again(self):
        lost_by_port(self.desk, *VARY)
        for words, message in (["refused"], "not accepted"), (["accepted", "--as", "4"], "accepted"):
            with self.subTest(words=words):
                reports("settle", self.desk.tool("settle", "4", *words), 0, "ok\n")
                reports("settle again", self.leaves("settle", "4", *words), 1, f"4 counts as {message} already")

    def test_another_number_takes_the_place_of_a_wrong_one(self):
        lost_by_port(self.desk, *VARY)
        self.comes("/developers", "login=d8&name=Eight&status=current", "ok 4")
        self.comes("/resolutions/1/vary", "days=1", "ok 5")
        for count in 4, 5:
            reports("settle", self.desk.tool("settle", "4", "accepted", "--as", count), 0, f", as act {count} of")
        found = {number: entry.number for number, entry in entries_in(self.desk.journal).accepted.items()}
        self.assertEqual(found, {1: "1", 2: "2", 3: "3", 5: "4"})

    def test_an_act_that_was_said_to_be_accepted_and_is_not_holds_up_none_once_that_is_taken_back(self):
        lost_by_port(self.desk, *VARY)
        reports("settle", self.desk.tool("settle", "4", "accepted", "--as", "4"), 0, "ok\n")
        reports("the next act", self.desk.act(*NEWCOMER), 1, "nothing was sent: ", " lacks acts that ")
        reports("settle again", self.desk.tool("settle", "4", "refused"), 0, "ok\n", "counts as not accepted\n")
        reports("the act again", self.desk.act(*NEWCOMER), 0, "ok 4\n")
        reports("the check", self.desk.tool("check"), 0, "ok\n")

    def test_what_a_replay_has_entered_is_not_taken_back(self):
        lost_by_port(self.desk, *VARY)
        reports("settle", self.desk.tool("settle", "4", "accepted", "--as", "4"), 0, "ok\n")
        reports("a replay", self.desk.tool("replay"), 0, "entered 4: ")
        message = "4 is not an act whose answer is missing"
        reports("settle again", self.leaves("settle", "4", "refused"), 1, message)

    def test_a_held_act_that_did_not_come_is_held_again(self):
        ran = self.desk.act("--hold", "1h", *VARY)
        reports("one that waits", ran, 0, "held 4 ")
        held = json.loads(self.desk.lines()[-1])
        sent = {field: held[field] for field in held if field != "until"} | {"line": "act", "before": None, "count": 3}
        with open(self.desk.journal, "a") as journal:
            print(json.dumps(sent), file=journal)
        self.comes("/developers", "login=d8&name=Eight&status=current", "ok 4")
        self.comes("/developers", "login=d7&name=Seven&status=current", "ok 5")
        message = "nothing was sent: find out whether the desk accepted 4"
        reports("due", self.desk.tool("due"), 1, message, "settle 4 accepted, or settle 4 refused: then it is on hold")
        ran = self.desk.tool("settle", "4", "refused")
        reports("settle", ran, 0, "ok\n", "counts as not accepted, and is on hold\n")
        reports("the list", self.desk.tool("list"), 0, "held until ")
        reports("drop", self.desk.tool("drop", "4"), 0, "ok\n")
        message = "nothing was changed: by what the journal has after 4, the desk has not accepted it"
        reports("settle again", self.leaves("settle", "4", "accepted", "--as", "4"), 1, message)


class OpenVotes(JournalCase):
    """While a vote is running the answer to a vote by a port was lost. What is said of it tells of no ballot, and not
    how many there are."""

    def setUp(self):
        self.desk = self.made([*DISCUSSION, CALL, *VOTES[:3]])
        self.night = copy_desk(self.made([*DISCUSSION, CALL]).file, self.folder() / "night.db")
        lost_by_port(self.desk, "vote", "1", "login=d4", given="bbz\ntokenA05\n")
        once(self.desk.file, int(time.time()) - 1, "/developers", "login=e1&name=E&status=current", "ok 10")

    def test_no_tool_tells_of_a_ballot_or_of_how_many_there_are(self):
        ran = [self.desk.tool("check"), self.desk.tool("list"), self.desk.tool("replay")]
        put_back(self.desk, self.night)
        ran += [self.desk.tool("replay"), self.desk.tool("check"), self.desk.tool("settle", "v4", "accepted")]
        ran += [self.desk.tool("settle", "v4", "accepted", "--as", "11"), self.desk.tool("settle", "v4", "refused")]
        for came in ran:
            is_silent("a tool", came, *SECRETS, receipt(1, "d4", "tokenA05"), "act 11 of", "ok 9", "ok 1")

    def test_a_check_says_of_the_ballots_of_a_running_vote_only_that_they_differ(self):
        put_back(self.desk, self.night)
        ran = self.desk.tool("check")
        message = "ballot2 resolution 1: its ballots differ, and no more is said while it is in voting\n"
        reports("a check", ran, 1, message)
        is_silent("a check", ran, "login d1", "login d2", "login d3")
