"""Looks at acts that wait in a journal. They wait in the order of their dates, and none is entered before its time.
One that was taken back, overtaken or refused is entered no more. Where a copy was put back, none is entered before the
replay. A vote that waits has its token made, and its ranks are shown by nothing after that."""
import json
import time

from tests.commands.journal_case import SECRETS, JournalCase, is_silent, put_back
from tests.support.failing import failing
from tests.support.journaled import CALL, CALLED, DISCUSSION, ENDED, Journaled, accepted_of, reports
from tests.support.program import DAY, T0, copy_desk, receipt
from grdesk.acts.refusal import MEANINGS

AMEND = ["amend", "1", "choice=1", "minor=0", "summary=Crimson", "text=The desk is crimson."]
SPONSOR = ["sponsor", "1", "choice=1"]
DATE = T0 + 2 * DAY


class HeldActs(JournalCase):
    """Of a desk with four acts 5, 6, 8 and 9 wait, and 7 came meanwhile."""

    @classmethod
    def setUpClass(cls):
        super().setUpClass()
        desk = Journaled.made(cls.shared_folder(), "held", DISCUSSION[:4])
        far = int(time.time()) + DAY
        by_port = ["--port", 9, "--journal", desk.journal]
        cls.desk = desk
        cls.came = {
            "one that waits": desk.act("--at", DATE, "--hold", "24h", *AMEND),
            "a later one": desk.act("--at", DATE + 60, *SPONSOR, "login=d3"),
            "an earlier one": desk.act("--at", DATE - 60, *SPONSOR, "login=d4"),
            "one that waits long": desk.act("--at", DATE + 90, "--hold-until", far, *AMEND),
            "one that gives up others": desk.act("--at", DATE + 95, "--give-up", *SPONSOR, "login=d4"),
            "one by a port": desk.run("act", *by_port, "unsponsor", "1", "choice=1", "login=d4"),
        }
        cls.dropped = desk.copied(cls.shared_folder(), "dropped")
        mail = cls.shared_folder() / "objection"
        mail.write_bytes(b"Message-ID: <no@d4>\n\nI object.\n")
        cls.due = cls.dropped.tool("due")
        cls.drop = cls.dropped.tool("drop", "8", "--source", f"@{mail}")

    def test_an_act_with_a_later_date_waits_behind_those_that_are_held(self):
        give_up = "nothing was sent: ", "are on hold, 5, 6, 8: first run gr-desk journal due"
        for words, status, *texts in [
            ("one that waits", 0, "held 5 until 2026-01-04T00:00:00Z"),
            ("a later one", 0, "held 6 behind 5"),
            ("an earlier one", 0, "ok 5"),
            ("one that waits long", 0, "held 8 until "),
            ("one that gives up others", 1, *give_up),
            ("one by a port", 0, "held 9 behind 5, 6, 8"),
        ]:
            with self.subTest(words=words):
                reports(words, self.came[words], status, *texts)

    def test_a_list_has_until_when_an_act_is_held(self):
        message = "held until 2026-01-04T00:00:00Z", "held after those before it"
        reports("the list", self.desk.tool("list"), 0, *message)

    def test_due_enters_what_may_be_entered_and_names_the_first_whose_time_has_not_come(self):
        desk = self.copy_of(self.desk)
        reports("due", desk.tool("due"), 0, "5: ok 6\n6: ok 7\n8 (amend", "is held until")
        reports("due again", desk.tool("due"), 0, "8 (amend")
        self.assertEqual(accepted_of(desk.file), 7)

    def test_due_enters_them_by_their_dates_and_not_by_their_numbers(self):
        desk = self.made(DISCUSSION[:4])
        for at, login, number in (DATE + 60, "d3", 5), (DATE, "d4", 6):
            ran = desk.act("--at", at, "--hold", "1h", *SPONSOR, f"login={login}")
            reports("one that waits", ran, 0, f"held {number} until ")
        reports("due", desk.tool("due"), 0, "6: ok 5\n5: ok 6\n")

    def test_an_act_that_is_taken_back_has_the_source_of_the_objection(self):
        reports("due", self.due, 0, "5: ok 6\n6: ok 7\n8 (amend", "is held until")
        reports("an objection", self.drop, 0, "ok", "gr-desk journal due enters it")
        line = json.loads(self.dropped.lines()[-1])
        self.assertEqual((line["form"], line["line"], line["source"]["message_id"]), (2, "dropped", "<no@d4>"))
        message = "dropped\n      source of the objection: Message-ID <no@d4>, SHA-256 "
        reports("the list", self.dropped.tool("list"), 0, message)

    def test_due_says_after_which_act_its_journal_took_no_more(self):
        desk = self.copy_of(self.desk)
        line = ["journal", "due", "--journal", desk.journal]
        ran = desk.run(*line, environment=failing(self.folder(), lines=2))
        why = f"{desk.journal} cannot be written: No space left on device"
        message = f"nothing more was sent after 5: {why}; 6 is still on hold: mend that, and run gr-desk journal due"
        reports("due on a full disk", ran, 3, "5: ok 6\n", message)
        is_silent("due on a full disk", ran, "nothing was sent")
        reports("the next due", desk.tool("due"), 0, "6: ok 7\n8 (amend")

    def test_due_says_that_nothing_was_sent_if_its_journal_does_not_take_the_first_act(self):
        desk = self.copy_of(self.desk)
        line = ["journal", "due", "--journal", desk.journal]
        ran = desk.run(*line, environment=failing(self.folder(), lines=0))
        reports("due on a full disk", ran, 3, f"nothing was sent: {desk.journal} cannot be written: No space left")

    def test_only_an_act_that_is_held_is_taken_back(self):
        for words, number in ("a second time", "8"), ("one that was entered", "5"):
            with self.subTest(words=words):
                reports(words, self.dropped.tool("drop", number), 1, f"{number} is not an act on hold")

    def test_what_waits_behind_an_act_that_was_taken_back_is_entered(self):
        desk = self.copy_of(self.dropped)
        reports("due after it", desk.tool("due"), 0, "9: ok 8\n")
        reports("due with nothing", desk.tool("due"), 0, "nothing is held")
        reports("the check", desk.tool("check"), 0, "ok")

    def with_line_of_drop(self, changed):
        """The journal with another line in the place of that of the act that was taken back, and its number."""
        desk = self.copy_of(self.dropped)
        lines = desk.lines()
        place = next(place for place, line in enumerate(lines) if b'"dropped"' in line)
        lines[place] = f"{json.dumps(changed(json.loads(lines[place])))}\n".encode()
        desk.journal.write_bytes(b"".join(lines))
        return desk, place + 1

    def test_no_line_has_what_its_form_has_not(self):
        for words, changed in [
            ("a source in form 1", lambda line: line | {"form": 1}),
            ("no source in form 2", lambda line: {"form": 2, "line": "dropped", "number": line["number"]}),
            ("form 3", lambda line: line | {"form": 3}),
            ("a form that is no number", lambda line: line | {"form": True}),
            ("a line that is no word", lambda line: {"line": []}),
        ]:
            with self.subTest(words=words):
                desk, number = self.with_line_of_drop(changed)
                reports(words, desk.tool("list"), 3, f"line {number} of ")

    def test_a_line_of_an_earlier_form_is_read(self):
        desk, _ = self.with_line_of_drop(lambda line: {"form": 1, "line": "dropped", "number": line["number"]})
        reports("a journal of an earlier version", desk.tool("list"), 0, "dropped\n")
        reports("due", desk.tool("due"), 0, "9: ok 8\n")
        reports("its check", desk.tool("check"), 0, "ok")


class LostHolds(JournalCase):
    """Three sponsors wait, at later dates."""

    @classmethod
    def setUpClass(cls):
        super().setUpClass()
        cls.desk = Journaled.made(cls.shared_folder(), "overtaken", DISCUSSION[:4])
        dates = (T0 + 2 * DAY, "d3"), (T0 + 3 * DAY, "d2"), (T0 + 4 * DAY, "d4")
        cls.came = [cls.desk.act("--at", at, "--hold", "1h", *SPONSOR, f"login={login}") for at, login in dates]

    def test_each_of_them_waits(self):
        for place, ran in enumerate(self.came):
            with self.subTest(place=place):
                reports("one that waits", ran, 0, "held ")

    def test_a_call_overtakes_no_held_act(self):
        ran = self.copy_of(self.desk).act("--at", CALLED, *CALL[1])
        message = "are on hold, 5, 6, 7: first run gr-desk journal due"
        reports("a call that overtakes", ran, 1, "nothing was sent: ", message)

    def test_an_act_that_overtakes_by_yes_and_is_refused_has_none_dropped(self):
        desk = self.copy_of(self.desk)
        ran = desk.act("--at", T0 + 4 * DAY + 1, "--yes", *SPONSOR, "login=d2")
        reports("one that overtakes", ran, 1, "refused 17 Already", "and is lost if this act is accepted")
        reports("the list", desk.tool("list"), 0, "login=d3\n      held until ", "login=d4\n      held until ")
        reports("due", desk.tool("due"), 1, "5: ok 5\n6: refused 17 Already\n")

    def test_an_act_of_the_same_second_as_a_held_one_does_not_wait_for_it(self):
        reports("one of the same second", self.copy_of(self.desk).act("--at", T0 + 2 * DAY, *AMEND), 0, "ok 5\n")

    def test_an_act_that_overtakes_by_yes_has_the_earlier_one_dropped_and_a_held_one_may_be_refused(self):
        desk = self.copy_of(self.desk)
        ran = desk.act("--at", T0 + 2 * DAY + 1, "--yes", "vary", "1", "days=1")
        lost = "5 (sponsor 1 choice=1 login=d3) is on hold with an earlier date, and is lost if this act is accepted"
        reports("one that overtakes", ran, 0, "ok 5", lost)
        reports("the list", desk.tool("list"), 0, "dropped")
        message = f"gr-desk journal: Already: {MEANINGS['Already']}\ngr-desk journal: d2 sponsors choice 1\n"
        reports("one that is refused", desk.tool("due"), 1, "6: refused 17 Already\n", message)
        reports("the next", desk.tool("due"), 0, "7: ok 6")
        reports("the check", desk.tool("check"), 0, "ok")


class HeldOnCopy(JournalCase):
    """A desk in whose place a copy was put back, while an act waits."""

    def setUp(self):
        self.desk = self.made(DISCUSSION[:2])
        early = copy_desk(self.desk.file, self.folder() / "early.db")
        self.desk.accepts([(T0 + DAY, ["sponsor", "1", "choice=1", "login=d2"], "", "ok 3")])
        ran = self.desk.act("--at", T0 + 2 * DAY, "--hold", "1h", *SPONSOR, "login=d3")
        reports("one that waits", ran, 0, "held 4 ")
        put_back(self.desk, early)

    def test_nothing_that_waits_is_entered_before_the_replay(self):
        desk = self.desk
        held = json.loads(desk.lines()[-1])
        # The line of a held act that was sent, and of which the answer is lost, says how many the desk had accepted.
        lost = {field: held[field] for field in held if field != "until"} | {"line": "act", "before": None, "count": 3}
        for words, line in ("held", b""), ("sent", f"{json.dumps(lost)}\n".encode()):
            with self.subTest(words=words):
                with open(desk.journal, "ab") as file:
                    file.write(line)
                before = desk.file.read_bytes(), desk.lines()
                ran = desk.tool("due")
                reports("due before a replay", ran, 1, "nothing was sent: ", "gr-desk journal replay")
                is_silent("due before a replay", ran, "gr-desk journal drop", "how to find out")
                self.assertEqual((desk.file.read_bytes(), desk.lines()), before, "the desk and its journal")
        reports("the replay", desk.tool("replay"), 0, "entered 3: ", "entered 4: ", "ok")
        reports("due after it", desk.tool("due"), 0, "nothing is held\n")
        reports("the check", desk.tool("check"), 0, "ok")


class HeldVotes(JournalCase):
    """Two votes wait, the first with a token that is made."""

    @classmethod
    def setUpClass(cls):
        super().setUpClass()
        cls.desk = Journaled.made(cls.shared_folder(), "held_votes", [*DISCUSSION, CALL])
        words = ["--at", CALLED, "--hold", "1h", "vote", "1", "login=d1"]
        cls.first = cls.desk.act(*words, given="bbz\n")
        cls.second = cls.desk.act("--at", CALLED + 1, "vote", "1", "login=d2", given="bcz\ntokenA02\n")

    def test_a_vote_that_waits_has_its_token_made(self):
        self.assertEqual(self.first.status, 0)
        self.assertRegex(self.first.out, b"\\Atoken [0-9a-f]{32}\nheld v1 until 2026-01-15T01:00:00Z .*\n\\Z")
        is_silent("a vote that waits", self.first, "would not take", "bbz")

    def test_a_later_vote_waits_behind_it(self):
        reports("a vote after it", self.second, 0, "held v2 behind v1\n")

    def test_a_list_is_silent_on_held_votes(self):
        is_silent("the list of held votes", self.desk.tool("list"), "vote 1", "v1  ", *SECRETS)

    def test_due_enters_them_and_shows_no_ranks_and_explains_a_refusal(self):
        desk = self.copy_of(self.desk)
        ran = desk.tool("due")
        reports("due of votes", ran, 0, "v1: ok 7 receipt ", f"v2: ok 8 receipt {receipt(1, 'd2', 'tokenA02')}")
        is_silent("due of votes", ran, "bbz", "bcz", "login=", "tokenA02", "rank")
        words = ["--at", CALLED + 2, "--hold", "1h", "vote", "1", "login=d3"]
        ran = desk.act(*words, given="bbzz\ntokenA03\n")
        wait = "in voting: resolution 1; ballots with a later date wait until"
        refused = "as the desk is now, it would refuse this act: refused 21 BadRanks\n"
        reports("a vote that waits", ran, 0, "held v3", wait, refused)
        is_silent("a vote that waits", ran, "bbzz", "tokenA03")
        ran = desk.tool("due")
        why = f"BadRanks: {MEANINGS['BadRanks']}\n"
        places = "the ballot of resolution 1 has 3 places, and the ranks have 4 characters\n"
        reports("due of a vote that is refused", ran, 1, "v3: refused 21 BadRanks\n", why, places)
        is_silent("due of a vote that is refused", ran, "bbzz", "tokenA03", "login=", "d3")
        reports("the check", desk.tool("check"), 0, "ok")


class HeldCalls(JournalCase):
    """A call waits, of which all of the time for votes is over."""

    @classmethod
    def setUpClass(cls):
        super().setUpClass()
        cls.desk = Journaled.made(cls.shared_folder(), "held_calls", DISCUSSION)
        cls.came = cls.desk.act("--at", CALLED, "--hold", "1h", *CALL[1])

    def test_a_call_that_waits_is_warned_of(self):
        reports("a call that waits", self.came, 0, "held 6 ", "when all of its time for votes is over")
        is_silent("where nothing is in voting", self.came, "ballots with a later date")

    def test_due_does_not_enter_it_without_yes(self):
        desk = self.copy_of(self.desk)
        before = desk.rows(), desk.lines()
        yes = "with --yes 6 is entered all the same, and gr-desk journal drop 6 "
        message = f"when all of its time for votes is over; {yes}"
        reports("due", desk.tool("due"), 1, "nothing was sent: the call comes ", message)
        self.assertEqual((desk.rows(), desk.lines()), before, "the desk and its journal")

    def test_due_enters_it_with_yes(self):
        desk = self.copy_of(self.desk)
        ran = desk.tool("due", "--yes")
        reports("due with --yes", ran, 0, f"6: ok 6 places 3 until {ENDED}\n", "warning: the call comes ")
        reports("the check", desk.tool("check"), 0, "ok")

    def test_a_call_that_due_does_not_enter_after_another_act_is_named_with_that(self):
        desk = self.made(DISCUSSION)
        for words in [*SPONSOR, "login=d3"], CALL[1]:
            self.assertEqual(desk.act("--at", CALLED, "--hold", "1h", *words).status, 0)
        ran = desk.tool("due")
        message = "nothing more was sent after 6: the call comes "
        reports("due", ran, 1, "6: ok 6", message, "with --yes 7 is entered all the same")
        is_silent("due", ran, "nothing was sent")

    def test_a_list_takes_no_yes(self):
        reports("list with --yes", self.desk.tool("list", "--yes"), 2, "list has no option --yes")
