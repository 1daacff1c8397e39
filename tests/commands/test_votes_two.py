"""How gr-desk votes enters the ballots on two votes that are open at once, and end one after the other, from one
FOLDER. Each ballot is entered on its own vote, at a moment that tells no arrival and is past no end before which it
came, and each answer is about its own vote. What would put the desk's clock past the end of a vote that is not closed
waits, so that no ballot on that one is lost, whichever vote is run first."""
import copy
import re
from urllib.parse import quote

from tests.commands.voting_folder import HOUR
from tests.support.called import CALLED, Called
from tests.support.case import Case
from tests.support.journaled import rows_of
from tests.support.mailed import HOST, Folder, answers_in, mail_of, says, votes
from tests.support.program import DAY, T0, Ran, expect, make_desk, receipt, run, tool

# The first vote is open for seven days, and the second from a day later on.
END, SECOND, LAST_END = CALLED + 7 * DAY, CALLED + DAY, CALLED + 8 * DAY
SUMMARIES = {1: "Red", 2: "Blue"}
# The ballots that count: the ranks by vote and login.
COUNTED = {1: {"d1": "12", "d2": "21", "d5": "22", "d6": "21"}, 2: {"d1": "21", "d3": "12", "d4": "2-", "d6": "11"}}
OVER = "another vote ended before it arrived, and is not closed"


def made(work):
    """A desk with both votes."""
    file, csv = work / "desk.db", work / "roll.csv"
    make_desk(file)
    rows = "".join(f"d{number},The Name of {number},current\n" for number in range(1, 8))
    csv.write_text(f"login,name,status\n{rows}")
    expect("import", run("import", file, csv, "--at", T0), Ran(0, b"ok 1 added 7 changed 0 same 0\n", b""))
    desk = Called(file, 1)
    for number, summary in SUMMARIES.items():
        form = f"author=@leader&summary={quote(summary)}&text=It+is.&ratio=1"
        desk.enter(T0, ("/resolutions", form, f" resolution {number}"))
    desk.enter(CALLED, ("/resolutions/1/call", "days=7", f" places 2 until {END}"))
    desk.enter(SECOND, ("/resolutions/2/call", "days=7", f" places 2 until {LAST_END}"))
    return desk


class TwoVotes(Case):
    def setUp(self):
        self.work = self.folder()
        self.desk = made(self.work)
        self.first = Folder(self.work / "came", self.desk)
        self.second = copy.copy(self.first)
        self.second.form = tool("ballot", "form", self.desk.file, 2).out.decode()
        self.journal, self.outbox = self.work / "journal", self.work / "came.outbox"
        self.put_mails()

    def put_mails(self):
        """Each voter's mails. Two days before the first end d1 sends a form of each vote, by two mails, and d6 both by
        one. A ballot on the second vote comes after the first end, and one on the first does, too late."""
        one, two, came = self.first.filled, self.second.filled, self.first
        came.mbox("d1", mail_of(one("12"), 11, SECOND + HOUR), mail_of(two("21"), 12, SECOND + 2 * HOUR), at=LAST_END)
        came.mail("d2", mail_of(one("21"), 21, END - 1), LAST_END)
        came.mail("d3", mail_of(two("12"), 31, SECOND + 3 * HOUR), LAST_END)
        early, later = mail_of(two("12"), 41, SECOND + HOUR), mail_of(two("2-"), 42, END + HOUR)
        came.maildir("d4", (early, LAST_END), (later, LAST_END))
        came.mbox("d5", mail_of(one("22"), 51, SECOND + HOUR), mail_of(one("11"), 52, END), at=LAST_END)
        came.mail("d6", mail_of(one("21") + two("11"), 61, SECOND + 4 * HOUR), LAST_END)

    def run_on(self, number):
        words = "--received-by", HOST, self.desk.file, number, self.first.place
        return votes(*words, journal=self.journal)

    def close(self, number, at):
        line = "--desk", self.desk.file, "--journal", self.journal, "--at", at, "close", number
        says("a close", tool("act", *line), 0, "ok ")

    def clock(self):
        return rows_of(self.desk.file)["desk"][0][3]

    def ballots(self):
        """The ranks by vote and login, each with the receipt by the answer to its voter."""
        found = {1: {}, 2: {}}
        for number, login, ranks, *_ in rows_of(self.desk.file)["ballot2"]:
            found[number][login] = ranks
        return found

    def check_answers(self):
        """Each voter has an answer on each vote on which a ballot came, with the receipt that is on the desk, and none
        on another one. The ballot that came too late is answered once more after the close, since it may have come
        after that."""
        receipts = {(number, login): digits for number, login, _, digits, _ in rows_of(self.desk.file)["ballot2"]}
        message = {}
        for login, mails in answers_in(self.outbox).items():
            for mail, text in mails:
                number = int(re.fullmatch("Your ballot on resolution ([12])", mail["Subject"])[1])
                self.assertTrue(text.startswith(f"Resolution {number}: {SUMMARIES[number]}\n"), text)
                message.setdefault((number, login), []).append(" ".join(text.split()))
                if (number, login) in receipts:
                    token = re.search("^Token: (.*)$", text, re.M)[1]
                    self.assertIn(f"Receipt: {receipts[number, login]}\n", text)
                    self.assertEqual(receipts[number, login], receipt(number, login, token))
        self.assertEqual({at: len(texts) for at, texts in message.items()}, dict.fromkeys([*receipts, (2, "d5")], 1))
        return {at: texts[0] for at, texts in message.items()}

    def check_whole(self):
        self.assertEqual(self.ballots(), COUNTED)
        answers = self.check_answers()
        refused = {at: text for at, text in answers.items() if "was not entered" in text}
        self.assertEqual(sorted(refused), [(1, "d5"), (2, "d5")])
        self.assertIn("it is late, since votes were taken until 2026-01-22T00:00:00Z", refused[1, "d5"])
        self.assertIn("its form is one of resolution 1, and that vote is over", refused[2, "d5"])

    def test_the_vote_that_ends_first_is_run_first(self):
        says("a run on the first vote", self.run_on(1), 1, "4 votes of 4 entered, 0 refused",
             "left to gr-desk votes for resolution 2: 4 ballots")
        self.assertEqual(self.clock(), END - 1)
        self.close(1, END)
        says("a run on the second vote", self.run_on(2), 1, "4 votes of 4 entered, 0 refused", "Refused: 1 ballot d5, ",
             "left to gr-desk votes for resolution 1: 3 ballots")
        self.assertEqual(self.clock(), END + HOUR)
        self.check_whole()

    def test_the_vote_that_ends_last_is_run_first_and_what_came_after_the_first_end_waits(self):
        says("a run on the second vote", self.run_on(2), 1, f"Not sent yet: {OVER}: 1 ballot d4, The Name of 4",
             "3 votes of 3 entered, 0 refused", f"Without an answer: d4, The Name of 4: not sent yet: {OVER}",
             "warning: the vote on resolution 1 ended at 2026-01-22T00:00:00Z, and is not closed; enter its ballots by",
             f"gr-desk act --desk={self.desk.file} --at=2026-01-22T00:00:00Z --journal={self.journal} close 1")
        self.assertEqual(self.clock(), SECOND + 4 * HOUR, "no ballot on the first vote is shut out")
        says("a run on the first vote", self.run_on(1), 1, "4 votes of 4 entered, 0 refused")
        self.assertEqual(self.clock(), END - 1)
        says("the second vote again", self.run_on(2), 1, "There was no vote to send", OVER)
        self.close(1, END)
        says("the second vote at last", self.run_on(2), 1, "1 vote of 1 entered, 0 refused")
        self.assertEqual(self.clock(), END + HOUR)
        self.check_whole()

    def test_a_run_between_the_ends_leaves_each_vote_as_it_is_in_later_runs(self):
        for number in 1, 2:
            self.run_on(number)
        self.close(1, END)
        self.run_on(2)
        before = self.ballots(), self.journal.read_bytes(), sorted(self.outbox.iterdir())
        says("a run on the second vote", self.run_on(2), 1, "There was no vote to send", " 0 mails written")
        says("a run on the first vote", self.run_on(1), 1, "nothing was sent: resolution 1 is closed")
        self.assertEqual((self.ballots(), self.journal.read_bytes(), sorted(self.outbox.iterdir())), before)
        self.check_whole()
