"""What gr-desk votes leaves to the Secretary: an old ballot that came again, two texts of one mail, one mail under two
logins, a mail from another developer, and a vote that was given up. It is named, with the line that enters it once the
voter was asked. Here these lines are run as they stand there, by a shell."""
import os
import re
import subprocess
import tempfile
import time

from tests.commands.voting_folder import HOUR, VotingFolder
from tests.support.called import CALLED, Called
from tests.support.case import Case
from tests.support.journaled import environment_of
from tests.support.mailed import Folder, answers_in, ballots_in, mail_of, receipt_in, says, votes
from tests.support.program import DAY, PATIENCE, TOP, Ran, receipt, serve, tool

UNDECIDED = "Not sent: nothing says which ballot of this voter is the last one:"
WHOSE = "Not sent: nothing says whose ballot it is:"


def from_sender(mail, sender):
    mail.replace_header("From", sender)
    return mail


def run_line(line, given):
    """Runs a line of a table in a shell, as it stands there, with these lines to read."""
    tools = os.pathsep.join([str(TOP / "tools"), os.environ["PATH"]])
    ran = subprocess.run(["sh", "-c", line], input="".join(f"{each}\n" for each in given).encode(), check=False,
                         env=environment_of({"PATH": tools}), timeout=PATIENCE, capture_output=True)
    return Ran(ran.returncode, ran.stdout, ran.stderr)


class Undecided(Case):
    """A folder in which d1 voted twice, A and then B, and d2 once. Its names have what a shell would read otherwise."""

    @classmethod
    def setUpClass(cls):
        work = cls.shared_folder() / "it's $HOME; 1"
        work.mkdir()
        desk = Called.made(work, 6, name="the vote")
        came = Folder(work / "the ballots", desk)
        came.mail("d1", mail_of(came.filled("123", "tokenA01"), 1), CALLED + HOUR)
        came.mail("d2", mail_of(came.filled("213"), 2), CALLED + 2 * HOUR)
        cls.entered = VotingFolder(desk, came)
        says("a run", cls.entered.run(), 0, "2 votes of 2 entered")
        came.mail("d1", mail_of(came.filled("321", "tokenB01"), 11), CALLED + 3 * HOUR)
        says("the next run", cls.entered.run(), 0, "1 vote of 1 entered")

    def setUp(self):
        work = self.folder() / "it's $HOME; 2"
        work.mkdir()
        self.vote = self.entered.copied(work)
        self.came = self.vote.came

    def lines_in(self, ran):
        return re.findall("^ +(gr-desk act .*)$", ran.out.decode(), re.M)

    def run_once(self, what, *texts, words=()):
        """Runs the tool, by which nothing is entered, and gives the lines that it prints to be typed."""
        before = self.vote.kept()
        ran = self.vote.run(*words)
        says(what, ran, 1, *texts)
        self.assertEqual(self.vote.kept(), before)
        return self.lines_in(ran)

    def check_enters(self, line, login, ranks, token, times, status=1):
        """The line enters this ballot, and the next run writes a mail for it."""
        words = re.sub(re.escape(tempfile.gettempdir()) + r"/\w+", "", line)
        self.assertEqual([word for word in (ranks, token) if word in words], [])
        ran = run_line(line, [ranks, token])
        self.assertEqual((ran.status, ran.out[:3]), (0, b"ok "), ran)
        self.assertEqual(self.vote.ballots()[login], (ranks, receipt(1, login, token), times))
        says("the run after it", self.vote.run(), status, "There was no vote to send", " 1 mail written")
        receipts = [receipt_in(text)[0] for _, text in answers_in(self.vote.outbox)[login]]
        self.assertIn(receipt(1, login, token), receipts)

    def test_an_old_ballot_that_is_sent_again_is_undecided_and_its_line_enters_it(self):
        self.came.mail("d1", mail_of(self.came.filled("123", "tokenA01"), 12), CALLED + 4 * HOUR)
        [line] = self.run_once("a run with an old ballot", f"{UNDECIDED} 1 ballot",
                               "; unsigned; From: voter@example.net",
                               "it has the token of the ballot that arrived 2026-01-15T01:00:00Z, before the last one",
                               "Without an answer: d1, The Name of 1: not sent", " 0 mails written")
        self.check_enters(line, "d1", "123", "tokenA01", times=3, status=0)

    def test_the_line_of_a_text_that_was_entered_before_another_one_enters_it_again(self):
        for ranks, hours in ("1-2", 5), ("2-1", 6):
            self.came.text("d3", self.came.filled(ranks, f"tokenC0{hours}"), CALLED + hours * HOUR)
            says("a run with a text", self.vote.run(), 0, "1 vote of 1 entered")
        self.came.text("d3", self.came.filled("1-2", "tokenC05"), CALLED + 7 * HOUR)
        before = self.vote.kept()
        ran = self.vote.run()
        says("a run with the first text", ran, 0, "a later one was entered; if the voter sent this one again",
             "or type this")
        self.assertEqual(self.vote.kept(), before)
        [line] = self.lines_in(ran)
        self.assertEqual(run_line(line, ["1-2", "tokenC05"]).status, 0)
        self.assertEqual(self.vote.ballots()["d3"], ("1-2", receipt(1, "d3", "tokenC05"), 3))

    def test_it_is_taken_out_of_the_folder_if_the_voter_says_so(self):
        path = self.came.mail("d1", mail_of(self.came.filled("123"), 12), CALLED + 4 * HOUR)
        self.run_once("a run with an old ballot", f"{UNDECIDED} 1 ballot", "move its file out of FOLDER; or type this")
        path.unlink()
        says("a run without it", self.vote.run(), 0, "Every voter has an answer")

    def test_the_line_of_another_text_of_a_mail_says_that_it_is_meant(self):
        self.came.mbox("d2", mail_of(self.came.filled("1-2"), 2), at=CALLED + 5 * HOUR)
        [line] = self.run_once("a run with another text", f"{UNDECIDED} 1 ballot",
                               "ask the voter, and then take it out of its mbox; or type this line")
        self.assertIn(" --yes ", line)
        self.check_enters(line, "d2", "1-2", "tokenC02", times=2, status=0)

    def test_the_line_of_a_text_in_time_has_the_moment_of_the_desk_behind_the_run(self):
        self.came.mail("d1", mail_of(self.came.filled("123"), 12), CALLED + 4 * HOUR)
        self.came.mail("d3", mail_of(self.came.filled("123"), 3), CALLED + 9 * HOUR)
        ran = self.vote.run()
        says("a run that sends another ballot", ran, 1, f"{UNDECIDED} 1 ballot", "1 vote of 1 entered")
        [line] = self.lines_in(ran)
        self.assertIn(" --at=2026-01-15T09:00:00Z ", line)
        self.check_enters(line, "d1", "123", "tokenD01", times=3, status=0)

    def test_one_mail_under_two_logins_is_sent_for_neither_and_its_line_enters_it_for_one(self):
        mail = mail_of(self.came.filled("1-2"), 34)
        paths = {login: self.came.mail(login, mail, CALLED + 5 * HOUR) for login in ("d3", "d4")}
        lines = self.run_once("a run with one mail under two logins", f"{WHOSE} 2 ballots",
                              f"the same mail is also that of d4 ({paths['d4']})",
                              f"the same mail is also that of d3 ({paths['d3']})")
        self.assertEqual([line.rpartition("login=")[2] for line in lines], ["d3", "d4"])
        paths["d4"].unlink()
        self.check_enters(lines[0], "d3", "1-2", "tokenC03", times=1, status=0)

    def test_a_mail_of_another_voter_who_has_an_answer_is_not_sent(self):
        path = self.came.mail("d3", mail_of(self.came.filled("213"), 2), CALLED + 5 * HOUR)
        self.run_once("a run with a mail of d2 as one of d3", f"{WHOSE} 1 ballot d3, The Name of 3: {path}",
                      "the same mail is also that of d2 (", "Without an answer: d3")

    def test_one_text_with_its_token_under_two_logins_is_sent_for_neither(self):
        for login in "d3", "d4":
            self.came.text(login, self.came.filled("1-2", "tokenC03"), CALLED + 5 * HOUR)
        self.run_once("a run with one text under two logins", f"{WHOSE} 2 ballots",
                      "the same text with its token is also that of d4")

    def test_a_mail_from_another_developer_is_not_sent(self):
        sender = "Voter <{}@Example.org>".format("d4".upper())
        self.came.mail("d3", from_sender(mail_of(self.came.filled("1-2"), 3), sender), CALLED + 5 * HOUR)
        words = "--domain", "example.org"
        [line] = self.run_once("a run with a mail from another one", f"{WHOSE} 1 ballot", f"From: {sender}",
                               "its From is that of d4", words=words)
        self.check_enters(line, "d3", "1-2", "tokenC03", times=1, status=0)

    def test_a_from_moves_nothing_on_a_terminal(self):
        mail = mail_of(self.came.filled("1-2"), 3).as_bytes()
        hostile = mail.replace(b"voter@example.net", b"=?utf-8?q?=1B[2Jx?= <v\x1b@x.org>")
        self.came.put("d3.eml", hostile, CALLED + 5 * HOUR)
        ran = self.vote.run()
        says("a run with a hostile From", ran, 0, "1 vote of 1 entered", "; unsigned; From: ")
        self.assertNotIn(b"\x1b", ran.out)

    def test_nothing_is_typed_for_what_can_only_be_entered_past_the_end(self):
        self.came.mail("d1", mail_of(self.came.filled("123"), 12), CALLED + 4 * HOUR)
        self.vote.desk.enter(CALLED + 7 * DAY, ("/developers", "login=late&name=L&status=retired", ""))
        lines = self.run_once("a run past the end", f"{UNDECIDED} 1 ballot",
                              "it can only be entered past the end of the vote: ask the voter, and then move its")
        self.assertEqual(lines, [])


class GivenUp(Case):
    """A desk that was put back from a copy of before a vote, which was given up."""

    def setUp(self):
        work = self.folder()
        desk = Called.made(work, 5)
        came = Folder(work / "came", desk)
        self.vote = VotingFolder(desk, came)
        came.mail("d2", mail_of(came.filled("213"), 2), CALLED + HOUR)
        says("a run", self.vote.run(), 0, "1 vote of 1 entered")
        self.assertEqual(tool("backup", desk.file, work / "copy").status, 0)
        self.last = came.mail("d1", mail_of(came.filled("321"), 12), CALLED + 3 * HOUR)
        says("the next run", self.vote.run(), 0, "1 vote of 1 entered")
        for path in work.glob("called.db*"):
            if path.name in ("called.db", "called.db-wal"):
                path.unlink()
        self.assertEqual(tool("restore", work / "copy", desk.file).status, 0)
        act = tool("act", "--desk", desk.file, "--journal", self.vote.journal, "--at", CALLED + 4 * HOUR, "--give-up",
                   "developer", "login=late", "name=L", "status=retired")
        self.assertEqual(act.status, 0, act)

    def test_a_vote_that_is_gone_has_no_answer_and_the_line_enters_it_again(self):
        ran = self.vote.run()
        says("a run after the restore", ran, 1,
             f"Not sent again: it was entered, but the desk no longer has it: 1 ballot d1, The Name of 1: {self.last}",
             "There was no vote to send",
             "Without an answer: d1, The Name of 1: not sent again: it was entered")
        self.assertEqual(sorted(self.vote.ballots()), ["d2"])
        [line] = re.findall("^ +(gr-desk act .*)$", ran.out.decode(), re.M)
        self.assertEqual(run_line(line, ["321", "tokenB01"]).status, 0)
        says("a run after that", self.vote.run(), 0, "Every voter has an answer")
        self.assertEqual(self.vote.ballots()["d1"], ("321", receipt(1, "d1", "tokenB01"), 1))

    def test_it_replaces_no_earlier_ballot(self):
        self.last.unlink()
        self.vote.came.mail("d1", mail_of(self.vote.came.filled("123"), 1), CALLED + 2 * HOUR)
        self.vote.reports("a run with an earlier ballot", "To be sent: 1 ballot d1", "1 vote of 1 entered",
                          "Without an answer: d1, The Name of 1: not sent again: it was entered, but the desk no")
        self.assertEqual(self.vote.ballots()["d1"][0], "123")

    def test_its_voter_has_no_answer_also_if_no_mail_is_there(self):
        self.last.unlink()
        self.vote.reports("a run without its mail", "There was no vote to send",
                          "Without an answer: d1, The Name of 1: not sent again: it was entered, but the desk no")


class UndecidedByAPort(Case):
    def test_the_line_for_a_port_has_no_date_and_enters_the_ballot(self):
        work, now = self.folder(), int(time.time())
        desk = Called.made(work, 5, begin=now - 15 * DAY)
        came = Folder(work / "came", desk)
        came.mbox("d1", *(mail_of(came.filled(ranks), 8) for ranks in ("123", "321")), at=now - HOUR)
        with serve(desk.file, 99) as served:
            ran = votes("--port", served.port, 1, came.place, journal=work / "journal")
            says("a run with two texts of one mail", ran, 1, f"{UNDECIDED} 2 ballots", "There was no vote to send")
            line = re.search("^ +(gr-desk act .*)$", ran.out.decode(), re.M)[1]
            self.assertIn(f" --port={served.port} ", line)
            self.assertEqual(run_line(line, ["321", "tokenA01"]).status, 0)
        self.assertEqual(ballots_in(desk.file)["d1"], ("321", receipt(1, "d1", "tokenA01"), 1))
