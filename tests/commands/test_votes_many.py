"""How gr-desk votes enters many ballots, and ballots by a port. By a port a vote whose answer was lost is sent again,
with the same token, and so is one that was refused for now; after either no other one is sent. Of 400 forms in twelve
styles each stands in the tally as it says, or its voter gets the reason, within a minute; where more processes wait
than the machine has processors, within so many times as long. What a second run prints is short."""
import json
import os
import re
import socket
import threading
import time
from contextlib import contextmanager
from functools import cache

from tests.commands.voting_folder import HOUR
from tests.support.ballot_cases import SIGNATURE, encoded, html, mail, parts, plain, quoted, signed, wrapped
from tests.support.called import CALLED, ENDED, Called
from tests.support.case import Case
from tests.support.mailed import HOST, Folder, answers_in, ballots_in, date_field, receipt_in, says, votes
from tests.support.program import DAY, LOCAL, copy_desk, receipt, response, run, serve

# How long 400 ballots may take on a machine that does nothing else, in seconds.
MOST_SECONDS = 60
BALLOTS = 400

JAPANESE = "投票します。\n\n"
# What stands before each mail of an mbox.
FROM_LINE = b"From x@example.org Thu Jan 15 02:00:00 2026\n"

mails_in = cache(answers_in)


@contextmanager
def before(port, answer_to_the_second_vote):
    """A port that hands connections on to another one. What it does with the second vote is up to this function, which
    has the request and what hands it on."""
    with socket.create_server((LOCAL, 0)) as listener:
        threading.Thread(target=hand_on, args=(listener, port, answer_to_the_second_vote), daemon=True).start()
        yield listener.getsockname()[1]


def hand_on(listener, port, answer_to_the_second_vote):
    count = 0
    while True:
        try:
            peer = listener.accept()[0]
        except OSError:
            return
        with peer:
            request = peer.recv(65_536)
            count += b"/vote " in request
            is_second = count == 2 and b"/vote " in request
            peer.sendall(answer_to_the_second_vote(port, request) if is_second else answer_of(port, request))


def answer_of(port, request):
    """What the desk at a port answers to a request."""
    with socket.create_connection((LOCAL, port)) as desk:
        desk.sendall(request)
        answer = b""
        while piece := desk.recv(65_536):
            answer += piece
        return answer


def lost(port, request):
    """The desk gets the request, and its answer does not come back."""
    answer_of(port, request)
    return b""


def answered(status, line):
    """The desk gets nothing, and this is the answer."""
    return lambda _port, _request: response(status, line)


class VotesByAPort(Case):
    def test_a_vote_whose_answer_was_lost_is_sent_again_with_the_same_token_and_counts_once(self):
        work, now = self.folder(), int(time.time())
        desk = Called.made(work, 5, begin=now - 15 * DAY)
        came = Folder(work / "came", desk)
        journal = work / "journal"
        for number in range(1, 6):
            came.text(f"d{number}", came.filled("123"), now - HOUR + number)
        with serve(desk.file, 99) as served, before(served.port, lost) as port:
            ran = votes("--port", port, 1, came.place, journal=journal)
            says("a run whose answer is lost", ran, 3, "lost: the answer did not come whole", "1 vote of 5 entered",
                 "Without an answer: d2")
            came.text("d2", came.filled("123"), now - HOUR // 2)
            ran = votes("--port", served.port, 1, came.place, journal=journal)
            says("the next run", ran, 0, "To be sent again, with the same token: 1 ballot",
                 "the vote of d2 is sent again with the same token; `Received` may be one higher for it",
                 "4 votes of 4 entered", "Every voter has an answer")
        acts = [line for line in map(json.loads, journal.read_text().splitlines()) if line["line"] == "act"]
        sent = [line for line in acts if line["fields"]["login"] == "d2"]
        arrivals, tokens = [line["source"]["arrived"] for line in sent], {line["fields"]["token"] for line in sent}
        self.assertEqual(arrivals, 2 * [now - HOUR + 2], "when that arrived, whatever its file says now")
        self.assertEqual(len(tokens), 1)
        found = ballots_in(desk.file)
        times = {"d1": 1, "d2": 2, "d3": 1, "d4": 1, "d5": 1}
        self.assertEqual({login: row[2] for login, row in found.items()}, times)
        mails = answers_in(work / "came.outbox")
        receipts = {login: [receipt_in(text)[0] for _, text in of_voter] for login, of_voter in mails.items()}
        self.assertEqual(receipts, {login: [row[1]] for login, row in found.items()})


class StopsAtAPort(Case):
    """Three ballots, of which the desk at a port answers the second one in another way."""

    def setUp(self):
        self.work, self.now = self.folder(), int(time.time())
        self.desk = Called.made(self.work, 5, begin=self.now - 15 * DAY)
        self.came = Folder(self.work / "came", self.desk)
        self.journal, self.outbox = self.work / "journal", self.work / "came.outbox"
        for number in range(1, 4):
            self.came.text(f"d{number}", self.came.filled("123"), self.now - HOUR + number)

    def run_at(self, port):
        return votes("--port", port, 1, self.came.place, journal=self.journal)

    def stopped(self, status, line):
        """A run that gets this answer to the second vote, and the run after it at the desk itself."""
        with serve(self.desk.file, 99) as served:
            with before(served.port, answered(status, line)) as port:
                ran = self.run_at(port)
            self.assertEqual(self.sent_to(), ["d1", "d2"], "what was sent by the first run")
            self.assertEqual(sorted(answers_in(self.outbox)), ["d1"], "the mails of the first run")
            tokens = re.findall(r'"token": "(\w+)"', self.journal.read_text())
            self.assertEqual([token for token in tokens if token.encode() in ran.err], [], "tokens on error output")
            return ran, self.run_at(served.port)

    def sent_to(self):
        lines = map(json.loads, self.journal.read_text().splitlines())
        return [line["fields"]["login"] for line in lines if line["line"] == "act"]

    def check_entered(self, times):
        """Each voter has a ballot, which came so often, and a mail with its receipt."""
        found = ballots_in(self.desk.file)
        self.assertEqual({login: row[2] for login, row in found.items()}, dict.fromkeys(("d1", "d2", "d3"), times))
        receipts = {login: [receipt_in(text)[0] for _, text in of_voter] for login, of_voter in
                    answers_in(self.outbox).items()}
        self.assertEqual(receipts, {login: [row[1]] for login, row in found.items()})

    def check_passing(self, name, *advice):
        ran, again = self.stopped(409, f"refused 2 {name}\n")
        message = f"nothing more was sent: the desk refused the vote of d2 ({self.came.place}/d2.txt) for now. {name}: "
        says("a run that is refused for now", ran, 1, message, "Nothing is lost; ", *advice,
             "1 vote of 3 entered, 0 refused",
             "Without an answer: d2, The Name of 2: refused for now, and sent again by the next run"
             " d3, The Name of 3: to be sent", "1 mail written")
        says("the next run", again, 0, "To be sent: 2 ballots", "2 votes of 2 entered", "2 mails written")
        self.assertEqual(self.sent_to(), ["d1", "d2", "d2", "d3"])
        self.check_entered(times=1)

    def test_after_a_clock_that_is_behind_nothing_more_is_sent_and_nothing_is_lost(self):
        self.check_passing("ClockBack", "run this again once the machine's clock has passed it")

    def test_a_machine_whose_clock_is_two_minutes_behind_that_of_the_desk_loses_no_ballot(self):
        self.desk.enter(self.now, ("/developers", "login=late&name=L&status=retired", ""))
        with serve(self.desk.file, 99, "--at", self.now - 120) as served:
            says("a run by a clock that is behind", self.run_at(served.port), 1, "for now. ClockBack: ",
                 "0 votes of 3 entered, 0 refused", " 0 mails written")
        with serve(self.desk.file, 99) as served:
            says("the next run", self.run_at(served.port), 0, "3 votes of 3 entered", " 3 mails written")
        self.check_entered(times=1)

    def test_the_end_of_the_vote_is_not_final_for_what_came_in_time(self):
        self.check_passing("Ended", "end `serve`, and before any other act run this again with DESK")

    def test_a_final_refusal_is_answered_and_the_others_are_sent(self):
        with serve(self.desk.file, 99) as served:
            with before(served.port, answered(409, "refused 22 BadRanks\n")) as port:
                says("a run with a final refusal", self.run_at(port), 1, "2 votes of 3 entered, 1 refused",
                     "Every voter has an answer", "3 mails written")
            says("the next run", self.run_at(served.port), 1, "There was no vote to send", " 0 mails written")
        [(_, text)] = answers_in(self.outbox)["d2"]
        self.assertIn("was not entered: the ranks are a character", " ".join(text.split()))

    def test_after_a_fault_nothing_more_is_sent(self):
        ran, again = self.stopped(503, "fault F2 Store\n")
        message = f"the desk failed at the vote of d2 ({self.came.place}/d2.txt), by fault F2 Store; run this again. "
        says("a run that meets a fault", ran, 3, f"{message}Nothing is lost", "1 vote of 3 entered",
             "Without an answer: d2")
        says("the next run", again, 0, "To be sent again, with the same token: 1 ballot", "2 votes of 2 entered")
        self.check_entered(times=1)


def styles_of(text):
    """A form that was filled in, as several mail programs send it: the bytes, and why it is refused."""
    around = "Hello, hier meine Stimme:\n\n"
    late = f"Received: from x by {HOST}; {date_field(ENDED)}"
    kinds = {
        "a text": (text, None),
        "a quoted answer": (f"{around}{quoted(text)}\n-- \nMe\n", None),
        "a signed mail": (parts("signed", plain(text), SIGNATURE), None),
        "a text signed in its midst": (mail(signed(text, around)), None),
        "base64 in two languages": (encoded(f"{JAPANESE}{around}{text}", "utf-8", "base64"), None),
        "quoted-printable": (encoded(f"Grüße!\n{text}", "latin-1", "quoted-printable"), None),
        "a text beside HTML": (parts("alternative", plain(text), html()), None),
        "HTML alone": (parts("alternative", html(f"<pre>{text}</pre>")), "has no text that is plain"),
        "a wrong identifier": (mail(text.replace("Identifier: ", "Identifier: 0")), "the identifier is not that of"),
        "a mail that came twice": (2 * (FROM_LINE + mail(text).replace(b"\r\n", b"\n") + b"\n"), None),
        "a late mail": (mail(text, late), "it is late, since votes were"),
        "wrapped lines": (mail(wrapped(text).replace("\n", "\r\n")), None),
    }
    return [(content if isinstance(content, bytes) else content.encode(), why) for content, why in kinds.values()]


def fill_folder(came):
    """Puts 400 forms, every other one with a token. Gives the ranks and the token of each that must be entered, and of
    each other one why it is refused, by login."""
    taken, refused = {}, {}
    for number in range(1, BALLOTS + 1):
        login, token = f"d{number}", f"token{number:05}" if number % 2 else ""
        ranks = f"{number % 3 + 1}{number % 5 + 1}{'-' if number % 7 else 9}"
        styles = styles_of(came.filled(ranks, token))
        # So that each style has forms with a token, and without.
        content, why = styles[number % 25 % len(styles)]
        # Each mail has a Message-ID of its own.
        own = content.replace(b"<1@example.org>", f"<{number}@example.org>".encode())
        came.put(f"{login}.eml", own, CALLED + number)
        if why:
            refused[login] = why
        else:
            taken[login] = ranks, token
    return taken, refused


class ManyVotes(Case):
    """A run over 400 forms."""

    @classmethod
    def setUpClass(cls):
        cls.work = cls.shared_folder()
        cls.desk = Called.made(cls.work, BALLOTS)
        came = Folder(cls.work / "came", cls.desk)
        cls.taken, cls.refused = fill_folder(came)
        cls.words = "--received-by", HOST, cls.desk.file, 1, came.place
        began = time.monotonic()
        cls.ran = cls.run_tool(seconds=20 * MOST_SECONDS)
        cls.seconds = time.monotonic() - began
        cls.most = MOST_SECONDS * max(1, os.getloadavg()[0] / os.cpu_count())

    @classmethod
    def run_tool(cls, **streams):
        return votes(*cls.words, journal=cls.work / "journal", **streams)

    def mails(self):
        return mails_in(self.work / "came.outbox")

    def test_there_are_forms_that_must_be_entered_and_forms_that_must_be_refused(self):
        self.assertEqual(len(self.taken) + len(self.refused), BALLOTS)
        self.assertEqual(len(set(self.refused.values())), 3)

    def test_each_form_is_entered_or_refused_and_each_voter_has_a_mail(self):
        entered = f"{len(self.taken)} votes of {len(self.taken)} entered, 0 refused"
        says("a run of 400", self.ran, 1, entered, f"{BALLOTS} mails written")

    def test_the_run_does_not_take_too_long(self):
        self.assertLessEqual(self.seconds, self.most)

    def test_a_second_run_sends_nothing_and_prints_a_line_for_each_refused_form_and_six_more(self):
        ran = self.run_tool()
        known = f"Answered before: {BALLOTS} ballots, {len(self.taken)} entered, {len(self.refused)} refused, 0"
        says("the second run", ran, 1, known, "There was no vote to send", " 0 mails written")
        self.assertEqual(len(ran.out.splitlines()), len(self.refused) + 6)

    def test_each_voter_whose_form_is_refused_gets_the_reason(self):
        for login, why in self.refused.items():
            with self.subTest(login=login):
                [(_, text)] = self.mails()[login]
                self.assertIn(why, " ".join(text.split()))

    def test_each_voter_whose_form_is_entered_has_its_receipt_by_its_own_token_if_it_has_one(self):
        for login, (_, own) in self.taken.items():
            with self.subTest(login=login):
                [(_, text)] = self.mails()[login]
                digits, token = receipt_in(text)
                self.assertEqual(digits, receipt(1, login, own or token))

    def test_the_tally_has_each_form_as_it_says_by_the_receipt_in_the_mail(self):
        receipts = {login: receipt_in(self.mails()[login][0][1])[0] for login in self.taken}
        closed = Called(copy_desk(self.desk.file, self.folder() / "closed.db"), self.desk.count + len(self.taken))
        closed.enter(ENDED, ("/resolutions/1/close", "", ""))
        tally = run("tally", closed.file, 1).out.decode()
        found = {digits: ranks for ranks, digits in re.findall(r"^V: (\S+) (\S+)$", tally, re.M)}
        self.assertEqual(found, {receipts[login]: ranks for login, (ranks, _) in self.taken.items()})
