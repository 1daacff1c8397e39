"""Looks at gr-desk act. Its table of acts is the one of docs/formats.md. A vote is led by it, with each act: each value
comes to the desk as it was written, and each line makes one request, which is one of those that `serve` counts. What it
prints and its exit status are compared whole. No process has ranks and token among its words."""
import os
import pty
import re
import select
import socket
import subprocess
from pathlib import Path

from tests.commands.act_runs import ACT, act, answering, in_words, lost, meaning, noted, response, says, wrong
from tests.support.case import Case
from tests.support.program import DAY, LOCAL, PATIENCE, T0, TOP, Ran, build, compile_tools, fail, make_desk, receipt
from tests.support.program import run, serve
from grdesk.acts.act import ACTS

ROLL_FILE = "login,name,status\nd1,One,current\nd2,Two,current\nd3,Three,current\n"
# What a form, a shell and an address would take for something else.
SUMMARY = "Gamma & more: 100% + 1 = #2; ä€𝄞 ?'\"\\ @x"
TEXT = "text=1&ratio=2\r\n\t100% + 1\n\nü€ %41 +\n"
STRANGE = "@leader & co+"
CALLED, ENDED = T0 + 14 * DAY, T0 + 21 * DAY
UNTIL = f"the voting on resolution 1 ends 2026-01-22T00:00:00Z ({ENDED}); a close is possible from then on"
TOKEN = "tokenA01"


class ActCase(Case):
    @classmethod
    def setUpClass(cls):
        build()
        compile_tools()


class Table(ActCase):
    def test_each_post_of_the_page_on_formats_is_an_act_with_its_fields_and_there_is_no_other(self):
        row = re.compile(r"\| (`/[^|]*`) \| POST \|(.*)\| `\w+` \|")
        documented = {}
        for path, fields in row.findall((TOP / "docs" / "formats.md").read_text()):
            documented[path.strip("`")] = re.findall("`([a-z]+)`", fields)
        self.assertEqual(len(documented), 14, "acts in docs/formats.md")
        path, fields = ACTS["vote"]
        acts = {**ACTS, "vote": (path, [*fields, "ranks", "token"])}
        self.assertEqual(dict(acts.values()), documented)

    def test_help_has_each_act(self):
        for form in "--help", "-h":
            with self.subTest(form=form):
                ran = act(None, form)
                names = [line.split()[0] for line in ran.out.decode().splitlines() if re.match("  [a-z]+  ", line)]
                self.assertEqual(sorted(names), sorted(ACTS))
                self.assertEqual((ran.status, ran.err), (0, b""))


def steps_of_vote(text):
    """Lines with their moments, their input, and the answer, None where nothing is sent, and what that means. The text
    is in this file."""
    receipt_line = f"receipt {receipt(1, 'd1', TOKEN)}\n"
    first, second = in_words("rank 1", "no rank", "rank 2"), in_words("rank 2", "no rank", "rank 9")
    return [
        (T0, ["import"], ROLL_FILE, "ok 1 added 3 changed 0 same 0\n"),
        (T0, ["developer", "status=current", f"name={STRANGE}", "login=d4"], "", "ok 2\n"),
        (T0, ["propose", "author=d1", f"summary={SUMMARY}", f"text=@{text}", "ratio=1"], "", "ok 3 resolution 1\n"),
        (T0, ["sponsor", "1", "choice=1", "login=d2"], "", "ok 4\n"),
        (T0, ["choice", "1", "author=@leader", "summary=Green", "text=@", "ratio=1"], "", None),
        (T0, ["choice", "1", "author=@leader", "summary=@a text", "text=a=b", "ratio=1"], "", "ok 5 choice 2\n"),
        (T0, ["amend", "1", "choice=2", "minor=1", f"summary={STRANGE}", "text=a & b"], "", "ok 6\n"),
        (T0, ["withdraw", "1", "choice=2"], "", "ok 7\n"),
        (T0, ["adopt", "1", "choice=2", "author=@committee"], "", "ok 8\n"),
        (T0, ["unsponsor", "1", "choice=1", "login=d2"], "", "ok 9\n"),
        (T0, ["sponsor", "1", "choice=1", "login=d3"], "", "ok 10\n"),
        (T0, ["vary", "1", "days=-7"], "", "ok 11\n"),
        (T0, ["vary", "1", "days=0"], "", "ok 12\n"),
        (CALLED, ["call", "1", "days=7"], "", f"ok 13 places 3 until {ENDED}\n", UNTIL),
        (CALLED, ["vote", "1", "login=d1"], f"1-2\n{TOKEN}\n", f"ok 14 {receipt_line}{first}"),
        (CALLED, ["vote", "1", "login=d1"], f"2-9\r\n{TOKEN}", f"ok 15 {receipt_line}{second}"),
        (ENDED, ["close", "1"], "", "ok 16\n"),
    ]


class WholeVote(ActCase):
    """A whole vote: each of its lines is one request of `serve`."""

    @classmethod
    def setUpClass(cls):
        super().setUpClass()
        cls.file = cls.shared_folder() / "vote.db"
        text = cls.shared_folder() / "a text"
        text.write_bytes(TEXT.encode())
        make_desk(cls.file)
        cls.steps = steps_of_vote(text)
        cls.came, cls.ended = [], []
        for moment in T0, CALLED, ENDED:
            at_once = [step for step in cls.steps if step[0] == moment]
            requests = sum(1 for step in at_once if step[3] is not None)
            with serve(cls.file, requests, "--at", moment) as desk:
                cls.came += [act(desk.port, *words, given=given.encode()) for _, words, given, *_ in at_once]
                cls.ended.append(desk.ended())

    def test_each_line_prints_the_answer_of_the_desk_and_what_it_means(self):
        self.assertEqual(len(self.came), len(self.steps))
        for (_, words, _, answer, *means), ran in zip(self.steps, self.came):
            with self.subTest(words=words):
                refused = wrong("'' cannot be read: No such file or directory")
                self.assertEqual(ran, says(answer, *means) if answer else refused)

    def test_each_line_is_one_request(self):
        self.assertEqual(self.ended, [Ran(0, b"", b"")] * 3, "serve, after as many requests as there were lines")

    def test_what_came_to_the_desk_is_what_was_written(self):
        status = run("status", self.file, 1).out.decode()
        for line in f"Choice 1: {SUMMARY}", f"Choice 2: {STRANGE}", "| a & b", "Proposer: committee", "Sponsors: 1 d3":
            with self.subTest(line=line):
                self.assertIn(f"\n{line}\n", status)
        with self.subTest(line="the text"):
            lines = "".join(f"| {line}\n" for line in TEXT.removesuffix("\n").split("\n"))
            self.assertIn(f"\n{lines}Choice 2", status)
        with self.subTest(line="the name on the roll"):
            self.assertIn(f"D: d4 current {STRANGE}\n", run("roll", self.file).out.decode())
        with self.subTest(line="the ballot in the tally"):
            self.assertIn(f"V: 2-9 {receipt(1, 'd1', TOKEN)}\n", run("tally", self.file, 1).out.decode())

    def test_a_casting_vote_where_no_places_are_level_is_refused(self):
        with serve(self.file, 1, "--at", ENDED) as desk:
            # One ballot is below the quorum of four developers, so the default option wins alone.
            ran = act(desk.port, "cast", "1", "place=1")
            self.assertEqual(ran, Ran(1, b"refused 22 NotTied\n", noted(meaning("NotTied"))))
            desk.ended()


class Votes(ActCase):
    def called_desk(self):
        """A desk with a vote of two places, by a file."""
        file = self.folder() / "tokens.db"
        make_desk(file)
        with serve(file, 2, "--at", T0) as desk:
            desk.accepts("/developers", "login=d1&name=One&status=current", "ok 1")
            desk.accepts("/resolutions", "author=@leader&summary=Red&text=a&ratio=1", "ok 2 resolution 1")
            desk.ended()
        return file

    def test_a_vote_without_a_token_has_one_made_and_one_that_is_too_short_is_refused(self):
        made = set()
        with serve(self.called_desk(), 6, "--at", T0 + 14 * DAY) as desk:
            desk.accepts("/resolutions/1/call", "days=7", f"ok 3 places 2 until {T0 + 21 * DAY}")
            for number, given in enumerate([b"12\n\n", b"12", b"12\n", b"12\r\n\r\n"], start=4):
                with self.subTest(given=given):
                    ran = act(None, "vote", "1", "login=d1", given=given, env={"GR_DESK_PORT": str(desk.port)})
                    token = re.match(b"token ([0-9a-f]{32})\n", ran.out)
                    self.assertIsNotNone(token, ran)
                    token = token[1].decode()
                    answer = f"ok {number} receipt {receipt(1, 'd1', token)}\n{in_words('rank 1', 'rank 2')}"
                    self.assertEqual(ran, says(f"token {token}\n{answer}"))
                    made.add(token)
            with self.subTest(given="a token that is too short"):
                ran = act(desk.port, "vote", "1", "login=d1", given=b"12\nshort\n")
                self.assertEqual(ran, Ran(1, b"refused 7 BadToken\n", noted(meaning("BadToken"))))
            desk.ended()
        self.assertEqual(len(made), 4, "tokens that were made")

    def test_ranks_of_letters_are_printed_as_numbers(self):
        ranks = "123456789abcdefghijklmnopqrstuvwxy-"
        in_numbers = [f"rank {number}" for number in range(1, 35)] + ["no rank"]
        for given, expected in (ranks, in_numbers), ("z1", ["rank 35", "rank 1"]):
            with self.subTest(ranks=given), answering(response(200, "ok 1\n")) as (port, _):
                ran = act(port, "vote", "1", "login=d1", given=f"{given}\ntokenA01\n".encode())
                self.assertEqual(ran, says(f"ok 1\n{in_words(*expected)}"))

    def test_no_process_has_ranks_or_token_among_its_words_while_the_request_is_under_way(self):
        token, ranks = "tokenSEEN01", "1-2-3-4-5"
        with socket.create_server((LOCAL, 0)) as listener:
            line = [*ACT, "--port", str(listener.getsockname()[1]), "vote", "1", "login=d1"]
            pipe = subprocess.PIPE
            with subprocess.Popen(line, stdin=pipe, stdout=pipe, stderr=pipe) as process:
                process.stdin.write(f"{ranks}\n{token}\n".encode())
                process.stdin.close()
                peer = listener.accept()[0]
                words = b""
                for path in Path("/proc").glob("[0-9]*/cmdline"):
                    try:
                        words += path.read_bytes()
                    except OSError:
                        continue
                peer.recv(65_536)
                peer.sendall(response(409, "refused 9 NoResolution\n"))
                peer.close()
                self.assertEqual(process.stdout.read(), b"refused 9 NoResolution\n", "its answer")
        self.assertIn(b"login=d1", words, "the words of the tool itself")
        for secret in token, ranks:
            with self.subTest(secret=secret):
                self.assertNotIn(secret.encode(), words)


NO_ANSWER = "lost: the answer did not come whole; the desk may have accepted the act, so look at the status"
VOTE_AGAIN = "send the vote again, with the same token: if it was accepted before, `Received` of the result is one "
VOTE_AGAIN += "higher for that"
BAD_DAYS = "days= must be a whole number in decimal, with no zero in front, or one after a hyphen"
TOO_LARGE = "an import has 1,048,576 bytes at most; import the roll in parts, since an import removes nobody"
FAULT = "the desk failed, and may have this act or not: look before you send it again"
NO_OUTPUT = "lost: standard output could not be written"
# What comes of a response, at a port.
ANSWERS = [
    (response(200, "ok 1\n"), lambda _: says("ok 1\n")),
    (response(400, "bad field days\n"), lambda _: Ran(1, b"bad field days\n", noted(BAD_DAYS))),
    (response(404, "not found\n"), lambda _: Ran(1, b"not found\n", b"")),
    (response(405, "method not allowed\n"), lambda _: Ran(1, b"method not allowed\n", b"")),
    (response(409, "refused 13 TooEarly\n"), lambda _: Ran(1, b"refused 13 TooEarly\n", noted(meaning("TooEarly")))),
    (
        response(409, "refused 99 Strange\n"),
        lambda _: Ran(1, b"refused 99 Strange\n", noted("not explained: 'Strange'")),
    ),
    (response(413, "too large\n"), lambda _: Ran(1, b"too large\n", noted(TOO_LARGE))),
    (response(503, "fault F2 Store\n"), lambda _: Ran(3, b"fault F2 Store\n", noted(FAULT))),
    (b"", lambda _: lost(NO_ANSWER)),
    (b"HTTP/1.1 200 OK\r\nConte", lambda _: lost(NO_ANSWER)),
    (response(200, "ok 1\n", 6), lambda _: lost(NO_ANSWER)),
    (b"SSH-2.0-x\r\n", lambda _: lost(NO_ANSWER)),
    (response(302, ""), lambda port: lost(f"lost: what listens on port {port} is no desk, and answered status 302")),
]


class Answers(ActCase):
    """The exit status after each response, and after none."""

    def test_the_exit_status_says_what_came_of_the_act_and_no_proxy_of_the_environment_is_asked(self):
        proxies = {name: "http://127.0.0.1:1" for name in ("http_proxy", "HTTP_PROXY", "ALL_PROXY")}
        for text, expected in ANSWERS:
            with self.subTest(response=text):
                with answering(text) as (port, came):
                    self.assertEqual(act(port, "call", "1", "days=-7", env=proxies), expected(port))
                head, body = came[0]
                self.assertEqual((head.split(b"\r\n")[0], body), (b"POST /resolutions/1/call HTTP/1.1", b"days=-7"))

    def test_of_a_roll_file_that_is_too_large_as_much_is_sent_as_shows_that(self):
        with answering(response(413, "too large\n")) as (port, came):
            ran = act(port, "import", given=b"x" * 2_097_152)
            self.assertEqual(ran, Ran(1, b"too large\n", noted(TOO_LARGE)))
        self.assertEqual(len(came[0][1]), 1_048_577, "what was sent of it")

    def test_a_vote_that_is_lost_must_be_sent_again_with_its_token(self):
        with answering(b"") as (port, _):
            message = NO_ANSWER.replace("the desk may have accepted the act, so look at the status", VOTE_AGAIN)
            self.assertEqual(act(port, "vote", "1", "login=d1", given=b"12\ntokenA01\n"), lost(message))

    def test_where_nobody_listens_nothing_was_sent(self):
        with socket.create_server((LOCAL, 0)) as listener:
            port = listener.getsockname()[1]
        message = lost(f"nothing was sent: port {port} of 127.0.0.1: Connection refused")
        self.assertEqual(act(port, "close", "1"), message)

    def test_an_answer_that_cannot_be_printed_is_lost(self):
        with answering(response(200, "ok 1\n")) as (port, _), open("/dev/full", "wb") as full:
            self.assertEqual(act(port, "close", "1", stdout=full), lost(NO_OUTPUT))

    def test_a_token_that_nobody_gets_to_see_is_not_used(self):
        with open("/dev/full", "wb") as full:
            ran = act(1, "vote", "1", "login=d1", given=b"12\n", stdout=full)
            self.assertEqual(ran, lost(NO_OUTPUT))


LAST_LINE = b"place 2, None of the above: rank 2\r\n"
ANSWER = b"ok 1\r\nplace 1: rank 1\r\n" + LAST_LINE
RANKS, TOKEN_ASKED, SURE = b"above last: ", b"is made: ", b"y or n: "


def at_terminal(port, *steps):
    """Votes at a terminal, which is given something once it shows what the step expects, and returns what it showed and
    the exit status."""
    pid, terminal = pty.fork()
    if pid == 0:
        try:
            # In most locales Python reads a terminal so, and not in that of the tests.
            environment = os.environ | {"PYTHONIOENCODING": "utf-8:strict"}
            os.execve(ACT[0], [*map(str, ACT), "--port", str(port), "vote", "1", "login=d1"], environment)
        finally:
            os._exit(127)
    shown = b""
    for asked, given in steps:
        while asked not in shown:
            if not select.select([terminal], [], [], PATIENCE)[0]:
                fail(f"the terminal shows {shown}, and not {asked}")
            shown += os.read(terminal, 65_536)
        os.write(terminal, given)
    _, status = os.waitpid(pid, 0)
    os.close(terminal)
    return shown, os.waitstatus_to_exitcode(status)


class Terminals(ActCase):
    def test_a_terminal_is_asked_for_ranks_and_token_and_does_not_show_the_token(self):
        with answering(response(200, "ok 1\n")) as (port, came):
            steps = (RANKS, b"12\n"), (TOKEN_ASKED, b"tokenA01\n"), (SURE, b"y\n"), (ANSWER, b"")
            shown, status = at_terminal(port, *steps)
        self.assertEqual(came[0][1], b"login=d1&ranks=12&token=tokenA01", "the form")
        text = b"Ranks, a character for each place, None of the above last: 12\r\n"
        text += b"Token, or nothing for one that is made: \r\n"
        text += b"gr-desk act: the vote of d1\r\ngr-desk act: place 1: rank 1\r\ngr-desk act: " + LAST_LINE
        text += b"Send this vote? y or n: y\r\n"
        text += ANSWER
        self.assertEqual((shown, status), (text, 0))

    def test_a_vote_that_is_not_confirmed_is_not_sent(self):
        for no in b"n\n", b"\n", b"\x04", b"\xff\n":
            with self.subTest(no=no):
                message = b"nothing was sent: the vote was not confirmed\r\n"
                _, status = at_terminal(1, (RANKS, b"12\n"), (TOKEN_ASKED, b"\n"), (SURE, no), (message, b""))
                self.assertEqual(status, 1)

    def test_a_terminal_that_ends_before_the_token_or_gives_no_utf_8_is_named(self):
        # The end of input, as by Ctrl-D, and a byte that begins no character.
        ended = (RANKS, b"12\n"), (TOKEN_ASKED, b"\x04"), (b"act: the terminal ended before the token\r\n", b"")
        no_text = (RANKS, b"\xff\n"), (b"act: what was typed is not UTF-8\r\n", b"")
        for words, steps in ("it ends", ended), ("no UTF-8", no_text):
            with self.subTest(words=words):
                _, status = at_terminal(1, *steps)
                self.assertEqual(status, 2)
