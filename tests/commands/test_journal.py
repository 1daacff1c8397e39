"""Which journals the tools read: what is cut off, of an unknown form, no journal, readable by others or full."""
import json
import resource
import subprocess

from tests.commands.journal_case import JournalCase, entries_in
from tests.support.journaled import DISCUSSION, reports
from tests.support.program import DAY, PATIENCE, T0, TOP, Ran
from grdesk.error import Failed
from grdesk.journal.entry import line_of

# The file and the log of such a desk have fewer bytes each.
MOST_OF_A_DESK = 330_000
SPONSOR = ["sponsor", "1", "choice=1", "login=d3"]


def why_unread(journal):
    """What a tool says of a journal that it does not read."""
    try:
        entries_in(journal)
    except Failed as failure:
        return str(failure)
    return None


class BadJournals(JournalCase):
    def with_third_line(self, line):
        """A journal with this line in the place of its third one."""
        desk = self.made(DISCUSSION)
        lines = desk.lines()
        desk.journal.write_bytes(b"".join([*lines[:2], line, *lines[3:]]))
        return desk

    def test_a_line_that_was_cut_off_is_left_out_and_its_place_is_taken(self):
        last = self.made(DISCUSSION).lines()[-1]
        for tail in last[:40], last[:-1], b'{"fo', b'{"form": 1, "li\0\0\0\0\n', b"\0\0\0":
            with self.subTest(tail=tail):
                desk = self.made(DISCUSSION)
                desk.journal.write_bytes(b"".join(desk.lines()[:-1]) + tail)
                reports("list", desk.tool("list"), 0, "was cut off by a stop", "no answer is kept")
                reports("the next act", desk.act("--at", T0 + 3 * DAY, *SPONSOR), 0, "ok 6")
        reports("the check after such an act", desk.tool("check"), 0, "ok")

    def test_a_line_of_an_unknown_form_is_named_by_its_number(self):
        lines = self.made(DISCUSSION).lines()
        known = json.loads(lines[2])
        changed = [{"more": 1}, {"moment": "5"}, {"path": "/frob"}, {"number": "7"}]
        cut = [b"\n", b"[]\n", b"{}\n", b"\xff\n", b'{"form": 2}\n', lines[2][:40] + b"\n", lines[1], lines[0]]
        what = {"resolution": 1, "login": "d1", "ranks": "a", "token": None}
        replaced = [line_of("replaced", **what, source=source) for source in ({}, {"arrived": None})]
        made = [*(known | fields for fields in changed), *replaced]
        for wrong in [*cut, *(json.dumps(line).encode() + b"\n" for line in made)]:
            with self.subTest(line=wrong):
                desk = self.with_third_line(wrong)
                message = f"line 3 of {desk.journal} has a form that this tool does not know"
                self.assertEqual(why_unread(desk.journal), message)

    def test_a_tool_fails_where_the_journal_has_a_line_of_an_unknown_form(self):
        third = json.loads(self.made(DISCUSSION).lines()[2]) | {"number": "7"}
        desk = self.with_third_line(json.dumps(third).encode() + b"\n")
        message = f"line 3 of {desk.journal} has a form that this tool does not know"
        for words, ran in ("act", desk.act("close", "1")), ("list", desk.tool("list")):
            with self.subTest(words=words):
                reports(words, ran, 3, message)

    def test_a_desk_is_no_journal(self):
        desk = self.made(DISCUSSION)
        desk.file.chmod(0o600)
        ran = desk.run("act", "--desk", desk.file, "--journal", desk.file, "close", "1")
        reports("a desk as its journal", ran, 3, "line 1")

    def test_a_journal_that_others_may_read_is_refused(self):
        desk = self.made(DISCUSSION)
        desk.journal.chmod(0o640)
        reports("a journal that others read", desk.tool("list"), 1, "chmod 600")

    def test_an_act_that_the_journal_cannot_take_is_not_sent_and_its_place_is_taken_by_the_next(self):
        desk = self.made(DISCUSSION)
        # A file of the desk may be longer than the journal, so this has a refused act besides, many times over.
        amend = ["amend", "1", "choice=1", "minor=0", "summary=Crimson", f"text={'x' * 20_001}"]
        reports("a text that is too long", desk.act("--at", T0 + 3 * DAY, *amend), 1, "refused 4 BadText")
        pair = [json.loads(line) for line in desk.lines()[-2:]]
        with open(desk.journal, "a") as file:
            for number in range(7, 7 + MOST_OF_A_DESK // 20_000):
                file.writelines(f"{json.dumps(line | {'number': str(number)})}\n" for line in pair)
        held, limit = desk.rows(), desk.journal.stat().st_size + 100
        vary = ["--at", T0 + 3 * DAY, "vary", "1", "days=1"]
        ran = subprocess.run(
            [TOP / "tools" / "gr-desk", "act", "--desk", desk.file, "--journal", desk.journal, *map(str, vary)],
            capture_output=True,
            timeout=PATIENCE,
            check=False,
            preexec_fn=lambda: resource.setrlimit(resource.RLIMIT_FSIZE, (limit, limit)),
        )
        message = f"nothing was sent: {desk.journal} cannot be written: File too large"
        reports("a journal that is full", Ran(ran.returncode, ran.stdout, ran.stderr), 3, message)
        self.assertEqual(desk.rows(), held, "the rows after it")
        reports("the next act", desk.act(*vary), 0, "ok 6", "was cut off by a stop")
        reports("the check after it", desk.tool("check"), 0, "ok")
