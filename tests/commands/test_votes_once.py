"""What gr-desk votes does once, however many ballots there are. It looks at the desk by one copy and keeps another one,
and the program runs once for each sheet, once for the copy that is kept, and once for each ballot. It parses each mail
once, hashes it once, and renders each answer once. If the desk has got acts since the table was made, nothing is left
of the run; if it only has other bytes, the ballots are entered."""
import hashlib
import os
import subprocess
import sys
import tempfile
from collections import Counter
from contextlib import ExitStack
from unittest import mock

from tests.commands.voting_folder import HOUR, VotingFolder
from tests.support.called import CALLED, Called
from tests.support.case import Case
from tests.support.in_process import loaded, said, stopped, under_umask
from tests.support.journaled import environment_of
from tests.support.mailed import HOST, Folder, answers_in, mail_of
from tests.support.program import TOP

sys.path.insert(0, str(TOP / "tools"))
from grdesk import mail_head  # noqa: E402
from grdesk.ballots import answer  # noqa: E402
from grdesk.desk import copy  # noqa: E402
from grdesk.error import Refused  # noqa: E402

LOGINS = "d1", "d2", "d3", "d4"


class Counted:
    """Calls of a function, by something of their words."""

    def __init__(self, function, mark):
        self.function, self.mark = function, mark
        self.marks = []

    def __call__(self, *words, **more):
        self.marks.append(self.mark(*words))
        return self.function(*words, **more)


class Ran:
    """A run of gr-desk votes in this process: its status, which files it copied and to where, the first words of the
    program at each of its runs, how often each text was parsed and hashed, and whose answers were rendered. At a
    terminal `at_question` is called in the place of the question."""

    def __init__(self, vote, at_question=None):
        votes = loaded("votes")
        words = votes.parser().read(["--journal", str(vote.journal), *map(str, vote.words), str(vote.desk.file), "1",
                                     str(vote.came.place)])
        copies = Counted(copy.copy_bytes, lambda source, target: (os.fspath(source), os.fspath(target)))
        programs = Counted(subprocess.Popen.__init__, lambda _, line, *more: line[1])
        heads = Counted(mail_head.Head.__init__, lambda _, content, *more: content)
        hashes = Counted(hashlib.sha256, lambda content=b"": bytes(content))
        texts = Counted(answer.counted_text, lambda ballot, form: ballot.login)
        mails = Counted(answer.mail_of, lambda *words: words[0])
        with ExitStack() as stack:
            for place, name, counted in ((copy, "copy_bytes", copies), (hashlib, "sha256", hashes),
                                         (answer, "counted_text", texts), (answer, "mail_of", mails)):
                stack.enter_context(mock.patch.object(place, name, counted))
            for kind, counted in (subprocess.Popen, programs), (mail_head.Head, heads):
                stack.enter_context(mock.patch.object(kind, "__init__", lambda self, *words, counted=counted, **more:
                                                      counted(self, *words, **more)))
            stack.enter_context(mock.patch.dict(os.environ, environment_of({}), clear=True))
            stack.enter_context(mock.patch.object(votes, "is_at_terminal", lambda: at_question is not None))
            stack.enter_context(mock.patch.object(votes, "confirm", lambda *_: at_question()))
            stack.enter_context(under_umask(0o077))
            out = stack.enter_context(tempfile.TemporaryFile("w+"))
            stack.enter_context(mock.patch.object(sys, "stdout", out))
            self.said = stack.enter_context(said())
            self.status = votes.run(words)
        self.copies, self.programs = copies.marks, programs.marks
        self.heads, self.hashes = Counter(heads.marks), Counter(hashes.marks)
        self.texts, self.mails = texts.marks, mails.marks

    def copies_of(self, file):
        """How often a file was copied, or a copy of it."""
        copied = [str(file)]
        for source, target in self.copies:
            if source in copied:
                copied.append(target)
        return len(copied) - 1


class Once(Case):
    @classmethod
    def setUpClass(cls):
        cls.work = cls.shared_folder()
        desk = Called.made(cls.work, len(LOGINS))
        came = Folder(cls.work / "came", desk)
        came.text("d1", came.filled("123", "tokenA01"), CALLED + HOUR)
        came.mail("d2", mail_of(came.filled("213"), 2, CALLED + HOUR), CALLED + HOUR)
        two = mail_of(came.filled("321"), 3, CALLED + HOUR), mail_of(came.filled("12-"), 4, CALLED + 2 * HOUR)
        came.mbox("d3", *two, at=CALLED + 3 * HOUR)
        came.text("d4", came.form, CALLED + HOUR)
        cls.made = VotingFolder(desk, came, "--received-by", HOST)

    def setUp(self):
        self.vote = self.made.copied(self.folder())

    def contents(self):
        """The bytes of each mail that came, without the separators of an mbox."""
        place = self.vote.came.place
        box = (place / "d3.mbox").read_bytes().split(b"From MAILER-DAEMON")[1:]
        return [*((place / name).read_bytes() for name in ("d1.txt", "d2.eml", "d4.txt")),
                *(each.split(b"\n", 1)[1][:-1] for each in box)]

    def test_the_desk_is_copied_twice_and_loaded_once_for_each_sheet_each_kept_copy_and_each_ballot(self):
        ran = Ran(self.vote)
        self.assertEqual(ran.copies_of(self.vote.desk.file), 2)
        self.assertEqual(ran.programs, ["status", "roll", "roll", "once", "once", "once"])
        self.assertEqual({login: row[0] for login, row in self.vote.ballots().items()},
                         {"d1": "123", "d2": "213", "d3": "12-"})

    def test_a_run_with_nothing_to_send_copies_the_desk_once_and_loads_it_once_for_each_sheet(self):
        Ran(self.vote)
        ran = Ran(self.vote)
        self.assertEqual(ran.copies_of(self.vote.desk.file), 1)
        self.assertEqual(ran.programs, ["status", "roll"])

    def test_each_mail_is_parsed_once_and_hashed_once(self):
        ran = Ran(self.vote)
        contents = self.contents()
        self.assertEqual(len(contents), 5)
        for content in contents:
            with self.subTest(begins=content[:60]):
                self.assertEqual((ran.heads[content], ran.hashes[content]), (1, 1))

    def test_each_answer_is_rendered_once_and_a_mail_is_made_only_if_it_is_written(self):
        ran = Ran(self.vote)
        self.assertEqual((sorted(ran.texts), len(ran.mails)), (["d1", "d2", "d3"], len(LOGINS)))
        self.assertEqual(sorted(answers_in(self.vote.outbox)), sorted(LOGINS))
        again = Ran(self.vote)
        self.assertEqual((sorted(again.texts), again.mails), (["d1", "d2", "d3"], []))

    def test_an_act_while_the_question_waits_leaves_no_copy_no_mail_and_no_line_of_the_journal(self):
        def act():
            self.vote.desk.enter(CALLED + HOUR, ("/developers", "login=d9&name=Nine&status=current", ""))

        message = stopped(Refused, lambda: Ran(self.vote, act))
        self.assertIn("got acts after the table was made. Nothing is lost: run this again", message)
        self.assertEqual(list(self.vote.work.glob("called.db-before-votes-*")), [])
        self.assertEqual((self.vote.journal.read_bytes(), answers_in(self.vote.outbox)), (b"", {}))

    def test_a_desk_that_was_written_while_the_question_waits_and_got_no_act_is_the_same(self):
        file = self.vote.desk.file
        ran = Ran(self.vote, lambda: file.write_bytes(other_bytes(file)))
        self.assertEqual((ran.status, len(self.vote.ballots())), (1, 3))


def other_bytes(file):
    """The same rows in other bytes: with the count of changes in the head of the file, and its twin, one higher."""
    content = bytearray(file.read_bytes())
    for place in 24, 92:
        count = int.from_bytes(content[place : place + 4], "big")
        content[place : place + 4] = (count + 1).to_bytes(4, "big")
    return content
