"""The commands of gr-desk ballot by a desk whose sheets are written out here: what each prints, and how it ends if some
of the mails are refused, or all, or none. test_ballot_forms has what a mail may look like."""
import os
from contextlib import contextmanager
from unittest import mock

from tests.support.ballot_cases import EMPTY, FILLED, LONG, form
from tests.support.case import Case
from tests.support.in_process import loaded, said, stopped
from grdesk.error import Refused, Wrong

STATUS = f"""\
Resolution 1
Stage: Voting
Discussion: 2026-01-01T00:00:00Z to 2026-01-15T00:00:00Z
Voting: 2026-01-15T00:00:00Z to 2026-01-22T00:00:00Z
Developers: 4
Choice 1: Lapsed
Ratio: 1
Proposer: leader
Sponsors: 0
Introduced: 2026-01-01T00:00:00Z
Short since: 2026-01-02T00:00:00Z
Place: none
| x
Choice 2: Red
Ratio: 3
Proposer: developer d1
Sponsors: 1 d2
Introduced: 2026-01-01T00:00:00Z
Short since: no
Place: 1
| The desk is red.
Choice 3: {LONG}
Ratio: 1
Proposer: committee
Sponsors: 0
Introduced: 2026-01-02T00:00:00Z
Short since: no
Place: 2
| Long it is.
"""
ROLL = "Developers: 2\nCurrent: 2\nD: d1 current One\nD: d2 current Two\n"
NO_BALLOT = "refused all boxes are empty; a - in each box makes an empty ballot"
ballot = loaded("ballot")


class Desk:
    """A desk on which resolution 1 alone was called."""

    def rows(self):
        return {"resolution": {(1,): {"called": 1_768_435_200}, (2,): {"called": 0}}}

    def sheet(self, kind, *_):
        return {"status": STATUS, "roll": ROLL}[kind]


class Commands(Case):
    def run_of(self, *words):
        """How a run ends, the lines that it prints, and those on error output."""

        @contextmanager
        def sheets(_):
            yield Desk()

        printed = []
        patches = mock.patch.multiple(ballot, sheets_of=sheets, say=lambda text: printed.append(text.decode()))
        with mock.patch.dict(os.environ), patches, said() as text:
            for name in "GR_DESK_PORT", "GR_DESK_SOCKET":
                os.environ.pop(name, None)
            status = ballot.run(ballot.parser().read([str(word) for word in words]))
            notes = [line.partition("gr-desk: ")[2] for line in text.lines()]
        return status, "".join(printed).split("\n")[:-1], notes

    def mails(self, *texts):
        place = self.folder()
        paths = [place / f"{number}.txt" for number in range(1, len(texts) + 1)]
        for path, text in zip(paths, texts):
            path.write_text(text)
        return paths


class Read(Commands):
    def test_a_mail_that_is_taken_has_its_ranks_and_the_status_is_0(self):
        self.assertEqual(self.run_of("read", "desk.db", 1, *self.mails(FILLED)), (0, ["ok 21-"], []))

    def test_a_mail_that_is_refused_has_its_reason_and_is_named_and_the_status_is_1(self):
        [path] = self.mails(EMPTY)
        self.assertEqual(self.run_of("read", "desk.db", 1, path), (1, [NO_BALLOT], [f"{path}: refused"]))

    def test_of_several_mails_one_that_is_refused_is_enough_for_status_1_wherever_it_stands(self):
        other = form(" 3 ", " 1 ", " 2 ")
        for texts, lines in (([EMPTY, FILLED, other], [NO_BALLOT, "ok 21-", "ok 312"]),
                             ([FILLED, EMPTY, other], ["ok 21-", NO_BALLOT, "ok 312"]),
                             ([FILLED, other, EMPTY], ["ok 21-", "ok 312", NO_BALLOT])):
            with self.subTest(lines=lines):
                paths = self.mails(*texts)
                status, found, notes = self.run_of("read", "desk.db", 1, *paths)
                self.assertEqual((status, found), (1, lines))
                self.assertEqual(notes, [f"{path}: {line.split()[0]}" for path, line in zip(paths, lines)])

    def test_several_mails_that_are_taken_end_by_status_0(self):
        paths = self.mails(FILLED, FILLED)
        notes = [f"{path}: ok" for path in paths]
        self.assertEqual(self.run_of("read", "desk.db", 1, *paths), (0, ["ok 21-"] * 2, notes))

    def test_a_token_is_looked_at_and_not_printed(self):
        status, lines, notes = self.run_of("read", "desk.db", 1, *self.mails(form("1", "2", "3", token="tokenA01")))
        self.assertEqual((status, lines, notes), (0, ["ok 123"], []))
        status, lines, _ = self.run_of("read", "desk.db", 1, *self.mails(form("1", "2", "3", token="tokenA0")))
        self.assertEqual(status, 1)
        self.assertTrue(lines[0].startswith("refused a token has 8 to 64 characters"), lines)


class Written(Commands):
    def test_the_form_has_the_choices_with_places_by_these(self):
        status, lines, notes = self.run_of("form", "desk.db", 1)
        self.assertEqual((status, notes), (0, []))
        self.assertEqual([line for line in lines if line.startswith("[   ]")],
                         ["[   ] Choice 1: Red", f"[   ] Choice 2: {LONG}", "[   ] Choice 3: None of the above"])
        self.assertEqual("\n".join([*lines[-7:], ""]), EMPTY)

    def test_the_call_has_each_choice_with_its_people_and_its_majority(self):
        flat = " ".join(" ".join(self.run_of("call", "desk.db", 1)[1]).split())
        for text in ("Choice 1: Red Proposed by One (d1), and sponsored by Two (d2). It needs a majority of 3:1.",
                     f"Choice 2: {LONG} Proposed by the committee. It needs a simple majority.",
                     "Choice 3: None of the above The default option (Constitution, 4.2.4)."):
            with self.subTest(text=text):
                self.assertIn(text, flat)
        self.assertNotIn("Lapsed", flat)


class Words(Commands):
    def test_words_that_are_wrong_are_named(self):
        for words, message in (
            (["vote", "desk.db", "1"], "there is no command 'vote'; the commands are form, call, read"),
            (["form", "desk.db", "1", "x"], "form has a word too many: 'x'; gr-desk ballot --help says more"),
            (["call", "desk.db", "1", "x"], "call has a word too many: 'x'; gr-desk ballot --help says more"),
            (["read", "desk.db", "1"], "read needs the name of a FILE after R; gr-desk ballot --help says more"),
            (["form", "desk.db", "01"], "R is the number of a resolution, and not '01'"),
        ):
            with self.subTest(words=words):
                self.assertEqual(stopped(Wrong, self.run_of, *words), message)

    def test_a_file_with_no_mail_is_refused(self):
        box = self.folder() / "box"
        for name in "new", "cur", "tmp":
            (box / name).mkdir(parents=True)
        self.assertEqual(stopped(Refused, self.run_of, "read", "desk.db", 1, box), "there is no mail in it")
