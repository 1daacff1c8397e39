"""What is read of a desk in a file: all of it from one copy, which stays as it is, also if its log has acts that the
file lacks. The program runs once for each sheet, and none says first whether the desk opens."""
import hashlib
import sys
from unittest import mock

from tests.support.case import Case
from tests.support.in_process import said, stopped
from tests.support.program import T0, TOP, bytes_of, make_desk, serve

sys.path.insert(0, str(TOP / "tools"))
from grdesk.desk import sheet  # noqa: E402
from grdesk.desk.row import Header  # noqa: E402
from grdesk.error import Failed  # noqa: E402

ROLL = "Developers: 0\nCurrent: 0\n"
REFUSED = "refused 9 NoResolution"


class StandIn(Case):
    """In the place of the program stands one that keeps its words, and says what a test wants."""

    def setUp(self):
        self.work = self.folder()
        self.program, self.words = self.work / "gr_desk", self.work / "words"
        self.enter(mock.patch.object(sheet, "program", lambda: self.program))
        self.sheets = sheet.FileSheets("copy", "desk.db")

    def answers(self, out="", err="", status=0):
        lines = ["#!/bin/sh", f"echo \"$@\" >>'{self.words}'", f"printf '%b' '{out}'", f"printf '%b' '{err}' >&2"]
        self.program.write_text("\n".join([*lines, f"exit {status}", ""]))
        self.program.chmod(0o755)

    def ran(self):
        return self.words.read_text().splitlines()

    def test_the_program_runs_once_for_a_sheet_that_is_asked_for_twice(self):
        self.answers(out=ROLL.replace("\n", "\\n"))
        self.assertEqual([self.sheets.sheet("roll"), self.sheets.sheet("roll")], [ROLL, ROLL])
        self.sheets.sheet("status", 1)
        self.assertEqual(self.ran(), ["roll copy", "status copy 1"])

    def test_it_runs_once_for_a_sheet_that_is_refused_twice(self):
        self.answers(err=f"{REFUSED}\\n", status=1)
        for _ in range(2):
            self.assertEqual(stopped(sheet.NotGiven, self.sheets.sheet, "status", 1), REFUSED)
        self.assertEqual(self.ran(), ["status copy 1"])

    def test_a_desk_that_does_not_open_is_named_by_the_first_sheet_after_what_the_program_says(self):
        self.answers(err="fault F3 Closed\\n", status=3)
        with said() as message:
            self.assertEqual(stopped(Failed, self.sheets.sheet, "status", 1), "desk.db does not open")
            self.assertEqual((message.lines(), self.ran()), (["fault F3 Closed"], ["status copy 1"]))

    def test_a_fault_after_a_sheet_is_none_of_opening(self):
        self.answers(out=ROLL.replace("\n", "\\n"))
        self.sheets.sheet("roll")
        self.answers(err="fault F1 Memory\\n", status=3)
        with said() as message:
            why = stopped(Failed, self.sheets.sheet, "status", 1)
            self.assertEqual(message.lines(), ["fault F1 Memory"])
        self.assertEqual(why, "the desk gave no sheet, and said what is above")

    def test_a_program_that_cannot_be_run_is_named(self):
        self.program.write_text("")
        self.assertEqual(stopped(Failed, self.sheets.sheet, "roll"), f"{self.program} cannot be run: Permission denied")


def digests_of(file):
    """Those of the file and of its log."""
    return [hashlib.sha256(bytes_of(f"{file}{end}") or b"").hexdigest() for end in ("", "-wal")]


class ReadOnly(Case):
    def test_rows_and_header_are_read_with_the_acts_of_the_log_and_leave_file_and_log_as_they_are(self):
        work = self.folder()
        for name in "a desk", "a %41 desk?mode=rw#x":
            with self.subTest(name=name):
                file = work / name
                make_desk(file)
                with serve(file, 9, "--at", T0) as desk:
                    for number in 1, 2:
                        desk.accepts("/developers", f"login=d{number}&name=A&status=current", f"ok {number}")
                    desk.kill()
                before = digests_of(file)
                sheets = sheet.FileSheets(str(file), "desk.db")
                self.assertEqual(sheets.header(), Header(2, T0))
                self.assertEqual(sorted(sheets.rows()["developer"]), [(b"d1",), (b"d2",)])
                self.assertEqual(digests_of(file), before, "the file and its log")
                self.assertEqual(sheets.sheet("roll").splitlines()[0], "Developers: 2")
