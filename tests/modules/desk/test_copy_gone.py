"""What tools say of a file that the program does not find, as where somebody removed a private copy meanwhile: which
one it is. The program itself prints `no file` alone."""
import os
import sys
from unittest import mock

from tests.support.case import Case
from tests.support.program import TOP

sys.path.insert(0, str(TOP / "tools"))
from grdesk.desk import copy as copies, sheet  # noqa: E402
from grdesk.error import Failed  # noqa: E402


class NoFile(Case):
    def setUp(self):
        """In the place of the program stands one that finds no file."""
        self.work = self.folder()
        self.program = self.work / "gr_desk"
        self.program.write_text("#!/bin/sh\necho 'no file' >&2\nexit 3\n")
        self.program.chmod(0o755)
        self.said = []
        for module in copies, sheet:
            self.enter(mock.patch.object(module, "program", lambda: self.program))
            self.enter(mock.patch.object(module, "hand_on", self.said.append))
        self.enter(mock.patch.object(copies, "note", self.said.append))

    def test_a_copy_that_is_gone_before_it_is_opened_is_named(self):
        copy = str(self.work / "desk")
        with self.assertRaises(Failed) as raised:
            copies.check_opens(copy, "desk.db does not open")
        self.assertEqual((str(raised.exception), self.said), ("desk.db does not open", [f"no file: {copy}"]))

    def test_a_copy_that_is_gone_before_its_sheets_are_read_is_named_with_its_desk(self):
        copy = str(self.work / "desk")
        with self.assertRaises(Failed) as raised:
            sheet.FileSheets(copy, "desk.db").sheet("roll")
        message = f"no file: {copy}, the private copy of desk.db, was removed"
        self.assertEqual((str(raised.exception), self.said), (message, []))

    def test_what_else_the_program_says_is_handed_on(self):
        self.program.write_text("#!/bin/sh\necho 'fault F2 Store' >&2\nexit 3\n")
        with self.assertRaises(Failed):
            copies.check_opens(os.devnull, "it does not open")
        self.assertEqual(self.said, [b"fault F2 Store\n"])
