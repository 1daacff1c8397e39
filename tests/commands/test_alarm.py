"""What gr-desk alarm reports of a unit that failed, in a line and by mail."""
import os
import shutil
import socket
from unittest import mock

from tests.commands.timed import few_programs, write_program
from tests.support.case import Case
from tests.support.in_process import loaded
from tests.support.program import Ran, tool


class Alarm(Case):
    """A unit that failed is named by a line, and a program of mail gets the same, where there is one."""

    unit = "gr_desk-copy-out.service"
    lines = [f"{unit} failed", f"journalctl -u {unit} says why"]
    said = f"gr-desk alarm: {'; '.join(lines)}\n"
    body = "".join(f"{line}\n" for line in lines)
    subject = f"{unit} failed on {socket.gethostname()}"

    def setUp(self):
        self.work = self.folder()
        self.place = few_programs(self.work)
        self.mail = f'printf "%s\\n" "$@" >{self.work}/words\ncat >{self.work}/mail'

    def reports(self, status, text):
        ran = tool("alarm", self.unit, env=os.environ | {"PATH": str(self.place)})
        self.assertEqual(ran, Ran(status, b"", text.encode()))

    def test_mail_gets_the_lines_with_a_subject(self):
        write_program(self.place, "mail", self.mail)
        self.reports(0, self.said)
        self.assertEqual((self.work / "words").read_text(), f"-s\n{self.subject}\nroot\n")
        self.assertEqual((self.work / "mail").read_text(), self.body)

    def test_sendmail_gets_a_whole_mail_also_where_there_is_mail(self):
        write_program(self.place, "mail", "exit 75")
        write_program(self.place, "sendmail", self.mail)
        self.reports(0, self.said)
        self.assertEqual((self.work / "words").read_text(), "-i\nroot\n")
        head, _, mailed = (self.work / "mail").read_text().partition("\n\n")
        self.assertLessEqual({"To: root", f"Subject: {self.subject}"}, {*head.split("\n")})
        self.assertEqual(mailed, self.body)

    def test_a_mail_that_is_not_sent_is_reported_with_the_status_of_the_program(self):
        write_program(self.place, "sendmail", "exit 75")
        why = f"gr-desk alarm: the mail to root was not sent: {self.place}/sendmail ended with status 75\n"
        self.reports(3, self.said + why)

    def test_a_name_that_no_unit_has_is_refused_and_mailed_to_nobody(self):
        write_program(self.place, "sendmail", self.mail)
        for name in "", "a\nTo: all", "a b", "a/b", "\u00e9", "x" * 256:
            with self.subTest(name=name):
                ran = tool("alarm", "--", name, env=os.environ | {"PATH": str(self.place)})
                self.assertEqual(ran, Ran(2, b"", f"gr-desk alarm: {name!r} is no name of a unit\n".encode()))
        self.assertFalse((self.work / "mail").exists())

    def test_a_program_of_mail_that_hangs_is_ended_and_reported(self):
        write_program(self.place, "sendmail", f"echo $$ >{self.work}/number\nexec sleep 20")
        (self.place / "sleep").symlink_to(shutil.which("sleep"))
        alarm = loaded("alarm")
        with mock.patch.multiple(alarm, PATIENCE=0.5, PLACES=str(self.place)):
            with self.assertRaises(alarm.Failed) as failed:
                alarm.send(alarm.mail_of(self.unit, self.lines))
        why = f"the mail to root was not sent: {self.place}/sendmail did not end within 0.5 seconds"
        self.assertEqual(str(failed.exception), why)
        with self.assertRaises(ProcessLookupError):
            os.kill(int((self.work / "number").read_text()), 0)

    def test_a_program_of_mail_has_a_minute(self):
        self.assertEqual(loaded("alarm").PATIENCE, 60)
