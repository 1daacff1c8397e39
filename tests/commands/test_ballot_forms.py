"""What gr-desk ballot writes and reads: the form and the call for votes of a resolution, line by line, and what is read
of forms that were filled in. docs/formats.md ("Ballots in mails") has a row for each thing that may be in a mail, with
the line that is printed of it; each row is tried here, by mails that are made as mail programs make them."""
import mailbox
import os
import re
from email.message import EmailMessage
from functools import cache

from tests.support.ballot_cases import CASES, EMPTY, FILLED, form, identifier
from tests.support.called import CALLED, LONG, Called
from tests.support.case import Case
from tests.support.program import NO_ADDRESS, TOP, Ran, expect, serve, tool

NO_RESOLUTION = "there is no resolution with this number; they are numbered from 1 on, as they were proposed"
UNDER_DISCUSSION = "resolution 2 is under discussion, and has no ballot before it is called"
MORE = "; gr-desk ballot --help says more"
# What the call has, whatever the blanks between its words.
IN_THE_CALL = (
    "Choice 1: Red Proposed by The Name of 1 (d1), and sponsored by The Name of 2 (d2).",
    "It needs a majority of 3:1. | The desk is red.",
    "| The desk is red. | | > With a quote.",
    f"Choice 2: {LONG} Proposed by the leader. It needs a simple majority. | Long it is.",
    "Choice 3: None of the above The default option",
    "At the call 4 developers were current, so that Q is 1.00 and the quorum 3Q is 3.00",
    "An option needs 3 votes above",
    "than the other way round, and at least its ratio times as many (A.5.3).",
    "printf '1\\nLOGIN\\nTOKEN\\n' | sha256sum",
    "beside which your ranks stand in the tally; there a stands for 10, b for 11, and so on up to z for 35.",
)
PARAGRAPHS = "A.5.2", "A.5.3", "A.5.4", "A.5.5", "A.5.6", "A.5.7", "A.5.8", "4.2.4", "4.2.7"


def rows_of_page():
    """The rows of the table in docs/formats.md, with the line of each."""
    text = (TOP / "docs" / "formats.md").read_text()
    section = text.split("\n## Ballots in mails\n")[1].split("\n## ")[0]
    return dict(re.findall(r"^\| (.+?) \| `(.+)` \|$", section, re.M))


@cache
def written(command, file):
    """What a command of the tool writes of resolution 1."""
    ran = tool("ballot", command, file, 1)
    expect(command, ran[::2], (0, b""))
    return ran.out.decode()


def put_mails(box, place):
    """Puts two mails into an mbox or a Maildir."""
    for each in FILLED, form("   ", " 1 ", "   "):
        message = EmailMessage()
        message["From"], message["Message-ID"] = "voter@example.org", f"<{len(box)}@example.org>"
        message.set_content(f"From me to you:\n\n{each}")
        name = box.add(message)
        if isinstance(box, mailbox.Maildir):
            # Of two of one second nothing says which came first.
            os.utime(place / "new" / name, (CALLED + len(box), CALLED + len(box)))
    box.flush()
    box.close()


class BallotForms(Case):
    @classmethod
    def setUpClass(cls):
        cls.desk = Called.made(cls.shared_folder())

    @property
    def form(self):
        return written("form", self.desk.file)

    @property
    def call(self):
        return written("call", self.desk.file)

    def test_the_form_has_its_title_its_end_and_all_boxes_empty(self):
        self.assertTrue(self.form.startswith("Resolution 1: Red\n"), self.form)
        self.assertTrue(self.form.endswith(EMPTY), self.form)
        self.assertIn("until 2026-01-22T00:00:00Z", self.form)

    def test_no_line_of_the_form_but_its_identifier_and_its_choices_is_long(self):
        lines = [line for line in self.form.split("\n") if len(line) > 72 and "Choice" not in line]
        self.assertEqual(lines, [f"Identifier: {identifier()}"])

    def test_no_line_of_the_form_begins_with_a_hyphen(self):
        self.assertEqual([line for line in self.form.split("\n") if line.startswith("-")], [])

    def test_the_form_and_the_call_are_the_same_by_a_port(self):
        with serve(self.desk.file, 3) as served:
            for command, text in ("form", self.form), ("call", self.call):
                with self.subTest(command=command):
                    ran = tool("ballot", command, "--port", served.port, 1)
                    self.assertEqual(ran, Ran(0, text.encode(), b""))
            # Three connections are all that the two take.
            self.assertEqual(served.ended(), Ran(0, b"", b""))

    def test_the_call_ends_with_the_form(self):
        self.assertTrue(self.call.endswith(f"\nHow you vote:\n\n{self.form}"), self.call)

    def test_the_call_has_the_options_with_their_people_the_quorum_and_the_receipt(self):
        flat = " ".join(self.call.split())
        for text in IN_THE_CALL:
            with self.subTest(text=text):
                self.assertIn(text, flat)

    def test_the_call_names_the_paragraphs_of_the_constitution(self):
        for paragraph in PARAGRAPHS:
            with self.subTest(paragraph=paragraph):
                self.assertIn(paragraph, self.call)

    def read(self, *paths, status):
        """The lines that are printed of these files, each of which has a line on error output too."""
        ran = tool("ballot", "read", self.desk.file, 1, *paths)
        lines = ran.out.decode().split("\n")[:-1]
        self.assertEqual((ran.status, ran.err.decode().count("\n")), (status, len(lines)))
        return lines

    def test_the_page_has_a_row_for_each_case_and_no_other(self):
        self.assertEqual(sorted(rows_of_page()), sorted(CASES))

    def test_a_mail_is_read_as_its_row_of_the_page_says(self):
        place, rows = self.folder(), rows_of_page()
        mails = [(row, content) for row, contents in CASES.items() for content in contents]
        paths = [place / f"{number}.eml" for number in range(len(mails))]
        for path, (_, content) in zip(paths, mails):
            path.write_bytes(content if isinstance(content, bytes) else content.encode())
        lines = self.read(*paths, status=1)
        self.assertEqual(len(lines), len(mails))
        for line, path, (row, _) in zip(lines, paths, mails):
            with self.subTest(row=row, mail=path.name):
                self.assertEqual(line, rows.get(row))

    def test_each_mail_of_an_mbox_and_of_a_maildir_is_read_in_the_order_of_arrival(self):
        place = self.folder()
        box, maildir = place / "some.mbox", place / "maildir"
        put_mails(mailbox.mbox(box), box)
        put_mails(mailbox.Maildir(maildir), maildir)
        self.assertEqual(self.read(box, maildir, status=0), ["ok 21-", "ok -1-", "ok 21-", "ok -1-"])

    def test_wrong_words_and_resolutions_without_a_ballot_are_reported(self):
        place, file = self.folder(), self.desk.file
        (place / "empty").mkdir()
        mailbox.Maildir(place / "no_mail")
        lines = [
            ([], 2, "there is no command ''; the commands are form, call, read"),
            (["vote", file, 1], 2, "there is no command 'vote'; the commands are form, call, read"),
            (["form", file], 2, f"the number of a resolution is missing{MORE}"),
            (["form", file, 1, "x"], 2, f"form has a word too many: 'x'{MORE}"),
            (["read", file, 1], 2, f"read needs the name of a FILE after R{MORE}"),
            (["form", file, "x"], 2, "R is the number of a resolution, and not 'x'"),
            (["form", 1], 2, NO_ADDRESS),
            (["form", file, 2], 1, UNDER_DISCUSSION),
            (["call", file, 2], 1, UNDER_DISCUSSION),
            (["read", file, 2, "x"], 1, UNDER_DISCUSSION),
            (["form", file, 3], 1, f"refused 9 NoResolution: {NO_RESOLUTION}"),
            (["read", file, 1, place / "no_mail"], 1, "there is no mail in it"),
            (["read", file, 1, place / "none"], 3, f"{place}/none cannot be read: No such file or directory"),
            (["read", file, 1, place / "empty"], 3, f"{place}/empty is no Maildir: it has no folder new"),
        ]
        for words, status, text in lines:
            with self.subTest(words=words):
                self.assertEqual(tool("ballot", *words), Ran(status, b"", f"gr-desk ballot: {text}\n".encode()))

    def test_its_help_has_its_words(self):
        ran = tool("ballot", "--help")
        self.assertEqual((ran.status, ran.err), (0, b""))
        self.assertIn(b"    gr-desk ballot read DESK R FILE ..\n", ran.out)
