"""Looks at gr-desk roll_diff. After an import of the rows that it writes the roll says what the file says: whoever is
not in it is retired, everybody else is as before, and nobody is missing any more. It does so of a file and over HTTP,
for names that a roll file has to quote, and for roll files of each form that an import takes. Words and files that are
wrong write nothing."""
import os
import pty

from tests.support.case import Case
from tests.support.in_process import loaded
from tests.support.program import LOCAL, T0, Ran, build, compile_tools, copy_desk, expect, free_port, make_desk, run
from tests.support.program import serve, tool

HEADER = "login,name,status\n"
# What a roll file has to quote, and what a terminal would take for something else.
ODD = 'Bob "B", \u202eeniaK\u200f'
ROLL = [
    ("alice", "Alice Adams", "current"),
    ("bob", ODD, "current"),
    ("carol", "Carol", "retired"),
    ("dave", "Dave", "current"),
    ("eve", "Eve\u2028O'Hara", "current"),
]
BOB = b'bob,"Bob ""B"", \xe2\x80\xaeeniaK\xe2\x80\x8f",retired\n'
# Roll files in which bob and eve have no row, as an import takes them.
WITHOUT = "alice,Alice Adams,current\ndave,Dave,retired\nfrank,Frank,current\n"
FORMS = {
    "lines": HEADER + WITHOUT,
    "CR LF": (HEADER + WITHOUT).replace("\n", "\r\n"),
    "CR": (HEADER + WITHOUT).replace("\n", "\r"),
    "a mark, empty lines and no last end": "\ufeff" + HEADER + "\n\n" + WITHOUT.rstrip(),
    "quotes": '"login",name,"status"\n"alice","A\n""lice""",current\n"dave",Dave,retired\n',
}


def diff(*words, **streams):
    return tool("roll_diff", *words, **streams)


def said(*lines):
    return "".join(f"gr-desk roll_diff: {line}\n" for line in lines).encode()


def quoted(rows):
    names = [name.replace('"', '""') for _, name, _ in rows]
    return HEADER + "".join(f'{row[0]},"{name}",{row[2]}\n' for row, name in zip(rows, names))


class RollDiffs(Case):
    """A desk with five developers, of whom a roll file has two or three."""

    @classmethod
    def setUpClass(cls):
        build()
        compile_tools()
        work = cls.shared_folder()
        cls.file, csv = work / "desk.db", work / "whole.csv"
        make_desk(cls.file)
        csv.write_text(quoted(ROLL))
        expect("import", run("import", cls.file, csv, "--at", T0), Ran(0, b"ok 1 added 5 changed 0 same 0\n", b""))

    def roll_file(self, content):
        names = self.folder() / "roll.csv"
        names.write_bytes(content.encode() if isinstance(content, str) else content)
        return names

    def expected(self, names):
        """What comes of a roll file in which bob and eve have no row."""
        message = said(
            f'bob is current and not in {names}: Bob "B", <U+202E>eniaK<U+200F>',
            f"eve is current and not in {names}: Eve<U+2028>O'Hara",
            f"2 of 4 current developers are not in {names}",
        )
        return Ran(0, HEADER.encode() + BOB + "eve,Eve\u2028O'Hara,retired\n".encode(), message)

    def test_roll_files_of_each_form_name_the_same_two(self):
        for form, text in FORMS.items():
            with self.subTest(form=form):
                names = self.roll_file(text)
                self.assertEqual(diff(self.file, names), self.expected(names))

    def test_over_http_and_of_a_desk_that_is_held_it_is_the_same(self):
        names = self.roll_file(FORMS["quotes"])
        with serve(self.file, 2, "--at", T0) as desk:
            environment = {name: value for name, value in os.environ.items() if name != "GR_DESK_SOCKET"}
            environment["GR_DESK_PORT"] = str(desk.port)
            for words, ran in [
                ("over HTTP", lambda: diff("--port", desk.port, names)),
                ("of a desk that is held", lambda: diff(self.file, names)),
                ("by the environment", lambda: diff(names, env=environment)),
            ]:
                with self.subTest(words=words):
                    self.assertEqual(ran(), self.expected(names))
            self.assertEqual(desk.ended(), Ran(0, b"", b""), "serve")

    def test_on_a_terminal_no_mark_of_direction_stands_as_such_and_no_line_end_of_a_name(self):
        ours, theirs = pty.openpty()
        try:
            self.assertEqual(diff(self.file, self.roll_file(FORMS["quotes"]), stdout=theirs).status, 0)
            shown = os.read(ours, 65_536)
        finally:
            os.close(ours)
            os.close(theirs)
        self.assertIn(b'""B"", <U+202E>eniaK<U+200F>"', shown)
        self.assertNotIn("\u202e".encode(), shown)
        self.assertIn(b"eve,Eve<U+2028>O'Hara,retired", shown)

    def test_after_an_import_of_what_is_written_nobody_is_missing(self):
        file = copy_desk(self.file, self.folder() / "desk.db")
        names, rows = self.roll_file(FORMS["lines"]), self.folder() / "retired.csv"
        rows.write_bytes(diff(file, names).out)
        message = Ran(0, b"ok 2 added 0 changed 2 same 0\n", b"")
        self.assertEqual(run("import", file, rows, "--at", T0), message, "import of the rows")
        retired = [(login, name, "retired" if login in ("bob", "eve") else status) for login, name, status in ROLL]
        lines = "".join(f"D: {login} {status} {name}\n" for login, name, status in retired)
        message = Ran(0, f"Developers: 5\nCurrent: 2\n{lines}".encode(), b"")
        self.assertEqual(run("roll", file), message, "the roll after it")
        nobody = Ran(0, HEADER.encode(), said(f"0 of 2 current developers are not in {names}"))
        self.assertEqual(diff(file, names), nobody, "nobody is missing")
        rows.write_bytes(nobody.out)
        message = Ran(0, b"ok 3 added 0 changed 0 same 0\n", b"")
        self.assertEqual(run("import", file, rows, "--at", T0), message, "import of no rows")

    def test_words_that_are_wrong_write_nothing(self):
        port, names, work = free_port(), self.roll_file(HEADER), self.folder()
        more = "; gr-desk roll_diff --help says more"
        refused = f"port {port} of {LOCAL} gave no sheet, after 0 connections: Connection refused"
        for words, status, text in [
            ([], 2, f"the following arguments are required: ROLL.csv{more}"),
            (["a", "b", "c"], 2, f"there is a word too many: 'c'{more}"),
            (["--frob", "b"], 2, f"there is no option '--frob'{more}"),
            ([self.file, work / "none.csv"], 3, f"{work}/none.csv cannot be read: No such file or directory"),
            ([self.file, work], 3, f"{work} cannot be read: Is a directory"),
            ([work / "none.db", names], 3, f"{work}/none.db is not there"),
            (["--port", port, names], 3, refused),
        ]:
            with self.subTest(words=words):
                self.assertEqual(diff(*words), Ran(status, b"", said(text)))

    def test_roll_files_that_are_wrong_write_nothing(self):
        first = "{} is no roll file: its first record must be login,name,status"
        for content, why in [
            (b"", first),
            (b"login,name\n", first),
            (b"alice,Alice,current\n", first),
            (HEADER.encode() + b"alice,Alice\n", "{} is no roll file: record 2 has 2 fields, and not 3"),
            (
                HEADER.encode() + b"alice,A,current\nbob,B,gone\n",
                "{}: the status of record 3 is neither current nor retired",
            ),
            (HEADER.encode() + b"alice,\xff,current\n", "{} is not UTF-8"),
            (HEADER.encode() + b"a" * 1_048_576, "{} has more than 1048576 bytes, which no import takes"),
        ]:
            with self.subTest(content=content[:40]):
                names = self.roll_file(content)
                self.assertEqual(diff(self.file, names), Ran(2, b"", said(why.format(names))))

    def test_help_has_the_form_of_its_words(self):
        ran = diff("--help")
        form = b"usage: gr-desk roll_diff DESK ROLL.csv > retired.csv\n"
        self.assertEqual((ran.status, form in ran.out), (0, True))


class RollFiles(Case):
    """What is read of a roll file, by the functions of the tool. An import takes 1,048,576 bytes, and not one more."""

    MOST = 1_048_576

    def setUp(self):
        self.tool = loaded("roll_diff")
        self.path = self.folder() / "roll.csv"

    def read(self, content):
        """The logins of a roll file, or why it is none."""
        self.path.write_bytes(content)
        try:
            return self.tool.logins_in(str(self.path))
        except self.tool.Wrong as why:
            return str(why)

    def test_a_file_of_the_greatest_size_that_an_import_takes_is_read_and_one_of_a_byte_more_is_not(self):
        head = HEADER.encode() + b"alice,"
        whole = head + b"A" * (self.MOST - len(head) - len(b",current\n")) + b",current\n"
        self.assertEqual(len(whole), 1_048_576)
        self.assertEqual(self.read(whole), {"alice"})
        more = whole.replace(b",current", b"A,current")
        message = f"{self.path} has more than 1048576 bytes, which no import takes"
        self.assertEqual(self.read(more), message)

    def test_logins_are_those_of_all_rows_whatever_their_status(self):
        rows = b"alice,Alice,current\nbob,Bob,retired\n"
        self.assertEqual(self.read(HEADER.encode() + rows), {"alice", "bob"})
        self.assertEqual(self.read(HEADER.encode()), set())

    def test_the_record_of_another_form_is_named_by_its_number_without_empty_lines(self):
        for rows, message in (
            (b"\nalice,Alice\n", "{} is no roll file: record 2 has 2 fields, and not 3"),
            (b"alice,A,current\n\nbob,B,current,x\n", "{} is no roll file: record 3 has 4 fields, and not 3"),
            (b"alice,A,Current\n", "{}: the status of record 2 is neither current nor retired"),
            (b"alice,A,current\nbob,B,\n", "{}: the status of record 3 is neither current nor retired"),
        ):
            with self.subTest(rows=rows):
                self.assertEqual(self.read(HEADER.encode() + rows), message.format(self.path))

    def test_rows_retire_and_quote_what_a_roll_file_has_to_quote(self):
        people = [self.tool.roll_of(f"Developers: 1\nCurrent: 1\nD: {line}\n")[0] for line in (
            "alice current Alice Adams", 'bob current Bob "B", K')]
        self.assertEqual(self.tool.rows_of(people), HEADER + 'alice,Alice Adams,retired\nbob,"Bob ""B"", K",retired\n')
