"""Runs lines whose words are wrong, or at their limits, and the lines that print help and the version. The texts of the
library that reads the words are not compared whole."""
import re
import subprocess

from tests.program.good_desk import ALICE, NO_FILE, ROLL_FILE, SUBCOMMANDS
from tests.support.case import Case
from tests.support.program import LOCAL, TOP, Ran, free_port, request, response, run, started

WRONG = """
frob
--frob
new.db
help
help init
-V
--versions
--version=1
init --version
roll new.db --version
--at 5
init
init new.db more
init new.db --at 5
init --frob new.db
init --sums
init --sums=1 new.db
init --sums --sums new.db
once
once new.db more
once new.db --at
once new.db --at x
once new.db --at -1
once new.db --at 1.5
once new.db --at 10000000000
once new.db --at 99999999999999999999
once new.db --at 5 --at 5
once new.db --port 80
serve
serve new.db
serve new.db --port 8000
serve new.db --count 1
serve new.db --port 0 --count 1
serve new.db --port 65536 --count 1
serve new.db --port x --count 1
serve new.db --port 8000 --count 0
serve new.db --port 8000 --count 1000001
serve new.db --port 8000 --count -1
serve new.db --port 8000 --port 8000 --count 1
serve new.db --port 8000 --count 1 --count 1
serve new.db --port 8000 --count 1 --at 10000000000
serve new.db more --port 8000 --count 1
serve --port 8000 --count 1
import
import new.db
import new.db roll.csv more
import new.db roll.csv --at 10000000000
roll
roll new.db more
roll new.db 1 2
roll new.db --at 5
status
status new.db
status new.db 0
status new.db 1000000000
status new.db -1
status new.db one
status new.db 1 1
tally
tally new.db
tally new.db 0
tally new.db 1000000000
result
result new.db
result new.db 0
result new.db 1000000000
migrate
migrate new.db more
Init new.db
"""

NO_RESOLUTION = Ran(1, b"", b"refused 9 NoResolution\n")
BAD_MOMENT = Ran(1, response(409, "refused 1 BadMoment\n"), b"")
ADDED = Ran(0, response(200, "ok 1\n"), b"")

# Words at their limits, and in their other forms, with what comes of them. Standard input has a request.
AT_LIMITS = [
    ("status :memory: 1", NO_RESOLUTION),
    ("status :memory: 999999999", NO_RESOLUTION),
    ("status :memory: +7", NO_RESOLUTION),
    ("status :memory: 007", NO_RESOLUTION),
    ("tally :memory: 999999999", NO_RESOLUTION),
    ("result :memory: 999999999", NO_RESOLUTION),
    ("roll :memory:", Ran(0, b"Developers: 0\nCurrent: 0\n", b"")),
    ("init :memory:", NO_FILE),
    ("migrate :memory:", NO_FILE),
    ("once :memory: --at 0", BAD_MOMENT),
    ("once --at 0 :memory:", BAD_MOMENT),
    ("once :memory: --at=9999999999", BAD_MOMENT),
    ("once :memory: --at 4102444800", BAD_MOMENT),
    ("once :memory: --at 4102444799", ADDED),
    ("once :memory: --at 1", ADDED),
    ("once :memory:", ADDED),
    ("", ADDED),
    ("import :memory: roll.csv --at 9999999999", Ran(1, b"", b"refused 1 BadMoment\n")),
    ("import :memory: roll.csv --at 0", Ran(1, b"", b"refused 1 BadMoment\n")),
    ("import :memory: roll.csv", Ran(0, b"ok 1 added 2 changed 0 same 0\n", b"")),
    ("roll -- -x", NO_FILE),
]

# What the help of the program must have: the lines of failures, each with its commonest cause first.
FAILURES = [
    "no file",
    "cannot read",
    "cannot listen",
    "lost",
    "too large",
    "bad roll K         record K of the roll file is not of its form",
    "refused N NAME",
    "refused 23 BadRoll K\n                     the desk refuses record K of the roll file",
    "fault F1 Memory",
    "fault F2 Store     the folder of FILE is not there, another process has FILE open",
    "fault F3 Closed",
    "fault F4 Damaged",
    "fault F5 TooNew",
    "fault F6 NotADesk",
    "fault F7 TooOld    an earlier program wrote the file: `gr_desk migrate FILE`",
    "fault F8 Occupied",
]

# What the help of a subcommand must have: the least and the greatest value of its numbers, the mode of a file, how long
# a connection may take, and both lines that name a record.
MOMENTS, RESOLUTIONS = "0 to 9999999999", "1 to 999999999"
LIMITS = {
    "init": ["--sums", "mode 0600", "`fault F2 Store` where the folder of FILE is not"],
    "once": [MOMENTS],
    "serve": ["1 to 65535", "1 to 1000000", MOMENTS, "within 5\nseconds", "within 5 more"],
    "import": [MOMENTS, "`bad roll K` says", "`refused 23 BadRoll K` says"],
    "status": [RESOLUTIONS],
    "tally": [RESOLUTIONS],
    "result": [RESOLUTIONS],
    "migrate": ["version 2", "`ok schema 2`", "`fault F8 Occupied`\nwhere"],
}


class Words(Case):
    def setUp(self):
        self.place = self.folder()
        (self.place / "roll.csv").write_text(ROLL_FILE)

    def is_wrong(self, words, least):
        """A line ends by status 2 with a text of at least so many bytes on error output."""
        ran = run(*words, cwd=self.place)
        self.assertEqual((ran.status, ran.out), (2, b""), ran.err)
        self.assertTrue(ran.err.endswith(b"\n"), ran.err)
        self.assertGreaterEqual(len(ran.err), least, ran.err)

    def makes_no_file(self):
        self.assertEqual([path.name for path in self.place.iterdir()], ["roll.csv"])

    def test_wrong_words_end_by_status_2_with_a_text_on_error_output_and_make_no_file(self):
        for line in WRONG.strip().splitlines():
            with self.subTest(line):
                self.is_wrong(line.split(), 30)
        self.makes_no_file()

    def test_an_empty_word_or_one_that_is_no_utf_8_ends_by_status_2_and_makes_no_file(self):
        for words in [""], ["\udcff"], ["roll", "\udcff.db"]:
            with self.subTest(words=ascii(words)):
                self.is_wrong(words, 1)
        self.makes_no_file()

    def test_words_at_their_limits_and_in_their_other_forms_are_taken_and_make_no_file(self):
        for line, expected in AT_LIMITS:
            with self.subTest(line):
                ran = run(*line.split(), given=request("POST", "/developers", ALICE), cwd=self.place)
                self.assertEqual(ran, expected)
        self.makes_no_file()

    def test_serve_takes_the_least_and_the_greatest_port_and_count(self):
        # Another process may have the port, or this user may not take it.
        for words in "--port 1 --count 1", "--port 65535 --count 1", f"--port {free_port()} --count 1000000":
            line, pipe = ["serve", ":memory:", *words.split()], subprocess.PIPE
            with self.subTest(words), started(line, stdout=pipe, stderr=pipe) as process:
                said = process.stdout.readline() or process.stderr.readline()
                self.assertIn(said, (f"listening {LOCAL}:{line[3]}\n".encode(), b"cannot listen\n"))


class Help(Case):
    def help_of(self, words, form):
        """The help of the program, or of a subcommand, by one of its forms. It is on standard output alone."""
        ran = run(*words, form)
        self.assertEqual((ran.status, ran.err), (0, b""))
        self.assertTrue(ran.out.endswith(b"\n"), ran.out)
        return ran.out.decode()

    def has(self, text, name, *more):
        """A help names its usage, what it must have, and an example."""
        usage, _, example = text.partition("Example:")
        for words in f"Usage: {name} ", "Exit statuses", *more:
            with self.subTest(words=words):
                self.assertIn(words, usage)
        self.assertIn(f"{name} ", example)

    def test_the_help_of_the_program_names_each_subcommand_and_each_failure_with_its_cause(self):
        self.has(self.help_of([], "--help"), "gr_desk", *SUBCOMMANDS, *FAILURES)

    def test_the_help_of_each_subcommand_has_the_limits_of_its_words(self):
        for name in SUBCOMMANDS:
            with self.subTest(name):
                self.has(self.help_of([name], "--help"), f"gr_desk {name}", *LIMITS.get(name, []))

    def test_the_short_form_prints_help_too(self):
        for words in [], *([name] for name in SUBCOMMANDS):
            with self.subTest(words=words):
                self.help_of(words, "-h")

    def test_the_version_is_that_of_the_program_of_its_files_and_of_the_toolchain(self):
        version = (TOP / "VERSION").read_text().strip()
        toolchain = re.search(r"rattle-kit-\w+ logic \w+", (TOP / "README.md").read_text())[0]
        text = f"gr_desk {version}\nschema 2\n{toolchain}\n".encode()
        place = self.folder()
        for words in [], ["--help"], ["init", "new.db"]:
            with self.subTest(words=words):
                self.assertEqual(run("--version", *words, cwd=place), Ran(0, text, b""))
        self.assertEqual([*place.iterdir()], [])
