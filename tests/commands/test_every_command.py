"""How the tools read their words and options, and how they end where these are wrong, where their output cannot be
written, and where an error occurs that no tool expects. Every text is compared whole, except those of help."""
import os
import re
import subprocess
from importlib import import_module

from tests.support.case import Case
from tests.support.in_process import loaded
from tests.support.one_developer import OK, ROLL, fails, new_desk, unchanged
from tests.support.program import T0, TOP, Ran, run, serve, tool

COMMANDS = (
    "act agenda alarm backup ballot clock copy_out health install journal manual package page restore roll_diff voters "
    "votes wait"
).split()
EXAMPLES = "check_receipt", "recount", "whole_vote"

MISSING = "the following arguments are required: "
NO_JOURNAL = "no journal is given: by --journal FILE, or by the environment variable GR_DESK_JOURNAL"
NO_COMMAND = "the commands are list, replay, check, settle, due, drop"
# Words that a tool does not take, and what it reports. After that stands where its help is.
UNKNOWN_WORDS = {
    "backup": {
        "": f"{MISSING}DESK, TO",
        "a": f"{MISSING}TO",
        "a b c": "there is a word too many: 'c'",
        "--frob b": "there is no option '--frob'",
        "--verb a b": "there is no option '--verb'",
        "--verbose=x a b": "argument --verbose: ignored explicit argument 'x'",
        "--keep": "argument --keep: expected one argument",
    },
    "restore": {"a": f"{MISSING}DESK", "a b c": "there is a word too many: 'c'", "-x b": "there is no option '-x'"},
    "clock": {
        "": f"{MISSING}DESK",
        "--at 5": f"{MISSING}DESK",
        "a --at": "argument --at: expected one argument",
        "a --at 5 6": "there is a word too many: '6'",
        "a -5": "there is no option '-5'",
    },
    "install": {"": f"{MISSING}PREFIX", "a b": "there is a word too many: 'b'"},
    "manual": {"": f"{MISSING}FOLDER", "a b": "there is a word too many: 'b'"},
    "wait": {"a": "there is a word too many: 'a'", "--seconds": "argument --seconds: expected one argument"},
    "health": {"--port 5": f"{MISSING}DESK", "a --copies": "argument --copies: expected one argument"},
    "copy_out": {"a": f"{MISSING}FOLDER", "a b c": "there is a word too many: 'c'"},
    "alarm": {"": f"{MISSING}UNIT", "a b": "there is a word too many: 'b'"},
    "journal": {"list --frob": "there is no option '--frob'"},
    "journal list": {"1 2": "there is a word too many: '2'"},
    "journal replay": {"": f"{MISSING}DESK", "a --as 3": "replay has no option --as"},
    "journal check": {"a b c": "there is a word too many: 'c'"},
    "journal due": {
        "7": "there is a word too many: '7'",
        "--without 3": "due has no option --without",
        "--from b": "due has no option --from",
    },
    "journal drop": {"": f"{MISSING}N"},
    "journal settle": {"3": f"{MISSING}accepted|refused"},
}
# Options that are given twice.
TWICE = [
    ("backup", "a b --verbose --verbose", "--verbose"),
    ("backup", "--keep 2 a b --keep=3", "--keep"),
    ("backup", "--thin a --thin b", "--thin"),
    ("clock", "--at 5 a --at=5", "--at"),
    ("agenda", "--port 5 --port=6", "--port"),
    ("agenda", "--socket a --socket=b", "--socket"),
    ("wait", "--seconds 60 --seconds 5", "--seconds"),
]
# Words that are wrong together, or for a command of the tool.
WRONG_WORDS = {
    "journal": {
        "": f"there is no command ''; {NO_COMMAND}",
        "frob": f"there is no command 'frob'; {NO_COMMAND}",
        "drop x": "the number of an act is like 7, or v7 for a vote, and not 'x'",
        "replay a b --journal c": "a JOURNAL and a --journal are given: one of them says which journal",
        "check a": NO_JOURNAL,
        "list": NO_JOURNAL,
    },
    "agenda": {
        f"{option} 5 a": f"a DESK and a {option} are given: one of them says which desk"
        for option in ("--port", "--socket")
    },
}
WRONG_NUMBERS = "x", "0", "10000", "-1"

# What Python loads before a tool: a clock that fails as none does.
BROKEN_CLOCK = "import time\ndef broken():\n    raise ValueError('no\\nclock')\ntime.time = broken\n"


class Words(Case):
    def check_lines(self, rows):
        """Each of these lines ends with its text and status 2, and none of them leaves anything."""
        place = self.folder()
        with unchanged("wrong words", place):
            for name, line, why in rows:
                with self.subTest(line=f"{name} {line}"):
                    ran = tool(*name.split(), *line.split(), cwd=place)
                    self.assertEqual(ran, fails(name.split()[0], 2, why))

    def test_words_that_a_tool_does_not_take_are_reported_with_status_2(self):
        self.check_lines(
            (name, line, f"{why}; gr-desk {name} --help says more")
            for name, lines in UNKNOWN_WORDS.items()
            for line, why in lines.items()
        )

    def test_an_option_that_is_given_twice_is_reported_with_status_2(self):
        self.check_lines((name, line, f"{option} is given twice") for name, line, option in TWICE)

    def test_words_that_contradict_each_other_are_reported_with_status_2(self):
        self.check_lines((name, line, why) for name, lines in WRONG_WORDS.items() for line, why in lines.items())

    def test_a_number_of_copies_that_is_no_number_from_1_to_9999_is_reported_with_status_2(self):
        self.check_lines(
            ("backup", f"a --keep {number} b", f"K is 1 to 9999, and not {number!r}") for number in WRONG_NUMBERS
        )

    def test_a_number_of_seconds_that_is_no_number_from_1_to_9999_is_reported_with_status_2(self):
        self.check_lines(
            ("wait", f"--port 5 --seconds {number}", f"N is 1 to 9999 seconds, and not {number!r}")
            for number in WRONG_NUMBERS
        )

    def test_each_example_prints_its_help(self):
        for name in EXAMPLES:
            with self.subTest(name=name):
                ran = subprocess.run([TOP / "examples" / name, "--help"], capture_output=True, check=False)
                self.assertEqual((ran.returncode, ran.stderr), (0, b""))
                self.assertIn(name.encode(), ran.stdout)


class Helps(Case):
    """The help of each command, and of each subcommand."""

    def parsers(self):
        for name in COMMANDS:
            parser = loaded(name).parser()
            for each in (parser, *parser.subcommands.values()):
                yield each.prog.split()[1:], each

    def test_it_is_printed_and_leaves_nothing(self):
        place = self.folder()
        with unchanged("help", place):
            for name in COMMANDS:
                with self.subTest(name=name):
                    expected = Ran(0, loaded(name).parser().format_help().encode(), b"")
                    self.assertEqual(tool(name, "--help", cwd=place), expected)

    def test_that_of_a_subcommand_is_printed_wherever_the_option_is(self):
        expected = Ran(0, loaded("act").parser().subcommands["vote"].format_help().encode(), b"")
        for line in "act vote --help", "act --help vote", "act --desk desk.db vote -h", "act vote 1 --help login=d1":
            with self.subTest(line=line):
                self.assertEqual(tool(*line.split()), expected)

    def test_the_value_of_an_option_is_no_subcommand(self):
        expected = loaded("journal").parser().subcommands["list"].format_help().encode()
        self.assertEqual(tool(*"journal --journal due list --help".split()), Ran(0, expected, b""))

    def test_it_is_printed_beside_words_that_are_wrong(self):
        for line in "act a --help", "journal a -h", "ballot --help --frob":
            with self.subTest(line=line):
                expected = loaded(line.split()[0]).parser().format_help().encode()
                self.assertEqual(tool(*line.split()), Ran(0, expected, b""))

    def test_it_fits_a_screen(self):
        for words, parser in self.parsers():
            lines = parser.format_help().splitlines()
            with self.subTest(words=words):
                self.assertLessEqual(len(lines), 40)
                self.assertEqual([line for line in lines if len(line) > 80], [])

    def test_it_has_the_usage_the_purpose_an_example_and_each_exit_status(self):
        for words, parser in self.parsers():
            text = parser.format_help()
            with self.subTest(words=words):
                self.assertEqual(text.splitlines()[0], f"usage: gr-desk {' '.join(words)} {parser.usages[0]}".rstrip())
                self.assertIn(f"\n\n{parser.purpose[0].upper()}{parser.purpose[1:]}.\n", text)
                self.assertRegex(text, rf"\nExample: gr-desk {words[0]} (.* )?{words[-1] if words[1:] else ''}")
                for number, meaning in parser.statuses:
                    self.assertRegex(text, rf"\n(exit status: | {{13}}) {number}  {re.escape(meaning)}\n")

    def test_it_has_a_line_of_help_for_each_argument_and_option(self):
        for words, parser in self.parsers():
            text = parser.format_help()
            for each in parser.own_actions():
                name = each.option_strings[-1] if each.option_strings else each.metavar or each.dest
                with self.subTest(words=words, name=name):
                    self.assertTrue(each.help)
                    first = re.escape(each.help.split()[0])
                    self.assertRegex(text, rf"\n  (-h, )?{re.escape(name)}( [A-Z]+)?(\n +| +){first}")

    def test_that_of_a_subcommand_has_the_options_of_its_command(self):
        self.assertIn("\n  --journal FILE ", loaded("journal").parser().subcommands["due"].format_help())
        self.assertIn("\n  --desk FILE ", loaded("act").parser().subcommands["vote"].format_help())


class Options(Case):
    @classmethod
    def setUpClass(cls):
        cls.good = new_desk(cls.shared_folder() / "good.db")

    def test_options_stand_anywhere_with_their_values_after_a_space_or_an_equals_sign(self):
        ways = ["--keep", "1", self.good, "to"], [self.good, "--keep=1", "to"], [self.good, "to", "--keep", "1"]
        for words in ways:
            with self.subTest(words=words):
                place = self.folder()
                (place / "to").mkdir()
                self.assertEqual(tool("backup", *words, cwd=place), OK)
                self.assertEqual(len(list((place / "to").glob("good.db-*Z"))), 1)

    def test_no_word_after_two_hyphens_is_an_option(self):
        place = self.folder()
        self.assertEqual(tool("backup", "--", self.good, "--verbose", cwd=place), OK)
        self.assertEqual(run("roll", "./--verbose", cwd=place), Ran(0, ROLL, b""))

    def test_a_date_stands_anywhere_among_the_words(self):
        expected = tool("agenda", self.good, "--at", T0)
        self.assertEqual((expected.status, expected.err), (0, b""))
        before, after = ["--at", T0, self.good], [self.good, f"--at={T0}"]
        ways = before, after, [f"--at={T0}", self.good], ["--at", T0, "--", self.good]
        for words in ways:
            with self.subTest(words=words):
                self.assertEqual(tool("agenda", *words), expected)


class Ends(Case):
    def test_help_that_cannot_be_written_is_reported(self):
        with open("/dev/full", "wb") as full:
            ran = tool("clock", "--help", stdout=full)
        self.assertEqual(ran, fails("clock", 3, "lost: standard output could not be written"))

    def test_an_error_that_no_tool_expects_is_reported_in_a_line_with_status_3(self):
        place = self.folder()
        (place / "sitecustomize.py").write_text(BROKEN_CLOCK)
        ran = tool("clock", "none", cwd=place, env=os.environ | {"PYTHONPATH": str(place)})
        self.assertEqual(ran, fails("clock", 3, "failed, by what nobody foresaw: ValueError: no clock"))

    def test_a_count_that_cannot_be_printed_is_reported(self):
        tally = TOP / "examples" / "votes" / "whole_vote.tally"
        with open("/dev/full", "wb") as full:
            line = [TOP / "examples" / "recount", tally, tally.with_suffix(".result")]
            ran = subprocess.run(line, stdout=full, stderr=subprocess.PIPE, check=False)
        text = b"recount: failed: OSError: [Errno 28] No space left on device\n"
        self.assertEqual((ran.returncode, ran.stderr), (3, text))


class Program(Case):
    """The subcommands of the program, as gr-desk runs them."""

    OPENING = ["init"], ["roll"], ["status", 1], ["tally", 1], ["result", 1]

    def is_explained(self, file, why, cwd=None, opening=OPENING):
        for name, *number in opening:
            with self.subTest(name=name):
                own = f"gr-desk {name}: cannot open {file}: {why}\n"
                expected = Ran(3, b"", f"fault F2 Store\n{own}".encode())
                self.assertEqual(tool(name, file, *number, cwd=cwd), expected)

    def test_a_desk_that_another_process_has_open_is_named_with_that(self):
        file = new_desk(self.folder() / "desk.db")
        with serve(file, 1, "--at", T0):
            self.is_explained(file, "another process has it open, for example `serve`")

    def test_a_file_that_is_no_desk_is_named_with_what_may_be_wrong(self):
        place = self.folder()
        (place / "notes").write_text("no desk")
        why = "it is damaged or no desk, or this account may not write in its folder"
        self.is_explained("notes", why, place, self.OPENING[1:])

    def test_what_is_no_regular_file_is_named_and_nothing_waits_for_it(self):
        place = self.folder()
        (place / "folder").mkdir()
        os.mkfifo(place / "pipe")
        for name in "folder", "pipe":
            self.is_explained(name, "it is not a regular file", place, self.OPENING[1:])

    def test_a_folder_that_is_not_there_is_named(self):
        place = self.folder()
        self.is_explained("frob/desk.db", "its folder is not there", place, self.OPENING[:1])

    def test_what_opens_has_the_programs_own_answer(self):
        file = new_desk(self.folder() / "desk.db")
        self.assertEqual(tool("roll", file), run("roll", file))
        self.assertEqual(tool("status", file, 1), run("status", file, 1))
        self.assertEqual(tool("roll"), run("roll"))
        self.assertEqual(tool("roll", "--help"), run("roll", "--help"))

    def test_each_subcommand_of_the_program_is_one_of_gr_desk(self):
        commands = run("--help").out.decode().partition("Commands:\n")[2].partition("\n\n")[0]
        names = [line.split()[0] for line in commands.splitlines()]
        self.assertEqual(names, [*import_module("grdesk.cli").SUBCOMMANDS])

    def test_help_is_that_of_a_tool_a_subcommand_or_the_program(self):
        self.assertEqual(tool("help"), run("--help"))
        self.assertEqual(tool("help", "tally"), run("tally", "--help"))
        self.assertEqual(tool("help", "act", "vote"), tool("act", "vote", "--help"))
        self.assertEqual(tool("help", "clock"), tool("clock", "--help"))
        self.assertEqual(tool("help", "recount"), tool("recount", "--help"))
