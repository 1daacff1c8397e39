"""The man pages and the completion that gr-desk manual writes: each argument, option, command and exit status of each
parser is in both, and what the pages say beyond the help."""
import os
import re
import shutil
import stat
import unittest
from types import SimpleNamespace
from unittest import mock

from tests.commands.installed_names import COMMAND_NAMES, COMPLETION, PAGES, SUBCOMMANDS
from tests.support.case import Case
from tests.support.in_process import loaded, stopped, under_umask
from tests.support.program import TOP, Ran, expect, runs, tool
from grdesk.error import Failed

EXAMPLES = "check_receipt", "recount"
TOOLS = [name for name in COMMAND_NAMES if name not in EXAMPLES]
PAGE = "man/man1/gr-desk.1"
# What is made up here.
MADE = {PAGE: b".TH GR-DESK 1\n", COMPLETION: b"complete gr-desk\n"}
SECRET = b"the ballots\n"
# The words before the cursor, and what bash offers in the place of the last one.
COMPLETED = [
    (["jo"], ["journal"]),
    (["journal", "re"], ["replay"]),
    (["journal", "replay", "--d"], ["--dry-run"]),
    (["ballot", "c"], ["call"]),
    (["serve", "desk.db", "--po"], ["--port"]),
    (["act", "un"], ["unsponsor"]),
    (["act", "--desk", "desk.db", "cast", "1", "pl"], ["place="]),
    (["act", "choice", "1", "lo"], []),
    (["backup", "desk"], []),
]


def plain(text):
    """The text of a man page's source, with one space between two words."""
    text = re.sub(r"^\.(EX|EE|PP|TP|TH .*)$", "", text, flags=re.M)
    text = re.sub(r"^\.(SH|SS|B) ", "", text, flags=re.M)
    for mark, each in ("\\&", ""), ("\\-", "-"), ("\\(ga", "`"), ("\\(aq", "'"), ("\\(ha", "^"), ("\\(ti", "~"):
        text = text.replace(mark, each)
    return " ".join(text.replace("\\e", "\\").split())


def tagged(text):
    """The words of a page's lists, each with what is said of it."""
    return re.findall(r"^\.TP\n\.B (.*)\n(.*)$", text, re.M)


def help_of(path, *words):
    ran = runs([path, *words, "--help"])
    expect(f"{path} {words} --help", (ran.status, ran.err), (0, b""))
    return ran.out.decode().strip()


def words_of(action):
    """The names of an option, or what stands for an argument."""
    return action.option_strings or [action.metavar or action.dest]


class Written(Case):
    @classmethod
    def setUpClass(cls):
        cls.place = cls.shared_folder() / "pages"
        cls.ran = tool("manual", cls.place)

    def page(self, name):
        return (self.place / "man" / "man1" / f"{name}.1").read_text()

    def parsers(self):
        """Each parser with the name of its page: those of commands, and of their subcommands."""
        for name in TOOLS:
            parser = loaded(name).parser()
            for each in (parser, *parser.subcommands.values()):
                yield f"gr-desk-{name}", each


class Files(Written):
    def test_all_is_written_and_nothing_else(self):
        self.assertEqual(self.ran, Ran(0, b"", b""))
        found = sorted(path.relative_to(self.place).as_posix() for path in self.place.rglob("*") if path.is_file())
        self.assertEqual(found, sorted([*PAGES.values(), COMPLETION]))

    def test_what_is_there_is_replaced(self):
        place = self.folder()
        for _ in range(2):
            self.assertEqual(tool("manual", place), Ran(0, b"", b""))
        self.assertEqual((place / COMPLETION).read_bytes(), (self.place / COMPLETION).read_bytes())


class Places(Case):
    """How the files are written: anew, so that nothing is written through a link or into a file of others that has one
    of their names, and for all to read."""

    def setUp(self):
        self.tool, self.work = loaded("manual"), self.folder()
        self.place = self.work / "made"
        self.enter(mock.patch.object(self.tool, "made", lambda: MADE))

    def write(self):
        self.assertEqual(self.tool.run(SimpleNamespace(folder=str(self.place))), 0)

    def found(self):
        paths = (path for path in self.place.rglob("*") if not path.is_dir())
        return {str(path.relative_to(self.place)): path.read_bytes() for path in paths}

    def test_they_are_written_into_folders_that_are_made_and_by_a_later_run_in_their_place(self):
        self.write()
        self.assertEqual(self.found(), MADE)
        (self.place / PAGE).write_bytes(b"of an earlier version")
        self.write()
        self.assertEqual(self.found(), MADE)

    def test_nothing_is_written_through_a_link_that_has_one_of_their_names(self):
        secret = self.work / "secret"
        secret.write_bytes(SECRET)
        for name in MADE:
            for make in os.symlink, os.link:
                with self.subTest(name=name, make=make.__name__):
                    self.write()
                    (self.place / name).unlink()
                    make(secret, self.place / name)
                    self.write()
                    self.assertEqual((secret.read_bytes(), self.found()), (SECRET, MADE))
                    self.assertFalse((self.place / name).is_symlink())

    def test_all_may_read_them_whatever_the_umask(self):
        with under_umask(0o027):
            self.write()
        for name in MADE:
            self.assertEqual(stat.filemode((self.place / name).stat().st_mode), "-rw-r--r--")

    def test_a_file_that_cannot_be_written_is_named(self):
        (self.place / PAGE).mkdir(parents=True)
        why = stopped(Failed, self.tool.run, SimpleNamespace(folder=str(self.place)))
        self.assertEqual(why, f"{self.place / PAGE} cannot be written: Is a directory")


class Manual(Written):
    def check_has(self, name, *parts):
        """The page has these texts, one after the other."""
        self.assertIn(" ".join(" ".join(part.split()) for part in parts), plain(self.page(name)))

    def test_the_page_of_the_program_has_its_help(self):
        title, _, text = help_of(TOP / "gr_desk").partition("Usage: ")
        self.check_has("gr_desk", "gr_desk -", title, "SYNOPSIS")
        self.check_has("gr_desk", text)

    def test_the_page_of_the_program_has_the_help_of_each_subcommand_under_its_heading(self):
        self.assertEqual(re.findall(r"^\.SS (.*)$", self.page("gr_desk"), re.M), SUBCOMMANDS)
        for name in SUBCOMMANDS:
            with self.subTest(name=name):
                self.check_has("gr_desk", name, help_of(TOP / "gr_desk", name))

    def test_the_page_of_an_example_has_its_help(self):
        for name in EXAMPLES:
            with self.subTest(name=name):
                purpose, _, text = help_of(TOP / "examples" / name).split("\n\n", 2)
                self.check_has(f"gr-desk-{name}", f"gr-desk-{name} -", purpose.rstrip(".:"), "SYNOPSIS")
                self.check_has(f"gr-desk-{name}", "DESCRIPTION", text, "SEE ALSO")

    def test_each_argument_and_option_is_on_the_page_of_its_command_with_its_help(self):
        count = 0
        for page, parser in self.parsers():
            found = [(plain(word), plain(text)) for word, text in tagged(self.page(page))]
            for action in parser.own_actions():
                if parser.parent and action.dest == "help":
                    continue
                value = f" {action.metavar}" if action.option_strings and action.metavar else ""
                word = ", ".join(f"{each}{value}" for each in words_of(action))
                with self.subTest(page=page, word=word):
                    self.assertIn((word, f"{action.help[0].upper()}{action.help[1:]}."), found)
                count += 1
        self.assertGreater(count, 100)

    def test_each_subcommand_has_a_heading_its_usages_and_its_example(self):
        for page, parser in self.parsers():
            if parser.parent:
                with self.subTest(words=parser.prog):
                    self.check_has(page, parser.prog, f"{parser.purpose[0].upper()}{parser.purpose[1:]}.")
            for line in [f"{parser.prog} {usage}".rstrip() for usage in parser.usages] * (not parser.subcommands):
                with self.subTest(usage=line):
                    self.assertIn(f"\n{line}\n", self.page(page).replace("\\-", "-").replace("\\(aq", "'"))
            for example in parser.examples:
                self.check_has(page, example)

    def test_each_exit_status_and_variable_is_on_the_page(self):
        for page, parser in self.parsers():
            if not parser.parent:
                found = dict(tagged(self.page(page).partition(".SH EXIT STATUS\n")[2]))
                with self.subTest(page=page):
                    self.assertEqual([str(number) for number, _ in parser.statuses], [*found][: len(parser.statuses)])
                    names = [word for word in found if word.isupper() or "_" in word]
                    self.assertEqual(names, [each for each in parser.environment])

    def test_each_text_of_a_command_is_on_its_page_word_by_word(self):
        for path in sorted((TOP / "tools" / "man").glob("*.txt")):
            name = path.stem if path.stem == "gr-desk" else f"gr-desk-{path.stem}"
            if path.stem in (*TOOLS, "gr-desk"):
                for part in re.split(r"^[A-Z][A-Z ]*$", path.read_text(), flags=re.M):
                    with self.subTest(page=name):
                        self.check_has(name, part)

    def test_man_shows_each_page_without_a_warning_in_80_columns(self):
        if not shutil.which("man"):
            self.skipTest("man is not installed")
        environment = os.environ | {"LC_ALL": "C.UTF-8", "MANWIDTH": "80", "MAN_KEEP_FORMATTING": ""}
        for path in PAGES.values():
            with self.subTest(path=path):
                ran = runs(["man", "--warnings", "-l", self.place / path], env=environment)
                self.assertEqual((ran.status, ran.err), (0, b""))
                lines = re.sub("\x1b\\[[0-9;]*m|.\b", "", ran.out.decode()).splitlines()
                self.assertEqual([line for line in lines if len(line) > 80], [])


@unittest.skipUnless(shutil.which("bash"), "bash is not installed")
class Completion(Written):
    def completed(self, *words):
        """What bash offers in the place of the last word."""
        call = '. "$1"; shift; COMP_WORDS=("$@"); COMP_CWORD=$(($# - 1)); _gr_desk; printf "%s\\n" "${COMPREPLY[@]}"'
        ran = runs(["bash", "-c", call, "bash", self.place / COMPLETION, "gr-desk", *words])
        self.assertEqual((ran.status, ran.err), (0, b""), words)
        return ran.out.decode().split()

    def test_each_tool_and_each_subcommand_is_offered(self):
        names = sorted([*COMMAND_NAMES, *SUBCOMMANDS, "help"])
        self.assertEqual(self.completed(""), names)
        self.assertEqual(sorted(self.completed("help", "")), sorted([*COMMAND_NAMES, *SUBCOMMANDS]))

    def test_words_options_and_fields_are_completed(self):
        for words, expected in COMPLETED:
            with self.subTest(words=words):
                self.assertEqual(self.completed(*words), expected)

    def test_each_option_command_and_field_is_offered_in_its_place(self):
        count = 0
        for _, parser in self.parsers():
            words = parser.prog.split()[1:]
            offered = {*self.completed(*words, "")}
            wanted = {each for action in parser.own_actions() for each in words_of(action) if each.startswith("--")}
            wanted |= {each.dest for each in parser.own_actions() if each.dest.endswith("=")} | {*parser.subcommands}
            with self.subTest(words=words):
                self.assertEqual(wanted - offered, set())
            count += len(wanted)
        self.assertGreater(count, 100)

    def test_after_a_subcommand_no_other_one_is_offered(self):
        for words in ["act", "propose"], ["journal", "replay"], ["ballot", "read"]:
            with self.subTest(words=words):
                others = {*loaded(words[0]).parser().subcommands}
                self.assertEqual({*self.completed(*words, "")} & others, set())

    def test_after_an_option_with_a_value_the_name_of_a_file_is_completed(self):
        for words in ["backup", "--keep", ""], ["act", "--desk", ""], ["journal", "replay", "--from", ""]:
            with self.subTest(words=words):
                self.assertEqual(self.completed(*words), [])

    def test_each_option_that_is_offered_is_one_that_the_tool_takes(self):
        count = 0
        for name in TOOLS:
            for option in self.completed(name, "--"):
                count += 1
                with self.subTest(name=name, option=option):
                    self.assertNotIn(b"no option", tool(name, option).err)
        self.assertGreater(count, 0)
