"""`dev/where` finds what a change touches. changes.txt has for kinds of changes the names to ask for, and below them
files that it must print then; where.txt has whole what it prints of five names. Where a change adds or removes such a
file, the lines of where.txt are those that this prints:

    python3 -m tests.pages.test_where > tests/pages/where.txt
"""
import re
import shlex
import sys
from functools import cache
from pathlib import Path

from tests.support.case import Case
from tests.support.program import TOP

sys.path.insert(0, str(TOP / "dev"))
import searches  # noqa: E402
from subjects import LIMITS, SUBJECTS  # noqa: E402

HERE = Path(__file__).parent
LISTED = "NotRevealed", "TooNew", "Vary", "ratio", "MAX_NAME"


@cache
def files():
    return sorted(searches.files())


@cache
def where(name):
    """What it prints of a name: the groups with their files."""
    return searches.where(name, files())


def lines():
    """What it prints of the names of where.txt."""
    return [f"{name}: {group}: {path}" for name in LISTED for group, path in where(name)]


def changes():
    """The names to ask for of each kind of change, with the files that are printed then."""
    for block in re.findall(r"^\S.*\n(?: .*\n)*", (HERE / "changes.txt").read_text(), re.M):
        names, *paths = block.splitlines()
        yield names.split("; "), [path.strip() for path in paths]


class Where(Case):
    def test_the_lists_of_five_names_are_those_of_today(self):
        stored = (HERE / "where.txt").read_text().splitlines()
        self.assertTrue(stored)
        here = lines()
        self.assertEqual([], [line for line in stored if line not in here], "only in where.txt")
        self.assertEqual([], [line for line in here if line not in stored], "not in where.txt")

    def test_each_file_that_a_kind_of_change_touches_is_printed(self):
        kinds = list(changes())
        self.assertTrue(kinds)
        for names, paths in kinds:
            with self.subTest(names=names):
                self.assertTrue(paths, "no file is listed")
                printed = {path for name in names for _, path in where(name)}
                self.assertEqual([], [path for path in paths if path not in printed])

    def test_each_subject_is_a_kind_of_change(self):
        named = {name for names, _ in changes() for name in names}
        self.assertEqual([], sorted({*SUBJECTS} - named))

    def test_each_call_on_a_page_prints_something(self):
        pages = [TOP / "README.md", *(TOP / "docs").glob("*.md")]
        calls = [call for page in pages for call in re.findall(r"`dev/where ([^`]+)`", page.read_text())]
        names = {name for call in calls for name in shlex.split(call)} - {"NAME", "COMMAND", "SUBJECT", ".."}
        self.assertTrue(names)
        self.assertEqual([], [name for name in sorted(names) if not where(name)])

    def test_each_subject_is_on_the_page_of_changes(self):
        page = (TOP / "docs" / "architecture.md").read_text()
        self.assertEqual([], [subject for subject in SUBJECTS if not re.search(f"[`']{subject}[`']", page)])

    def test_each_word_of_a_subject_or_a_limit_is_found(self):
        words = {word for listed in [*SUBJECTS.values(), *LIMITS.values()] for word in listed.split(", ")}
        self.assertTrue(words)
        whole = "\n".join(text for *_, text in files())
        self.assertEqual([], [word for word in sorted(words) if not re.search(searches.whole(word), whole)])

    def test_each_limit_with_words_is_one(self):
        self.assertEqual([], [limit for limit in LIMITS if limit not in searches.of_limit("")])


if __name__ == "__main__":
    print(*lines(), sep="\n")
