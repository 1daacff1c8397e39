"""Pages name no file that is not there: a path, or the end of one, between backquotes; or a file of lemmas, by its name
alone. They name no function, type or definition that no source has. A link from a page leads to a file."""
import re
from pathlib import Path

from tests.support.case import Case
from tests.support.program import TOP, runs

# What pages name although it is no file of the repository: what a user or the toolchain makes.
MADE = re.compile(r"desk\.db|COPY|FILE|NAME|out/|roll\.csv|ROLL\.csv|^memory$|data/|\*|\.db")
# A path with an ending, a folder, or a script or tool, which have none.
PATH = re.compile(
    r"(?:\.\./)?(?:[\w.-]+/)*[\w.-]+\.(?:rt|antt|py|c|txt|edit|patch|rattle|md)"
    r"|(?:[\w-]+/)+|(?:gate|dev|tests|tools|examples|bench)/[\w./-]+"
)
LEMMAS = re.compile(r"\w+Lemmas")
# A name of the code, of two words or more: `current_count`, `IsNotOpened`, `Office::act`.
CODE = re.compile(r"(?:\w+::)*(?:[a-z]\w*_\w+|(?:[A-Z][a-z0-9]*){2,}|\w+::\w+)")
# Names of others, which no source has.
FOREIGN = {"auto_vacuum"}


def tracked():
    ran = runs(["git", "ls-files", "-co", "--exclude-standard"], cwd=TOP)
    return [path for path in ran.out.decode().splitlines() if (TOP / path).is_file()]


def named_by(page):
    """What a page names, each with the number of its line: names between backquotes that are those of files."""
    for number, line in enumerate((TOP / page).read_text().splitlines(), 1):
        for token in re.findall(r"`([^`\s]+)`", line):
            if not MADE.search(token) and (PATH.fullmatch(token) or LEMMAS.fullmatch(token)):
                yield number, token


def links_of(page):
    """The files that a page links to or shows. What stands between backquotes is code."""
    text = re.sub(r"(?s)```.*?```|`[^`]*`", "", (TOP / page).read_text())
    return [link for link in re.findall(r"\]\(([^)\s]+)\)", text) if not re.match(r"https?:|#", link)]


class Names(Case):
    def test_each_file_that_a_page_names_is_there(self):
        files = tracked()
        parts = [path.split("/") for path in files]
        ends = {"/".join(each[first:]) for each in parts for first in range(len(each))}
        folders = {"/".join(each[first:last]) for each in parts for last in range(len(each)) for first in range(last)}
        stems = {Path(path).stem for path in files}
        named = 0
        for page in (path for path in files if path.endswith(".md")):
            for number, token in named_by(page):
                named += 1
                name = token.removeprefix("../").removesuffix("/")
                known = stems if LEMMAS.fullmatch(token) else folders if token.endswith("/") else ends | folders
                with self.subTest(line=f"{page}:{number}", name=token):
                    self.assertTrue(name in known, "there is no such file")
        self.assertGreater(named, 0)

    def test_each_function_type_or_definition_that_a_page_names_is_in_a_source(self):
        files = tracked()
        sources = [path for path in files if not path.endswith((".md", ".png", ".gz"))]
        text = "\n".join([*files, *((TOP / path).read_text() for path in sources)])
        known = set(re.findall(r"\w+", text)) | FOREIGN
        named = 0
        for page in (path for path in files if path.endswith(".md")):
            for number, line in enumerate((TOP / page).read_text().splitlines(), 1):
                for token in filter(CODE.fullmatch, re.findall(r"`([^`\s]+)`", line)):
                    named += 1
                    with self.subTest(line=f"{page}:{number}", name=token):
                        self.assertEqual([], [part for part in token.split("::") if part not in known])
        self.assertGreater(named, 0)

    def test_each_link_of_a_page_leads_to_a_file(self):
        links = [(page, link) for page in tracked() if page.endswith(".md") for link in links_of(page)]
        self.assertTrue(links)
        for page, link in links:
            with self.subTest(page=page, link=link):
                self.assertTrue((TOP / page).parent.joinpath(link).is_file(), "there is no such file")
