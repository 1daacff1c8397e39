"""Compares what names a version or the toolchain with the file VERSION, and with README.md: the first heading of
CHANGELOG.md, each name of a package on a page, and what the program and the toolchain print, where these do."""
import re
import shutil

from tests.support.case import Case
from tests.support.program import TOP, run, runs

PAGES = sorted([*TOP.glob("*.md"), *TOP.glob("docs/*.md")])
PACKAGE = re.compile(r"gr-desk_([0-9][^_\s]*)_[a-z0-9]+\.deb")
TOOLCHAIN = re.compile(r"rattle-kit-\w+ (logic \w+)")


def toolchains(text):
    """The lines of toolchains in a text."""
    return {found[0] for found in TOOLCHAIN.finditer(text)}


class Versions(Case):
    def setUp(self):
        self.version = (TOP / "VERSION").read_text().removesuffix("\n")

    def test_the_version_has_three_numbers(self):
        self.assertRegex((TOP / "VERSION").read_text(), r"\A[0-9]+\.[0-9]+\.[0-9]+\n\Z")

    def test_the_list_of_changes_begins_with_the_version(self):
        changes = re.findall(r"^## (.*)$", (TOP / "CHANGELOG.md").read_text(), re.M)
        self.assertEqual(changes[:1], [self.version])

    def test_each_page_that_names_the_package_names_this_version(self):
        named = [(page.name, version) for page in PAGES for version in PACKAGE.findall(page.read_text())]
        self.assertTrue(named, "no page names the package")
        for page, version in named:
            with self.subTest(page=page):
                self.assertEqual(version, self.version)

    def test_the_program_prints_the_version_where_its_sources_have_a_word_for_that(self):
        sources = (TOP / "crates" / "gr_desk" / "src").rglob("*.rt")
        if not any(re.search(r"--version|\.version\(", path.read_text()) for path in sources):
            self.skipTest("the program has no word for it")
        ran = run("--version")
        self.assertEqual(ran.status, 0)
        self.assertRegex(ran.out.decode(), rf"(?<![0-9.]){re.escape(self.version)}(?![0-9.])")

    def test_pages_name_one_toolchain_which_is_that_of_the_first_page(self):
        pages = {page.name: toolchains(page.read_text()) for page in PAGES}
        named = set().union(*pages.values())
        self.assertEqual(len(named), 1, named)
        self.assertEqual(pages["README.md"], named)

    def test_the_toolchain_of_this_machine_proves_in_the_logic_that_the_first_page_names(self):
        """Builds of a kit differ that have the same logic."""
        if not shutil.which("rt"):
            self.skipTest("rt, of the toolchain, is not installed")
        here = runs(["rt", "version"])
        self.assertEqual(here.status, 0)
        [named] = toolchains((TOP / "README.md").read_text())
        self.assertEqual(*(TOOLCHAIN.fullmatch(line)[1] for line in (here.out.decode().strip(), named)))
