"""What the file beside a package says of the sources: their commit, changes that no commit has, or that there is
none."""
import sys
from types import SimpleNamespace
from unittest import mock

from tests.support.case import Case
from tests.support.in_process import said
from tests.support.program import TOP

sys.path.insert(0, str(TOP / "tools"))
from grdesk.package import origin  # noqa: E402

COMMIT = SimpleNamespace(digits="c0ffee")


def sources(commit, changed):
    """What is said of sources with this commit and these changes, and what is warned of."""
    stubs = {"last_commit": lambda: commit, "changed_since": lambda: changed}
    with mock.patch.multiple(origin, **stubs), said() as warned:
        return origin.sources(), warned.lines()


class Sources(Case):
    def test_those_of_a_commit_are_named_by_it(self):
        self.assertEqual(sources(COMMIT, []), ("The sources are those of the commit c0ffee.", []))

    def test_changes_that_no_commit_has_are_named_and_warned_of(self):
        told, warned = sources(COMMIT, ["VERSION", "README.md"])
        self.assertEqual(told, "The sources are those of the commit c0ffee, with changes that no commit has.")
        self.assertEqual([each.partition("warning: ")[2] for each in warned],
                         ["the package has what no commit has, as VERSION"])

    def test_those_of_no_commit_are_said_to_be_of_none(self):
        self.assertEqual(sources(None, None), ("The sources are of no commit that git knows of.", []))
