"""Which files a folder of pages gets, from a desk that is made up here: the list of voters of a closed vote if that is
asked for, and not if the tally beside it would show how somebody voted. All else is written then."""
import os
import sys
from types import SimpleNamespace

from tests.support.case import Case
from tests.support.in_process import loaded, said, stopped
from tests.support.program import T0, TOP

sys.path.insert(0, str(TOP / "tools"))
from grdesk.desk.sheet import Status  # noqa: E402
from grdesk.error import Refused, Wrong  # noqa: E402
from grdesk.web.site import publish  # noqa: E402

# Three developers, and a closed vote with so many of them as there are ballots.
LOGINS = "d1", "d2", "d3"
ROLL = "Developers: 3\nCurrent: 3\n" + "".join(f"D: {login} current Name of {login}\n" for login in LOGINS)
STATUS = "Resolution 1\nStage: Closed\nVoting: 2026-01-15T00:00:00Z to 2026-01-22T00:00:00Z\nDevelopers: 3\n"
CLOSED = Status(1, "Closed", None, (T0, T0 + 1), 3, [])
FILES = ["form.txt", "html", "result.txt", "status.txt", "tally.txt"]
ALIKE = "all ballots are alike, so that this list tells who voted how"


class MadeUp:
    """The pages of a desk that has one resolution, whose vote is closed, with these ranks."""

    at = T0

    def __init__(self, *ranks):
        self.desk = self
        self.ballots = {(1, login.encode()): {"ranks": each.encode()} for login, each in zip(LOGINS, ranks)}

    def statuses(self):
        return [CLOSED]

    def sheet(self, kind, *_):
        return {"roll": ROLL, "status": STATUS, "tally": "a tally\n"}[kind]

    def rows(self):
        return {"ballot2": self.ballots}

    def page(self, *_):
        return "a page"

    def sheets(self, _):
        return "a tally\n", "a result\n"

    def stage(self, _):
        return SimpleNamespace(summary="Red")


class Lists(Case):
    def published(self, *ranks, has_voters=True):
        """Whether all was written, which files there are of the resolution, and what was said."""
        place = self.folder() / "public"
        with said() as message:
            is_whole = publish(MadeUp(*ranks), str(place), has_voters)
            lines = message.lines()
        self.assertIn("written to", lines.pop())
        names = sorted(name.removeprefix("resolution-1.") for name in os.listdir(place) if name != "index.html")
        return is_whole, names, [line.removeprefix("gr-desk: ") for line in lines]

    def test_who_voted_is_not_listed_if_nobody_asked_for_it(self):
        for ranks in [], ["12"], ["12", "21", "--"]:
            with self.subTest(ranks=ranks):
                self.assertEqual(self.published(*ranks, has_voters=False), (True, FILES, []))

    def test_a_list_that_shows_how_somebody_voted_is_left_out_with_the_reason(self):
        for why, *ranks in (
            ("only 1 developer voted, so that the tally tells how", "12"),
            (ALIKE, "12", "12"),
            (ALIKE, "12", "1-", "3z"),
            (ALIKE, "--", "11", "zz"),
        ):
            with self.subTest(ranks=ranks):
                said_of_it = f"the list of voters of resolution 1 was not written: {why}"
                self.assertEqual(self.published(*ranks), (False, FILES, [said_of_it]))

    def test_a_list_of_few_voters_is_written_with_a_warning_and_one_of_nobody_without(self):
        files = [*FILES, "voters.txt"]
        few = "only 2 developers voted, so that the tally nearly tells who voted how"
        warning = f"warning: resolution-1.voters.txt: {few}"
        self.assertEqual(self.published("12", "21"), (True, files, [warning]))
        self.assertEqual(self.published(), (True, files, []))

    def test_nothing_is_written_where_others_can_write_or_something_else_lies(self):
        place = self.folder() / "public"
        place.mkdir()
        for name, mode, why in (
            ("index.html", 0o775, f"other accounts can write into {place}, where all is published: chmod go-w {place}"),
            ("desk.db", 0o755, f"{place} has desk.db, which would be published too; name a folder of its own"),
        ):
            with self.subTest(name=name):
                (place / name).write_bytes(b"")
                place.chmod(mode)
                self.assertEqual(stopped(Refused, publish, MadeUp(), str(place), False), f"nothing was written: {why}")
                self.assertEqual({path.stat().st_size for path in place.iterdir()}, {0})


class Words(Case):
    def test_voters_needs_a_folder_and_a_desk_in_a_file(self):
        page = loaded("page")
        for line, why in (
            ("desk.db 1 --voters", "--voters needs --all FOLDER; gr-desk voters prints the list of one resolution"),
            ("--all public --voters --port 5", "--voters needs DESK: by a port it is not known who voted"),
        ):
            with self.subTest(line=line):
                words = page.parser().read(line.split())
                self.assertEqual(stopped(Wrong, page.run, words), why)
