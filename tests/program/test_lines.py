"""Runs each subcommand over each kind of file that FILE may be, over names that lead nowhere, over new files, and over
names that are URIs to stock SQLite. Each line has its status and prints its text whole. An opening that is refused
leaves the bytes of FILE as they were, and so does a sheet."""
import os
import stat
import unittest
from contextlib import nullcontext

from tests.program.file_kinds import BY_MIGRATE, KINDS, UNREADABLE, copied, of_another_program
from tests.program.good_desk import (
    ALICE,
    MADE,
    NO_FILE,
    NOTHING,
    OCCUPIED,
    ROLL,
    ROLL_FILE,
    SHEETS,
    STORE,
    SUBCOMMANDS,
    GoodDeskCase,
    by_the_good_desk,
    line_of,
)
from tests.support.case import Case
from tests.support.program import PRIVATE, T0, Ran, bytes_of, make_desk, modes_of, once, request, response, run, serve

ROOT = os.geteuid() == 0
GET_ROLL = request("GET", "/roll")


def found_in(file):
    """What stands under a name: its kind and its mode, and its bytes, where it is a file that may be read."""
    try:
        mode = file.lstat().st_mode
    except FileNotFoundError:
        return None
    # A pipe or a link to nothing is not read.
    return mode, bytes_of(file) if file.is_file() and os.access(file, os.R_OK) else None


class Files(GoodDeskCase):
    def line_over(self, subcommand, kind, expected):
        """Runs a line of a subcommand over a new file of a kind, and expects this of it. None is what comes of it over
        a good desk."""
        place = self.folder()
        file = place / "desk.db"
        made = kind(self.good, file)
        with made if hasattr(made, "__exit__") else nullcontext():
            before = found_in(file)
            if expected is None and subcommand == "serve":
                self.served(file)
            else:
                ran = run(*line_of(subcommand, file, self.csv), given=GET_ROLL)
                self.assertEqual(ran, expected or by_the_good_desk(subcommand))
            if (expected and expected.status == 3) or subcommand in (*SHEETS, "migrate"):
                self.assertEqual(found_in(file), before, "what stands there afterwards")

    def served(self, file):
        with serve(file, 1) as desk:
            self.assertEqual(desk.ask("GET", "/roll"), (200, ROLL))
            self.assertEqual(desk.ended(), NOTHING)

    def lines_over_all_kinds(self, *subcommands):
        for words, (kind, by_init, by_others) in KINDS.items():
            for subcommand in subcommands:
                expected = by_init if subcommand == "init" else by_others
                expected = BY_MIGRATE.get(words, expected) if subcommand == "migrate" else expected
                with self.subTest(subcommand, kind=words):
                    self.line_over(subcommand, kind, expected)

    def test_init_makes_a_desk_of_what_is_none_and_otherwise_reports_what_is_there(self):
        self.lines_over_all_kinds("init")

    def test_sheets_are_printed_of_a_desk_and_leave_each_file_as_it_was(self):
        self.lines_over_all_kinds(*SHEETS)

    def test_a_request_on_standard_input_is_answered_by_a_desk_and_other_files_are_left_as_they_were(self):
        self.lines_over_all_kinds("once")

    def test_a_roll_file_is_imported_into_a_desk_and_other_files_are_left_as_they_were(self):
        self.lines_over_all_kinds("import")

    def test_a_desk_is_served_and_other_files_are_left_as_they_were(self):
        self.lines_over_all_kinds("serve")

    def test_migrate_reports_the_version_of_a_desk_and_leaves_each_file_as_it_was(self):
        self.lines_over_all_kinds("migrate")

    @unittest.skipIf(ROOT, "root may read each file")
    def test_a_desk_that_may_not_be_read_is_reported_and_left_as_it_was(self):
        kind, by_init, by_others = UNREADABLE
        for subcommand in SUBCOMMANDS:
            with self.subTest(subcommand):
                self.line_over(subcommand, kind, by_init if subcommand == "init" else by_others)


class Names(Case):
    """Names that lead nowhere: through a file, too long, or by a link to itself, which cannot be followed."""

    def setUp(self):
        self.place = self.folder()
        self.csv, self.loop = self.place / "roll.csv", self.place / "loop.db"
        self.csv.write_text(ROLL_FILE)
        self.loop.symlink_to(self.loop)

    def test_names_that_lead_nowhere_are_reported(self):
        names = [(self.csv / "desk.db", NO_FILE), (self.place / ("d" * 300), NO_FILE), (self.loop, STORE)]
        for name, by_others in names:
            for subcommand in SUBCOMMANDS:
                with self.subTest(subcommand, name=name):
                    ran = run(*line_of(subcommand, name, self.csv), given=GET_ROLL)
                    self.assertEqual(ran, STORE if subcommand == "init" else by_others)

    def test_wrong_csv_is_reported_before_a_link_that_cannot_be_followed(self):
        wrong = self.place / "wrong.csv"
        wrong.write_text("login,name\n")
        self.assertEqual(run("import", self.loop, wrong), Ran(1, b"", b"bad roll 1\n"))


class NewFiles(GoodDeskCase):
    """New files, and those that are there, where `umask` lets all read."""

    def setUp(self):
        self.addCleanup(os.umask, os.umask(0o022))
        self.place = self.folder()

    def test_a_new_desk_and_its_log_are_their_owners_alone(self):
        file = self.place / "new.db"
        make_desk(file)
        self.assertEqual(modes_of(file), PRIVATE)
        once(file, T0, "/developers", ALICE, "ok 1")
        self.assertEqual(modes_of(file), PRIVATE, "after a command")

    def test_a_desk_that_is_made_of_what_a_failed_init_left_is_its_owners_alone(self):
        file = self.place / "full.db"
        self.assertEqual(run("init", file, limit=0), STORE)
        self.assertEqual((bytes_of(file), stat.filemode(file.stat().st_mode)), (b"", PRIVATE[0]), "what it left")
        make_desk(file)
        self.assertEqual(modes_of(file), PRIVATE)

    def test_a_file_that_is_there_keeps_its_mode_and_its_log_gets_it(self):
        for name, make in [
            ("empty", lambda good, file: file.write_bytes(b"")),
            ("other", of_another_program),
            ("desk", copied),
        ]:
            with self.subTest(name):
                file = self.place / f"{name}.db"
                make(self.good, file)
                file.chmod(0o640)
                if make == copied:
                    self.assertEqual(run("roll", file), Ran(0, ROLL.encode(), b""))
                else:
                    make_desk(file)
                self.assertEqual(modes_of(file), ["-rw-r-----"] * 2)

    def test_no_file_and_no_folder_is_made_where_the_folder_is_not_there(self):
        self.assertEqual(run("init", self.place / "nothing" / "new.db"), STORE)
        self.assertFalse((self.place / "nothing").exists())


class Uris(Case):
    def test_names_that_are_uris_to_stock_sqlite_are_names_of_files(self):
        place = self.folder()
        (place / "roll.csv").write_text(ROLL_FILE)
        (place / "file:").mkdir()
        names = ["file:desk.db", "file::memory:", "file:other.db?mode=memory", "file://desk.db"]
        for name in names:
            for words, expected in [
                (["roll", name], NO_FILE),
                (["init", name], MADE),
                (["init", f"./{name}"], OCCUPIED),
                (["import", name, "roll.csv", "--at", T0], Ran(0, b"ok 1 added 2 changed 0 same 0\n", b"")),
                (["migrate", name], Ran(0, b"ok schema 2\n", b"")),
                (["roll", f"./{name}"], Ran(0, ROLL.encode(), b"")),
                (["once", name], Ran(0, response(200, ROLL), b"")),
            ]:
                with self.subTest(words=words):
                    self.assertEqual(run(*words, given=GET_ROLL, cwd=place), expected)
            with self.subTest(name=name):
                self.assertEqual(modes_of(place / name), PRIVATE)
        self.assertEqual(run("init", "file:", cwd=place), STORE, "init of a folder")
        found = {path for path in place.rglob("*") if path.is_file()}
        desks = {place / f"{name}{end}" for name in names for end in ("", "-wal")}
        self.assertEqual(found, desks | {place / "roll.csv"}, "the files that were made")
