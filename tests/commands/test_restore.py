"""What gr-desk restore puts in the place of a desk, what it warns of, and what is in its way."""
import shutil
from pathlib import Path

from tests.support.case import Case
from tests.support.one_developer import ALICE, OK, ROLL, fails, new_desk, no_digest, no_log, unchanged
from tests.support.program import T0, Ran, once, run, serve, tool


class Restores(Case):
    """A desk, and a copy of it that gr-desk backup made. Tests that change the copy have one of their own."""

    @classmethod
    def setUpClass(cls):
        work = cls.shared_folder()
        cls.good, cls.copy = new_desk(work / "good.db"), work / "copy.db"
        tool("backup", cls.good, cls.copy)

    def copied(self, name):
        """A copy of the copy, with its log and its digests, under this name in a folder of its own."""
        copy = self.folder() / name
        for end in "", "-wal", ".sha256":
            shutil.copy(f"{self.copy}{end}", f"{copy}{end}")
        return copy

    def test_a_copy_in_use_is_not_restored_and_its_desk_goes_on(self):
        copy = self.copied("copy.db")
        with serve(copy, 9, "--at", T0) as desk, unchanged("restore of a copy in use", copy.parent):
            ran = tool("restore", copy, copy.with_name("new.db"))
            self.assertEqual(ran, fails("restore", 1, f"{copy} is in use"))
            self.assertEqual(desk.ask("GET", "/roll"), (200, ROLL.decode()))

    def test_a_desk_that_was_removed_under_a_program_is_restored_once_that_ended_and_goes_on(self):
        copy = self.copied("copy.db")
        place, file = copy.parent, new_desk(copy.with_name("desk.db"))
        with serve(file, 9, "--at", T0) as desk:
            desk.accepts("/developers", ALICE, "ok 2")
            for path in place.glob("desk.db*"):
                path.unlink()
            with unchanged("restore under a program", place):
                why = f"{file} was removed, and is still in use: end that program first"
                self.assertEqual(tool("restore", copy, file), fails("restore", 1, why))
        self.assertEqual(tool("restore", copy, file), OK)
        self.assertEqual(run("roll", file), Ran(0, ROLL, b""))
        once(file, T0, "/developers", ALICE, "ok 2")

    def test_a_log_that_was_removed_and_is_still_in_use_is_in_the_way_of_a_restore(self):
        copy = self.copied("copy.db")
        place, file = copy.parent, copy.with_name("desk.db")
        for end in "", "-wal":
            with self.subTest(end=end):
                gone = Path(f"{file}{end}")
                gone.write_text("x")
                with gone.open():
                    gone.unlink()
                    with unchanged("restore", place):
                        why = f"{gone} was removed, and is still in use: end that program first"
                        self.assertEqual(tool("restore", copy, file), fails("restore", 1, why))

    def test_a_file_without_its_log_is_restored_with_a_warning(self):
        alone = self.folder() / "alone.db"
        shutil.copyfile(self.good, alone)
        restored = alone.with_name("new.db")
        self.assertEqual(tool("restore", alone, restored), Ran(0, b"ok\n", no_digest(alone) + no_log(alone)))
        self.assertEqual(run("roll", restored), Ran(0, ROLL, b""))
