"""What a cut of the power may leave of a backup and of a restore, at each moment: never a file without its log and its
digests, and none that is not whole. A cut may leave each name that was given, and of those that no sync of the folder
brought to the disk none. And what comes to stand under a name meanwhile is never replaced, and a desk that is written
while it is copied is copied again. All this is looked at in this process, where the program opens no copy."""
import os
import stat
import sys
from contextlib import ExitStack, contextmanager
from pathlib import Path
from unittest import mock

from tests.support.case import Case
from tests.support.program import TOP

sys.path.insert(0, str(TOP / "tools"))
from grdesk.desk import copy  # noqa: E402
from grdesk.desk.retention import DatedCopy  # noqa: E402
from grdesk.error import Refused  # noqa: E402

PARTS = "desk.db", "desk.db-wal", "desk.db.sha256"
FILE, LOG = b"a file\n" * 999, b"the head of a log" * 99


class Disk:
    """What of a folder is surely on the disk, and what may be: by the syncs of its files and of itself."""

    def __init__(self, folder):
        self.folder = folder
        # What files have by their last syncs, by their numbers, and the number of each name.
        self.synced, self.sure = {}, {}

    def names(self):
        return {path.name: path.lstat().st_ino for path in self.folder.iterdir() if path.name in PARTS}

    def sync(self, descriptor):
        about = os.fstat(descriptor)
        if stat.S_ISDIR(about.st_mode):
            if about.st_ino == self.folder.stat().st_ino:
                self.sure = self.names()
        else:
            self.synced[about.st_ino] = Path(f"/proc/self/fd/{descriptor}").read_bytes()

    def wrong(self, wanted):
        """What a cut may leave that is no copy with these bytes."""
        may_be = self.names()
        if "desk.db" not in may_be | self.sure:
            return
        for name, content in wanted.items():
            if name != "desk.db" and name not in self.sure:
                yield f"desk.db may be there, and {name} not"
            number = self.sure.get(name, may_be.get(name))
            if self.synced.get(number) != content:
                yield f"{name} may be there and not be whole"


class Cuts(Case):
    def setUp(self):
        self.desk, self.place = self.folder() / "desk.db", self.folder()
        self.desk.write_bytes(FILE)
        Path(f"{self.desk}-wal").write_bytes(LOG)
        self.enter(mock.patch.object(copy, "check_opens", lambda *_: None))
        mask = os.umask(0o077)
        self.addCleanup(os.umask, mask)

    @contextmanager
    def watched(self, look):
        """Looks before and after each call that names, removes, writes or syncs something. Gives the calls."""
        calls = []

        def patched(name):
            call = getattr(os, name)

            def step(*words, **more):
                look(None)
                came = call(*words, **more)
                look(words[0] if name == "fsync" else None)
                calls.append(name)
                return came

            return mock.patch.object(os, name, step)

        with ExitStack() as stack:
            for name in "fsync", "link", "unlink", "rename", "replace", "write":
                stack.enter_context(patched(name))
            yield calls

    def copied(self, is_backup, source):
        """Makes a copy, and looks at what each cut may leave of it."""
        disk, wrong = Disk(self.place), []
        wanted = {"desk.db": FILE, "desk.db-wal": LOG}

        def look(synced):
            if synced is not None:
                disk.sync(synced)
            if is_backup and (self.place / PARTS[2]).exists():
                wanted[PARTS[2]] = (self.place / PARTS[2]).read_bytes()
            wrong.extend(disk.wrong(wanted))

        with self.watched(look) as calls:
            copy.copy_to(str(source), str(self.place / "desk.db"), is_backup)
        self.assertEqual(wrong, [])
        self.assertEqual(sorted(disk.sure), sorted(wanted), "what is on the disk once the copy stands")
        self.assertEqual({name: (self.place / name).read_bytes() for name in wanted}, wanted)
        self.assertEqual(calls.count("link"), len(wanted), calls)

    def test_no_cut_of_the_power_leaves_a_backup_without_its_log_and_digests(self):
        self.copied(True, self.desk)

    def test_no_cut_of_the_power_leaves_a_restored_desk_without_its_log(self):
        source = self.folder() / "desk.db"
        copy.copy_to(str(self.desk), str(source), True)
        self.copied(False, source)

    def test_what_comes_to_stand_under_a_name_meanwhile_is_left_and_so_is_nothing_else(self):
        for name in PARTS:
            for make in Path.touch, Path.mkdir, lambda path: path.symlink_to("nothing"):
                with self.subTest(name=name):
                    self.place = self.folder()
                    taken = self.place / name
                    with mock.patch.object(copy, "check_opens", lambda *_, make=make: make(taken)):
                        message = self.refused(lambda: copy.copy_to(str(self.desk), str(self.place / "desk.db"), True))
                    self.assertEqual((message, os.listdir(self.place)), (f"{taken} already exists", [name]))

    def refused(self, does):
        """Why something is refused, or what else comes of it."""
        try:
            does()
        except Refused as refused:
            return str(refused)
        except OSError as error:
            return repr(error)
        return "nothing is said"

    def written_meanwhile(self, write, log=None):
        """The copy of a desk that is written once its file was copied, at the first try."""
        if log is None:
            Path(f"{self.desk}-wal").unlink()
        else:
            Path(f"{self.desk}-wal").write_bytes(log)
        # Long ago, so that a write now changes its time.
        os.utime(self.desk, (1, 1))
        copy_bytes, tries = copy.copy_bytes, []

        def copied(source, target):
            copy_bytes(source, target)
            if source == str(self.desk):
                tries.append(source)
                if len(tries) == 1:
                    write()

        with mock.patch.object(copy, "copy_bytes", copied):
            made = copy.copy_desk(str(self.desk), str(self.place / "copy"))
        self.assertGreaterEqual(made.tries, len(tries))
        self.assertGreater(len(tries), 1, "the copy was not begun again")
        return (self.place / "copy").read_bytes()

    def test_a_desk_with_no_log_that_is_written_while_it_is_copied_is_copied_again(self):
        def write():
            self.desk.write_bytes(FILE[::-1])

        for log in None, b"":
            with self.subTest(log=log):
                self.desk.write_bytes(FILE)
                self.assertEqual(self.written_meanwhile(write, log), FILE[::-1])
                self.assertFalse((self.place / "copy-wal").exists() and log is None)

    def test_a_desk_whose_log_begins_anew_while_it_is_copied_is_copied_again(self):
        def write():
            self.desk.write_bytes(FILE[::-1])
            Path(f"{self.desk}-wal").write_bytes(LOG[::-1])

        self.assertEqual(self.written_meanwhile(write, LOG), FILE[::-1])
        self.assertEqual((self.place / "copy-wal").read_bytes(), LOG[::-1])

    def test_a_copy_that_is_removed_is_no_desk_without_its_log_at_any_moment(self):
        for name in PARTS:
            (self.place / name).write_bytes(b"x")
        wrong = []

        def look(_):
            here = {path.name for path in self.place.iterdir()}
            if "desk.db" in here and len(here) < len(PARTS):
                wrong.append(sorted(here))

        with self.watched(look) as calls:
            DatedCopy(0, str(self.place / "desk.db")).remove()
        self.assertEqual((wrong, os.listdir(self.place)), ([], []))
        self.assertEqual(calls.count("unlink"), len(PARTS))
