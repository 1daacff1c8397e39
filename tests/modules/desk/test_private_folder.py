"""Where tools make private copies of a desk: in $XDG_RUNTIME_DIR if that is this account's alone and has room, and
otherwise in a folder of mode 0700 below $TMPDIR, which is refused if it is a link, another account's or open to others.
What a killed tool left there, or beside a desk, is reported by the next one and left as it is; what a tool that runs
has is not."""
import os
import signal
import stat
import subprocess
import sys
import tempfile
from unittest import mock

from tests.support.case import Case
from tests.support.program import PATIENCE, TOP

TOOLS = str(TOP / "tools")
sys.path.insert(0, TOOLS)
from grdesk.desk import private_folder as private_places  # noqa: E402
from grdesk.desk.private_folder import private_folder  # noqa: E402
from grdesk.error import Refused  # noqa: E402

STRANGER = 54_321
# More bytes than any disk has.
TOO_MANY = 1 << 62

# A tool that makes a private folder, beside something or not, puts a copy there, and waits until it is ended.
TOOL = f"""
import sys, time
sys.path.insert(0, {TOOLS!r})
from grdesk.desk.private_folder import private_folder
with private_folder(sys.argv[1] or None, 1) as folder:
    if sys.argv[2]:
        (folder / "desk").write_bytes(b"the ballots")
    print(folder, flush=True)
    time.sleep({PATIENCE})
"""


class PrivatePlaces(Case):
    def setUp(self):
        self.runtime, self.temporary = self.folder() / "runtime", self.folder() / "temporary"
        for folder in self.runtime, self.temporary:
            folder.mkdir(mode=0o700)
        self.below = self.temporary / f"gr-desk-{os.geteuid()}"
        environment = {"XDG_RUNTIME_DIR": str(self.runtime), "TMPDIR": str(self.temporary)}
        self.enter(mock.patch.dict(os.environ, environment))
        # Python looks for the folder of temporary files once.
        self.enter(mock.patch.object(tempfile, "tempdir", None))
        self.said = []
        self.enter(mock.patch("grdesk.desk.private_folder.note", self.said.append))
        mask = os.umask(0o022)
        self.addCleanup(os.umask, mask)

    def made_in(self, beside=None, room=1):
        """The folder in which a private one is made. That is private, and gone afterwards."""
        with private_folder(beside, room) as folder:
            about = folder.stat()
            self.assertEqual((stat.filemode(about.st_mode), about.st_uid), ("drwx------", os.geteuid()))
        self.assertFalse(folder.exists())
        return folder.parent

    def refused(self):
        with self.assertRaises(Refused) as raised:
            self.made_in(room=TOO_MANY)
        return str(raised.exception)


class Places(PrivatePlaces):
    def test_copies_lie_in_the_runtime_folder_of_the_account(self):
        self.assertEqual(self.made_in(), self.runtime)
        self.assertEqual(os.listdir(self.temporary), [])

    def test_without_room_there_they_lie_in_a_folder_of_the_account_below_the_temporary_one(self):
        for _ in range(2):
            self.assertEqual(self.made_in(room=TOO_MANY), self.below)
            self.assertEqual(stat.filemode(self.below.stat().st_mode), "drwx------")

    def test_a_runtime_folder_that_is_open_a_link_relative_or_not_there_is_passed_over(self):
        link = self.temporary / "link"
        link.symlink_to(self.runtime)
        relative = os.path.relpath(self.runtime)
        for name in "", "/none", str(link), f"{link}/", relative, str(TOP / "README.md"):
            with self.subTest(name=name), mock.patch.dict(os.environ, {"XDG_RUNTIME_DIR": name}):
                self.assertEqual(self.made_in(), self.below)
        for mode in 0o755, 0o710, 0o701, 0o500:
            with self.subTest(mode=oct(mode)):
                self.runtime.chmod(mode)
                self.assertEqual(self.made_in(), self.below)

    def test_a_runtime_folder_of_another_account_is_passed_over(self):
        if os.geteuid() != 0:
            self.skipTest("only root can give a folder to another account")
        os.chown(self.runtime, STRANGER, -1)
        self.assertEqual(self.made_in(), self.below)

    def test_a_folder_for_copies_that_is_open_to_others_is_refused_by_name_with_what_to_do(self):
        self.below.mkdir(mode=0o755)
        said = f"no private copy of a desk can be made: {self.below} may be entered by other accounts"
        self.assertEqual(self.refused(), f"{said}: chmod 700 {self.below}")
        self.assertEqual(os.listdir(self.below), [])
        self.below.chmod(0o700)
        self.assertEqual(self.made_in(room=TOO_MANY), self.below)

    def test_a_link_or_a_file_in_its_place_is_refused(self):
        elsewhere = self.folder()
        for make in lambda: self.below.symlink_to(elsewhere), self.below.touch:
            make()
            said = f"no private copy of a desk can be made: {self.below} is no folder"
            self.assertEqual(self.refused(), f"{said}: remove it, or set TMPDIR to a folder of your own")
            self.below.unlink()
        self.assertEqual(os.listdir(elsewhere), [])

    def test_a_folder_of_another_account_in_its_place_is_refused(self):
        if os.geteuid() != 0:
            self.skipTest("only root can give a folder to another account")
        self.below.mkdir(mode=0o700)
        os.chown(self.below, STRANGER, -1)
        said = f"no private copy of a desk can be made: {self.below} belongs to another account"
        self.assertEqual(self.refused(), f"{said}: remove it, or set TMPDIR to a folder of your own")


class Killed(PrivatePlaces):
    """Folders of a tool that runs, or was killed."""

    def running(self, beside="", copies="yes"):
        """A tool that has made its folder, and that folder."""
        line = [sys.executable, "-B", "-c", TOOL, str(beside), copies]
        process = subprocess.Popen(line, stdout=subprocess.PIPE, stderr=subprocess.DEVNULL, text=True)
        self.addCleanup(process.stdout.close)
        self.addCleanup(process.wait, PATIENCE)
        self.addCleanup(process.kill)
        return process, process.stdout.readline().strip()

    def killed(self, *words):
        process, folder = self.running(*words)
        process.send_signal(signal.SIGKILL)
        process.wait(PATIENCE)
        return folder

    def warning(self, folder):
        said = f"warning: {folder} was left by a tool that was killed, and has a copy of a desk, with all ballots"
        return f"{said}: rm -r {folder}"

    def test_the_next_tool_reports_what_a_killed_one_left_and_leaves_it(self):
        folder = self.killed()
        for _ in range(2):
            self.said.clear()
            with mock.patch.object(private_places, "REPORTED", set()):
                self.made_in()
                # A tool may make many such folders, and says it once.
                self.made_in()
            self.assertEqual(self.said, [self.warning(folder)])
            self.assertEqual(os.listdir(folder), ["desk"])

    def test_what_was_left_beside_a_desk_is_reported_beside_that_desk_alone(self):
        place = self.folder()
        folder = self.killed(place)
        self.made_in()
        self.assertEqual(self.said, [])
        self.made_in(str(place))
        self.assertEqual(self.said, [self.warning(folder)])

    def test_the_folder_of_a_tool_that_runs_is_not_reported(self):
        self.running()
        self.made_in()
        self.assertEqual(self.said, [])

    def test_a_folder_that_has_nothing_is_not_reported(self):
        self.killed("", "")
        self.made_in()
        self.assertEqual(self.said, [])

    def test_what_has_a_name_like_those_and_is_none_is_not_reported_and_holds_nothing_up(self):
        full = self.folder()
        (full / "desk").touch()
        (self.runtime / ".desk-linked00").symlink_to(full)
        os.mkfifo(self.runtime / ".desk-fifo0000")
        (self.runtime / ".desk-file0000").touch()
        for name in ".desk-\033[2Jabcd", ".desk-a\nb", ".desk-0000", "desk-00000000":
            (self.runtime / name).mkdir()
            (self.runtime / name / "desk").touch()
        self.made_in()
        self.assertEqual(self.said, [])
