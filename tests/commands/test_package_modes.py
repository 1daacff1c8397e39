"""The modes of the files that tools/grdesk/commands/package.py writes: all may read them, whatever the caller's umask.
What they hold is made up here, so that nothing has to be built."""
import stat
from types import SimpleNamespace
from unittest import mock

from tests.support.case import Case
from tests.support.in_process import loaded, said, under_umask

package = loaded("package")
NAMES = "gr-desk_1.2.3_amd64.deb", "gr-desk_1.2.3_amd64.deb.sha256"


class Modes(Case):
    def make(self, folder, mask, content=b"whole"):
        """Makes the package in a folder under this umask."""
        stubs = {
            "built": lambda _: (NAMES[0], content), "beside": lambda *_: content.decode(), "say": lambda _: None,
        }
        with mock.patch.multiple(package, **stubs), under_umask(mask), said():
            return package.run(SimpleNamespace(folder=str(folder)))

    def found_in(self, folder):
        return {each.name: (stat.filemode(each.stat().st_mode), each.read_bytes()) for each in folder.iterdir()}

    def test_a_file_may_be_read_by_all_and_written_by_its_owner_whatever_the_umask(self):
        for mask in 0o000, 0o022, 0o077, 0o177:
            with self.subTest(umask=oct(mask)):
                folder = self.folder()
                self.assertEqual(self.make(folder, mask), 0)
                self.assertEqual(self.found_in(folder), {name: ("-rw-r--r--", b"whole") for name in NAMES})

    def test_files_that_were_there_are_replaced_with_their_modes_and_nothing_is_left_beside_them(self):
        folder = self.folder()
        for name in NAMES:
            (folder / name).write_bytes(b"old")
            (folder / name).chmod(0o600)
        self.make(folder, 0o077, b"new")
        self.assertEqual(self.found_in(folder), {name: ("-rw-r--r--", b"new") for name in NAMES})

    def test_a_file_that_cannot_have_its_name_leaves_nothing_beside_it(self):
        folder = self.folder()
        (folder / NAMES[0] / "in the way").mkdir(parents=True)
        with self.assertRaises(OSError):
            self.make(folder, 0o022)
        self.assertEqual([each.name for each in folder.iterdir()], [NAMES[0]])
