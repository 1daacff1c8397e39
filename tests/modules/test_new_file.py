"""How tools make a file in a folder into which others may have put something: anew, with its mode from the beginning,
and nowhere else. What stands under its names is replaced, and a link is not followed. An error has the path of the
file, also one of a full disk. Whether the folder is one in which all is published is judged by who owns it and who can
write into it."""
import os
import resource
import stat
import sys
from contextlib import contextmanager

from tests.support.case import Case
from tests.support.program import TOP

sys.path.insert(0, str(TOP / "tools"))
from grdesk.error import Refused  # noqa: E402
from grdesk.new_file import Folder, Readers, check_shared, check_unshared, make_folder, new_file  # noqa: E402

TEXT, SECRET = b"for all\n", b"the ballots\n"
TOLD, WHY = "nothing was written", "where all is published"
# No account of these tests.
STRANGER = 54_321
# How many bytes a file may have on a disk that is full.
FULL = 1_000


@contextmanager
def umask(mask):
    before = os.umask(mask)
    try:
        yield
    finally:
        os.umask(before)


@contextmanager
def full_disk():
    """No file may have more than so many bytes meanwhile, as on a disk that is full. Python gets an error for it."""
    soft, hard = resource.getrlimit(resource.RLIMIT_FSIZE)
    resource.setrlimit(resource.RLIMIT_FSIZE, (FULL, hard))
    try:
        yield
    finally:
        resource.setrlimit(resource.RLIMIT_FSIZE, (soft, hard))


def mode_of(path):
    return stat.filemode(os.lstat(path).st_mode)


class NewFiles(Case):
    def setUp(self):
        self.work = self.folder()
        self.secret = self.work / "secret"
        self.secret.write_bytes(SECRET)
        self.secret.chmod(0o600)
        self.place = self.work / "public"
        self.place.mkdir()

    def is_untouched(self):
        self.assertEqual((self.secret.read_bytes(), mode_of(self.secret)), (SECRET, "-rw-------"))

    def put(self, readers=Readers.ALL):
        with Folder(str(self.place), readers) as folder:
            folder.put("index.html", TEXT)

    def test_nothing_is_written_through_a_link_under_a_name_of_the_file(self):
        for name in "index.html", "index.html.new":
            for make in os.symlink, os.link:
                with self.subTest(name=name, make=make.__name__):
                    (self.place / name).unlink(missing_ok=True)
                    make(self.secret, self.place / name)
                    self.put()
                    self.is_untouched()
                    self.assertEqual(mode_of(self.place / "index.html"), "-rw-r--r--")
                    self.assertEqual([path.read_bytes() for path in self.place.iterdir()], [TEXT])

    def test_a_link_that_comes_after_the_look_is_not_followed_either(self):
        with Folder(str(self.place)) as folder:
            folder.remove = lambda name: os.symlink(self.secret, self.place / name)
            with self.assertRaises(FileExistsError):
                folder.make("index.html.new")
        self.is_untouched()

    def test_a_file_and_a_folder_have_their_modes_whatever_the_umask(self):
        owners = "-rw-------", "drwx------"
        for readers, modes in (Readers.ALL, ("-rw-r--r--", "drwxr-xr-x")), (Readers.OWNER, owners):
            for mask in 0, 0o077:
                with self.subTest(readers=readers, umask=oct(mask)), umask(mask):
                    self.place = self.folder() / "above" / "made"
                    make_folder(str(self.place), readers)
                    self.put(readers)
                    self.assertEqual((mode_of(self.place / "index.html"), mode_of(self.place)), modes)
                    self.assertEqual(mode_of(self.place.parent), modes[1])

    def test_a_folder_by_a_link_is_not_opened_with_or_without_a_slash_at_its_end(self):
        (self.work / "link").symlink_to(self.place)
        for name in "link", "link/":
            with self.subTest(name=name), self.assertRaises(OSError) as raised:
                Folder(f"{self.work}/{name}")
            self.assertEqual(raised.exception.filename, f"{self.work}/{name}")
            self.assertEqual(raised.exception.strerror, "it is a link, and no link is followed: name the folder itself")

    def test_what_is_no_folder_is_not_called_a_link(self):
        with self.assertRaises(NotADirectoryError) as raised:
            Folder(str(self.secret))
        self.assertEqual(raised.exception.strerror, "Not a directory")

    def test_a_folder_that_is_moved_away_gets_the_file_and_not_what_has_its_name(self):
        with Folder(str(self.place)) as folder:
            self.place.rename(self.work / "moved")
            self.place.symlink_to(self.folder())
            folder.put("index.html", TEXT)
        self.assertEqual((self.work / "moved" / "index.html").read_bytes(), TEXT)
        self.assertEqual(os.listdir(self.place), [])

    def test_an_error_has_the_path_of_the_file_and_leaves_nothing_and_what_was_there_before(self):
        self.put()
        with Folder(str(self.place)) as folder, full_disk(), self.assertRaises(OSError) as raised:
            folder.put("index.html", b"x" * 2 * FULL)
        self.assertEqual(raised.exception.filename, str(self.place / "index.html"))
        self.assertEqual([path.read_bytes() for path in self.place.iterdir()], [TEXT])

    def test_a_folder_in_the_place_of_a_file_is_an_error_with_its_path(self):
        (self.place / "index.html").mkdir()
        with self.assertRaises(IsADirectoryError) as raised:
            self.put()
        self.assertEqual(raised.exception.filename, str(self.place / "index.html"))

    def test_a_new_file_takes_the_place_of_a_link_and_is_its_owners_alone(self):
        path = self.place / "desk"
        path.symlink_to(self.secret)
        with umask(0), new_file(str(path)) as file:
            file.write(TEXT)
        self.is_untouched()
        self.assertEqual((path.read_bytes(), mode_of(path)), (TEXT, "-rw-------"))


class Owners(Case):
    """Which folders are taken to be published, or to have copies of a desk."""

    def setUp(self):
        self.place = self.folder() / "a folder"
        self.place.mkdir()

    def why(self, check, *words):
        """Why the folder is refused, or None."""
        try:
            with Folder(str(self.place)) as folder:
                check(folder, *words)
        except Refused as refused:
            return str(refused)
        return None

    def test_a_folder_into_which_others_can_write_is_not_published_from_and_it_is_said_what_to_do(self):
        said = f"{TOLD}: other accounts can write into {self.place}, {WHY}: chmod go-w '{self.place}'"
        for mode, why in (0o755, None), (0o700, None), (0o775, said), (0o757, said), (0o1777, said), (0o720, said):
            with self.subTest(mode=oct(mode)):
                self.place.chmod(mode)
                self.assertEqual(self.why(check_unshared, TOLD, WHY), why)

    def test_copies_are_not_put_where_all_accounts_can_take_each_others_files_away(self):
        for mode, is_refused in (0o755, False), (0o775, False), (0o1777, False), (0o777, True), (0o757, True):
            with self.subTest(mode=oct(mode)):
                self.place.chmod(mode)
                said = self.why(check_shared) or ""
                self.assertEqual(said.endswith(f": chmod o-w '{self.place}'"), is_refused, said)

    def test_a_folder_of_another_account_is_not_published_from(self):
        if os.geteuid() != 0:
            self.skipTest("only root can give a folder to another account")
        os.chown(self.place, STRANGER, -1)
        why = f"{TOLD}: {self.place} belongs to another account, {WHY}: name a folder of your own"
        self.assertEqual(self.why(check_unshared, TOLD, WHY), why)
