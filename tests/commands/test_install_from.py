"""gr-desk install from a tree of sources whose path has blanks, into a folder whose name has them too, from files that
their owner alone may read, and under a umask that lets nobody else read: what is installed is whole, and all may read
and run it. Another program stands in the place of the desk's, since install only looks at its help."""
import shutil
import stat

from tests.commands.installed_names import NAMED
from tests.commands.packed import PROGRAM, git
from tests.support.case import Case
from tests.support.one_developer import OK
from tests.support.program import TOP, compile_tools, runs

HELP = """\
#!/bin/sh
cat <<'END'
A voting desk.

Usage: gr_desk [COMMAND]

Commands:
  init  Makes a desk
  help  Prints this
END
"""


def copied_tree(top):
    """The sources as they stand here, but for the crates, in another folder, with a program that is newer than they
    are. As after a checkout under a narrow umask, nobody but their owner may read them."""
    for name in git("ls-files", "-co", "--exclude-standard", "-z").split("\0"):
        if name and not name.startswith("crates/") and (TOP / name).is_file():
            (top / name).parent.mkdir(parents=True, exist_ok=True)
            shutil.copy2(TOP / name, top / name)
            (top / name).chmod((TOP / name).stat().st_mode & 0o700)
    program = top / PROGRAM.relative_to(TOP)
    program.parent.mkdir(parents=True)
    program.write_text(HELP)
    program.chmod(0o755)
    return top


class TreeWithBlanks(Case):
    @classmethod
    def setUpClass(cls):
        compile_tools()
        cls.work = cls.shared_folder()
        cls.top = copied_tree(cls.work / "sources  of a * desk")
        cls.place = cls.work / "for  a vote"
        cls.ran = runs([cls.top / "tools" / "gr-desk", "install", cls.place], cwd=cls.work, umask=0o077)

    def test_it_is_installed(self):
        self.assertEqual(self.ran.err.decode(), "")
        self.assertEqual(self.ran, OK)

    def test_each_file_is_as_in_the_sources(self):
        self.assertGreater(len(NAMED), 50)
        for name in NAMED:
            with self.subTest(name=name):
                self.assertTrue((self.place / name).is_file(), "it is not there")
                self.assertEqual((self.place / name).read_bytes(), (TOP / name).read_bytes())
        self.assertEqual((self.place / "gr_desk").read_text(), HELP)

    def test_all_may_read_what_is_there_and_enter_its_folders_whatever_the_umask(self):
        found = [each for each in self.place.rglob("*") if not each.is_symlink()]
        self.assertTrue(found)
        wrong = {}
        for path in [self.place, *found]:
            mode = stat.filemode(path.stat().st_mode)
            if mode not in (["drwxr-xr-x"] if path.is_dir() else ["-rw-r--r--", "-rwxr-xr-x"]):
                wrong[str(path.relative_to(self.place))] = mode
        self.assertEqual(wrong, {})

    def test_what_is_to_be_run_may_be_run_by_all(self):
        for name in "gr_desk", "tools/gr-desk", "examples/recount":
            with self.subTest(name=name):
                self.assertEqual(stat.filemode((self.place / name).stat().st_mode), "-rwxr-xr-x")
        self.assertEqual(stat.filemode((self.place / "tools" / "grdesk" / "output.py").stat().st_mode), "-rw-r--r--")

    def test_units_name_the_folder_with_its_blanks(self):
        text = (self.place / "systemd" / "gr_desk.service").read_text()
        self.assertIn(f'"{self.place}/gr_desk"', text)
        self.assertNotIn("@PREFIX@", text)

    def test_nothing_is_left_in_the_folder_from_which_it_was_called(self):
        self.assertEqual(sorted(each.name for each in self.work.iterdir()), ["for  a vote", "sources  of a * desk"])
