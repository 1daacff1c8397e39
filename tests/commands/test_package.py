"""The package that dpkg-buildpackage builds. It is built twice, here and from a copy of the sources, in another folder,
by another account if that is possible, in another language and zone, under another umask, and of files with other
times: the bytes are the same. Each path is compared with a list, with its mode, its owner and its time, and each
file with the sources. Then it is unpacked, and the vote of README.md is run by what lies there. If the machine has
them, `man` shows the pages, bash completes by the script, systemd-analyze verifies the units, and lintian finds
nothing."""
import gzip
import hashlib
import os
import re
import shutil
import stat
from pathlib import Path

from tests.commands.packed import (
    CONTROL,
    DEBIAN,
    DOCS,
    HOME,
    MAINTAINER,
    MOMENT,
    PROGRAM,
    UNITS,
    VERSION,
    Packed,
    git,
    paths_of_data,
    requires_debhelper,
)
from tests.support.case import Case
from tests.support.program import TOP, Ran, runs, tool

# An account that nothing belongs to.
NOBODY = 65534
NAME = f"gr-desk_{VERSION}_amd64.deb"
NAMES = [NAME, f"{NAME}.sha256"]
# The first line of a script in the sources, and in the package. dh_python3 of Debian 13 leaves the option out.
OF_SOURCES = re.compile(rb"\A#!/usr/bin/env (-S )?python3( -B)?\n")
OF_DEBIAN = re.compile(rb"\A#! /usr/bin/python3( -B)?\n")


def copied_tree(work):
    """A clone with the last commit, and with the files as they stand here, but of another day."""
    top = work / "another folder" / "of the sources"
    git("clone", "--no-checkout", "--depth", "1", f"file://{TOP}", str(top))
    shutil.copy(TOP / git("rev-parse", "--git-path", "index").strip(), top / ".git" / "index")
    for name in git("ls-files", "-co", "--exclude-standard", "-z").split("\0"):
        if name and (TOP / name).is_file():
            (top / name).parent.mkdir(parents=True, exist_ok=True)
            shutil.copy(TOP / name, top / name, follow_symlinks=False)
            os.utime(top / name, (86_400, 86_400), follow_symlinks=False)
    program = top / PROGRAM.relative_to(TOP)
    program.parent.mkdir(parents=True)
    shutil.copy(PROGRAM, program)
    return top


def another_account(work, top):
    """Another account, to which the copy is given if it can read that by a Python of its own; otherwise none."""
    account = {"user": NOBODY, "group": NOBODY, "extra_groups": []}
    work.chmod(0o755)
    reads = ["/usr/bin/env", "python3", "-c", "import os, sys; os.listdir(sys.argv[1])", top]
    if os.geteuid() != 0 or runs(reads, env={"PATH": os.defpath}, **account).status != 0:
        return {}
    for path in [top.parent, *top.parent.rglob("*")]:
        os.chown(path, NOBODY, NOBODY, follow_symlinks=False)
    return account


def is_packed(source, packed):
    """Whether a file of the package is the one of the sources, but for the Python that a script names."""
    if OF_SOURCES.match(source):
        return bool(OF_DEBIAN.match(packed)) and packed.partition(b"\n")[2] == source.partition(b"\n")[2]
    return packed == source


def first_in_sources(path):
    """The file of the sources that a path of the package is made from, or None."""
    for place in HOME, DOCS:
        source = TOP / path.removeprefix(f"{place}/")
        if path.startswith(place) and path != f"{HOME}/gr_desk" and source.is_file():
            return source
    return None


class Package(Case):
    """The package, made here and elsewhere, and unpacked. None of it is changed."""

    @classmethod
    def setUpClass(cls):
        requires_debhelper()
        cls.work = cls.shared_folder()
        cls.here = cls.work / "here"
        cls.is_changed = bool(git("status", "--porcelain", "--untracked-files=all"))
        cls.ran_here = tool("package", cls.here)
        cls.top = copied_tree(cls.work)
        cls.account = another_account(cls.work, cls.top)
        cls.there = cls.top.parent / "made"
        path = os.defpath if cls.account else os.environ["PATH"]
        other = {"PATH": path, "TZ": "Asia/Kolkata", "LC_ALL": "C", "COLUMNS": "40"}
        line = [cls.top / "tools" / "gr-desk", "package", cls.there]
        cls.ran_there = runs(line, cwd="/", umask=0o077, env=other, **cls.account)
        cls.packed = Packed(cls.here / NAME)
        cls.files = cls.packed.files.by_path
        cls.root = cls.packed.files.unpacked(cls.work / "root")

    def pages(self):
        return sorted(name for name in self.files if "/man1/" in name)

    def units(self):
        return sorted(name for name in self.files if name.startswith(f"{UNITS}/"))

    def test_the_package_is_made_with_a_file_beside_it(self):
        self.assertEqual(self.ran_here[:2], (0, b"ok\n"))
        self.assertEqual(sorted(path.name for path in self.here.iterdir()), NAMES)

    def test_changes_that_no_commit_has_are_warned_of(self):
        warning = b"warning: the package has what no commit has"
        self.assertEqual(warning in self.ran_here.err, self.is_changed)

    def test_the_same_bytes_are_made_in_another_folder_language_zone_and_umask_of_files_with_other_times(self):
        self.assertEqual(self.ran_there[:2], (0, b"ok\n"))
        self.assertEqual(sorted(path.name for path in self.there.iterdir()), NAMES)
        for name in NAMES:
            with self.subTest(name=name):
                self.assertTrue((self.here / name).read_bytes() == (self.there / name).read_bytes())

    def test_the_same_bytes_are_made_by_another_account(self):
        if not self.account:
            self.skipTest("no other account can read a copy of the sources")
        owner = (self.there / NAME).stat().st_uid
        same = (self.here / NAME).read_bytes() == (self.there / NAME).read_bytes()
        self.assertEqual((owner, same), (NOBODY, True))

    def test_each_file_may_be_read_by_all(self):
        for name in NAMES:
            with self.subTest(name=name):
                self.assertEqual(stat.filemode((self.here / name).stat().st_mode), "-rw-r--r--")

    def test_wrong_words_are_reported(self):
        place = self.folder()
        for words, why in [([], "FOLDER"), (["a", "b"], "there is a word too many: 'b'"), (["--frob"], "'--frob'")]:
            with self.subTest(words=words):
                ran = tool("package", *words, cwd=place)
                self.assertEqual((ran.status, ran.out), (2, b""))
                self.assertIn(why, ran.err.decode())
        self.assertEqual(list(place.iterdir()), [])

    def test_a_program_that_is_older_than_a_source_or_is_not_there_is_not_packed(self):
        place, program = self.folder() / "none", self.top / PROGRAM.relative_to(TOP)
        os.utime(program, (0, 0))
        for why in "the program was not proved from these sources; ./gr_desk does that", "the program is not built":
            with self.subTest(why=why):
                ran = tool("package", place, top=self.top)
                self.assertEqual((ran.status, ran.out), (3, b""))
                self.assertIn(why, ran.err.decode())
            program.unlink(missing_ok=True)
        self.assertFalse(place.exists())

    def test_the_file_beside_it_names_the_toolchain_the_commit_and_the_digests(self):
        toolchain = re.search(r"`(rattle-kit-\w+ logic \w+)`", (TOP / "README.md").read_text())[1]
        changes = ", with changes that no commit has" if self.is_changed else ""
        of_package, of_program = self.packed.sums()
        self.assertEqual((self.here / f"{NAME}.sha256").read_text(), f"""\
# To sign this file: gpg --armor --detach-sign {NAME}.sha256
# To check it: gpg --verify {NAME}.sha256.asc {NAME}.sha256 && sha256sum --check {NAME}.sha256
# The program in this package was proved and built by {toolchain}.
# The sources are those of the commit {git("rev-parse", "HEAD").strip()}{changes}.
# The program, /usr/lib/gr-desk/gr_desk, has the SHA-256 {of_program}.
{of_package}  {NAME}
""")

    def test_sha256sum_checks_the_package_by_the_file_beside_it(self):
        ran = runs(["sha256sum", "--check", "--strict", f"{NAME}.sha256"], cwd=self.here)
        self.assertEqual(ran, Ran(0, f"{NAME}: OK\n".encode(), b""))

    # Reading it back.

    def test_it_is_an_archive_of_three_parts(self):
        self.assertEqual(self.packed.data[:8], b"!<arch>\n")
        self.assertEqual(self.packed.end, len(self.packed.data))
        names = [part.name for part in self.packed.parts]
        self.assertEqual(names, ["debian-binary", "control.tar.xz", "data.tar.xz"])
        self.assertEqual(self.packed.form, b"2.0\n")

    def test_the_head_of_each_part_has_the_time_of_the_version_and_is_of_root(self):
        for part in self.packed.parts:
            with self.subTest(part=part.name):
                moment = str(int(MOMENT.timestamp())).encode()
                self.assertEqual(part.head, [moment, b"0", b"0", b"100644", b"`\n"])

    def test_each_member_is_of_root_and_has_the_time_of_the_version(self):
        expected = 0, 0, "root", "root", int(MOMENT.timestamp())
        for info in [*self.packed.control.members, *self.packed.files.members]:
            about = info.uid, info.gid, info.uname, info.gname, info.mtime
            if about != expected:
                with self.subTest(name=info.name):
                    self.assertEqual(about, expected)

    def test_each_member_is_a_folder_that_all_may_enter_a_file_or_a_link(self):
        members = [*self.packed.control.members, *self.packed.files.members]
        self.assertEqual([info.name for info in members if info.isdir() and info.mode != 0o755], [])
        self.assertEqual([info.name for info in members if not (info.isdir() or info.isfile() or info.issym())], [])

    def test_its_files_and_its_control_files_are_those_of_the_lists(self):
        for archive, expected in (
            (self.packed.control, sorted(CONTROL.splitlines())),
            (self.packed.files, paths_of_data()),
        ):
            lines = archive.lines()
            self.assertEqual(lines, expected)
            self.assertEqual(len(lines), len(set(lines)))

    def test_each_file_is_as_in_the_sources_but_for_the_python_that_a_script_names(self):
        made_from = {path: source for path in self.files if (source := first_in_sources(path))}
        self.assertTrue(made_from)
        for path, source in made_from.items():
            with self.subTest(path=path):
                self.assertTrue(is_packed(source.read_bytes(), self.files[path]))

    def test_the_program_is_as_it_was_built(self):
        self.assertTrue(self.files[f"{HOME}/gr_desk"] == PROGRAM.read_bytes())

    def test_a_unit_names_files_and_pages_of_the_package_alone(self):
        self.assertTrue(self.units())
        for unit in self.units():
            text = self.files[unit].decode()
            names = re.findall(rf"/({HOME}/[\w./-]+)", text)
            names += [f"usr/share/man/man{part}/{page}.{part}.gz"
                      for page, part in re.findall(r"man:(g[\w-]+)\((\d)\)", text)]
            with self.subTest(unit=unit):
                self.assertNotIn("@PREFIX@", text)
                self.assertEqual([name for name in names if name not in self.files], [])

    def test_a_unit_that_serves_or_copies_a_desk_requires_that_it_is_there(self):
        texts = {unit: self.files[unit].decode() for unit in self.units()}
        of_a_desk = [unit for unit, text in texts.items() if re.search(r"^ExecStart=.*desk\.db", text, re.M)]
        self.assertTrue(of_a_desk)
        for unit in of_a_desk:
            with self.subTest(unit=unit):
                self.assertIn("ConditionPathExists=%S/gr_desk/desk.db", texts[unit].splitlines())

    # What it says of itself.

    def fields(self):
        return dict(re.findall(r"^([A-Z][\w-]+): (.*)$", self.packed.control.by_path["control"].decode(), re.M))

    def test_its_fields_are_those_of_the_version_and_its_maintainer_is_always_the_same(self):
        expected = {"Package": "gr-desk", "Version": VERSION, "Architecture": "amd64", "Maintainer": MAINTAINER}
        self.assertEqual({name: self.fields().get(name) for name in expected}, expected)

    def test_it_depends_on_the_c_library_on_python_and_on_what_makes_accounts_alone(self):
        depends = [re.sub(r"libc6 \(>= [0-9.]+\)", "libc6", each) for each in self.fields()["Depends"].split(", ")]
        accounts = "systemd | systemd-standalone-sysusers | systemd-sysusers"
        self.assertEqual(sorted(depends), sorted([accounts, "libc6", "python3:any (>= 3.9~)"]))

    def test_md5sums_has_each_file_but_for_settings(self):
        files = {path: data for path, data in self.files.items() if not path.startswith("etc/")}
        sums = sorted(f"{hashlib.md5(data).hexdigest()}  {path}" for path, data in files.items())
        self.assertEqual(sorted(self.packed.control.by_path["md5sums"].decode().splitlines()), sums)

    def changelog(self):
        return gzip.decompress(self.files[f"{DOCS}/changelog.gz"]).decode()

    def test_the_changelog_begins_with_the_version_and_is_signed_by_the_maintainer(self):
        self.assertEqual(self.changelog(), (DEBIAN / "changelog").read_text())
        self.assertEqual(self.changelog().split("\n")[0], f"gr-desk ({VERSION}) unstable; urgency=medium")
        self.assertIn(f"\n -- {MAINTAINER}  ", self.changelog())

    def test_a_version_that_differs_from_that_of_the_program_ends_the_build(self):
        top = self.folder()
        shutil.copytree(DEBIAN, top / "debian")
        (top / "gr_desk").touch(0o755)
        why = "debian/rules: debian/changelog, VERSION and ./gr_desk --version name different versions\n"
        for program, version, ends in (VERSION, VERSION, False), ("0.9.9", VERSION, True), (VERSION, "0.9.9", True):
            with self.subTest(program=program, version=version):
                (top / "gr_desk").write_text(f"#!/bin/sh\necho gr_desk {program}\necho schema 2\n")
                (top / "VERSION").write_text(f"{version}\n")
                ran = runs(["make", "-f", "debian/rules", "override_dh_auto_build"], cwd=top)
                self.assertEqual((ran.status, why in ran.err.decode()), (2, True) if ends else (0, False), ran)

    def test_the_file_of_rights_says_once_that_no_licence_is_granted(self):
        text = self.files[f"{DOCS}/copyright"].decode()
        self.assertEqual(len(re.findall(r"^ No licence is granted yet\.$", text, re.M)), 1)
        self.assertIn("\nFiles: *\n", text)

    def test_nobody_is_named_but_the_maintainer(self):
        control, rights = self.packed.control.by_path["control"], self.files[f"{DOCS}/copyright"]
        people = set(re.findall(r"[\w.+-]+@[\w.-]+\w", control.decode() + self.changelog() + rights.decode()))
        self.assertEqual(people, set(re.findall(r"<(.*)>", MAINTAINER)))

    def test_the_settings_of_the_desk_are_a_file_that_an_upgrade_leaves_and_has_comments_alone(self):
        self.assertEqual(self.packed.control.by_path["conffiles"], b"/etc/default/gr-desk\n")
        lines = self.files["etc/default/gr-desk"].decode().splitlines()
        self.assertEqual([line for line in lines if line and not line.startswith("#")], [])
        self.assertTrue({"COPY_KEY", "COPY_TO"} <= {line[1:].split("=")[0] for line in lines})

    def test_no_unit_of_the_desk_is_enabled_by_a_preset(self):
        text = self.files["usr/lib/systemd/system-preset/50-gr-desk.preset"].decode()
        rules = [line.split() for line in text.splitlines() if not line.startswith("#")]
        self.assertEqual(rules, [["disable", "gr_desk*"]])

    def test_lintian_finds_no_error_and_no_warning(self):
        if not shutil.which("lintian"):
            self.skipTest("no lintian is there")
        ran = runs(["lintian", "--allow-root", "--fail-on", "error,warning", self.here / NAME])
        self.assertEqual(ran[:2], (0, b""), ran)

    # Using it.

    def test_the_vote_of_readme_comes_to_its_result_by_what_was_unpacked(self):
        if not os.access("/usr/bin/python3", os.X_OK):
            self.skipTest("/usr/bin/python3 is not installed")
        place = self.folder()
        part = re.search(r"^## A whole vote.*?(?=^## )", (TOP / "README.md").read_text(), re.M | re.S)[0]
        steps = "\n".join(re.findall(r"^```$(.*?)^```$", part, re.M | re.S))
        path = os.pathsep.join([str(self.root / "usr" / "bin"), os.defpath])
        environment = {"PATH": path, "HOME": str(place), "LC_ALL": "C.UTF-8"}
        ran = runs(["bash", "-euo", "pipefail", "-c", steps], cwd=place, env=environment)
        self.assertEqual(ran.status, 0, ran.err.decode())
        result = (TOP / "examples" / "votes" / "whole_vote.result").read_text()
        self.assertIn(result, ran.out.decode())

    def test_a_recount_runs_by_what_was_unpacked(self):
        if not os.access("/usr/bin/python3", os.X_OK):
            self.skipTest("/usr/bin/python3 is not installed")
        sheets = (self.root / DOCS / "examples" / "votes" / f"whole_vote.{kind}" for kind in ("tally", "result"))
        ran = runs([self.root / "usr" / "bin" / "gr-desk", "recount", *sheets])
        self.assertEqual(ran.status, 0, ran.err.decode())
        self.assertTrue(ran.out.decode().endswith("the result follows from the tally\n"), ran)

    def test_man_shows_each_page_without_a_warning(self):
        if not shutil.which("man"):
            self.skipTest("man is not installed")
        self.assertTrue(self.pages())
        environment = os.environ | {"LC_ALL": "C.UTF-8", "MANWIDTH": "100"}
        for name in self.pages():
            with self.subTest(name=name):
                ran = runs(["man", "--warnings", "-l", self.root / name], env=environment)
                self.assertEqual((ran.status, ran.err), (0, b""))

    def test_bash_completes_words(self):
        if not shutil.which("bash"):
            self.skipTest("bash is not installed")
        script = self.root / "usr/share/bash-completion/completions/gr-desk"
        call = '. "$1"; COMP_WORDS=(gr-desk mig); COMP_CWORD=1; _gr_desk; echo "${COMPREPLY[@]}"'
        self.assertEqual(runs(["bash", "-c", call, "bash", script]), Ran(0, b"migrate\n", b""))

    def test_the_units_pass_systemd_analyze_but_for_where_what_they_run_lies(self):
        if not shutil.which("systemd-analyze"):
            self.skipTest("systemd-analyze is not installed")
        place = self.folder()
        for name in self.units():
            text = (self.root / name).read_text().replace(f"/{HOME}/", f"{self.root}/{HOME}/")
            (place / Path(name).name).write_text(text)
        ran = runs(["systemd-analyze", "--man=no", "verify", *place.iterdir()])
        ours = [line for line in (ran.out + ran.err).decode().split("\n") if "gr_desk" in line]
        self.assertEqual((ran.status, ours), (0, []))
