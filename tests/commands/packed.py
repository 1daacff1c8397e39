"""A package as it is read back, and what must be in it."""
import hashlib
import io
import re
import shutil
import stat
import subprocess
import tarfile
import unittest
from email.utils import parsedate_to_datetime
from pathlib import Path
from typing import NamedTuple

from tests.commands.installed_names import COMMAND_NAMES, MODULES, READ, RUN
from tests.support.program import TOP

VERSION = (TOP / "VERSION").read_text().strip()
HOME = "usr/lib/gr-desk"
DOCS = "usr/share/doc/gr-desk"
UNITS = "usr/lib/systemd/system"
PROGRAM = TOP / "crates" / "gr_main" / "out" / "gr_main"
DEBIAN = TOP / "debian"
MAINTAINER = "Zephyrplum maintainers <maintainers@users.noreply.zephyrplum.example>"
# The time of the version, which all that is packed has.
MOMENT = parsedate_to_datetime(re.search(r"^ -- .*>  (.*)$", (DEBIAN / "changelog").read_text(), re.M)[1])

# What is there whatever tools and units there are: the mode, the path, and of a link where it leads.
FIXED = """\
-rw-r--r-- etc/default/gr-desk
-rwxr-xr-x usr/lib/gr-desk/gr_desk
-rw-r--r-- usr/lib/systemd/system-preset/50-gr-desk.preset
lrwxrwxrwx usr/bin/gr-desk ../lib/gr-desk/tools/gr-desk
-rw-r--r-- usr/lib/sysusers.d/gr-desk.conf
-rw-r--r-- usr/lib/tmpfiles.d/gr-desk.conf
-rw-r--r-- usr/share/bash-completion/completions/gr-desk
-rw-r--r-- usr/share/doc/gr-desk/changelog.gz
-rw-r--r-- usr/share/doc/gr-desk/copyright
lrwxrwxrwx usr/share/doc/gr-desk/examples/check_receipt ../../../../lib/gr-desk/examples/check_receipt
lrwxrwxrwx usr/share/doc/gr-desk/examples/recount ../../../../lib/gr-desk/examples/recount
-rwxr-xr-x usr/share/doc/gr-desk/examples/whole_vote
-rw-r--r-- usr/share/lintian/overrides/gr-desk
-rw-r--r-- usr/share/man/man1/gr-desk.1.gz
-rw-r--r-- usr/share/man/man1/gr_desk.1.gz
-rwxr-xr-x usr/share/python3/runtime.d/gr-desk.rtupdate
"""
CONTROL = """\
-rw-r--r-- conffiles
-rw-r--r-- control
-rw-r--r-- md5sums
-rwxr-xr-x postinst
-rwxr-xr-x postrm
-rwxr-xr-x preinst
-rwxr-xr-x prerm
"""


def git(*words, top=TOP):
    return subprocess.run(["git", "-C", top, *words], check=True, capture_output=True, text=True).stdout


def requires_debhelper():
    """Skips tests that build the package if the machine cannot."""
    if not shutil.which("dpkg-checkbuilddeps"):
        raise unittest.SkipTest("dpkg-dev is not there to build the package")
    ran = subprocess.run(["dpkg-checkbuilddeps"], cwd=TOP, capture_output=True, text=True, check=False)
    if ran.returncode != 0:
        raise unittest.SkipTest(f"the package cannot be built here: {ran.stderr.strip()}")


def paths_of_data():
    """A line for each path that the package is to install."""
    lines = [f"-rw-r--r-- {HOME}/{name}" for name in MODULES] + [f"-rwxr-xr-x {HOME}/{name}" for name in RUN]
    lines += [f"-rw-r--r-- usr/share/man/man1/gr-desk-{name}.1.gz" for name in COMMAND_NAMES]
    plain = [*READ, *git("ls-files", "examples/votes").splitlines()]
    units = [Path(name).name for name in git("ls-files", "tools/units").splitlines()]
    lines += [f"-rw-r--r-- {DOCS}/{name}" for name in plain] + [f"-rw-r--r-- {UNITS}/{name}" for name in units]
    return sorted(lines + FIXED.splitlines())


class Part(NamedTuple):
    """A part of an archive of ar: its name, the fields of its head, and its bytes."""

    name: str
    head: list
    data: bytes


class Packed:
    """A package: its parts, and the members of its two archives."""

    def __init__(self, path):
        self.path = path
        self.data = path.read_bytes()
        self.parts = list(self.parts_in())
        by_name = {part.name: part.data for part in self.parts}
        self.form = by_name["debian-binary"]
        self.control, self.files = (Archive(by_name[name]) for name in ("control.tar.xz", "data.tar.xz"))

    def parts_in(self):
        place = 8
        while place < len(self.data):
            head = self.data[place : place + 60]
            length = int(head[48:58])
            data = self.data[place + 60 : place + 60 + length]
            yield Part(head[:16].decode().rstrip(), head[16:48].split() + [head[58:]], data)
            place += 60 + length + length % 2
        self.end = place

    def sums(self):
        """The SHA-256 of the package and of the program."""
        return [hashlib.sha256(data).hexdigest() for data in (self.data, PROGRAM.read_bytes())]


class Archive:
    """The members of an archive, and the bytes of each file by its path."""

    def __init__(self, data):
        self.data = data
        with self.opened() as archive:
            self.members = archive.getmembers()
            self.by_path = {
                each.name.removeprefix("./"): archive.extractfile(each).read() for each in archive if each.isfile()
            }

    def opened(self):
        return tarfile.open(fileobj=io.BytesIO(self.data), mode="r:xz")

    def unpacked(self, root):
        root.mkdir()
        with self.opened() as archive:
            archive.extractall(root)
        return root

    def lines(self):
        """A line for each member but folders: its mode, its path, and of a link where it leads."""
        found = []
        for info in self.members:
            if not info.isdir():
                kind = stat.S_IFLNK if info.issym() else stat.S_IFREG
                link = f" {info.linkname}" if info.issym() else ""
                found.append(f"{stat.filemode(info.mode | kind)} {info.name.removeprefix('./')}{link}")
        return sorted(found)
