"""Build the Debian package, and say beside it what it was made from"""
import os
import shutil
import subprocess
import sys
import tempfile
from pathlib import Path

from grdesk.desk.program import BUILT, newer_source, program
from grdesk.error import Failed
from grdesk.interruption import undisturbed
from grdesk.inventory import TOP
from grdesk.new_file import Folder, Readers
from grdesk.output import say
from grdesk.package.origin import beside
from grdesk.parser import Parser

# What stays behind when the sources are copied. Of all that was built, the program alone is taken along.
LEFT = shutil.ignore_patterns(".git", "out", "__pycache__")


def built(top):
    """The package, as dpkg-buildpackage makes it of a copy of the sources."""
    if newer_source(program().stat().st_mtime):
        raise Failed("the program was not proved from these sources; ./gr_desk does that")
    shutil.copytree(TOP, top, symlinks=True, ignore=LEFT)
    (top / BUILT.relative_to(TOP)).parent.mkdir(parents=True)
    shutil.copy2(BUILT, top / BUILT.relative_to(TOP))
    try:
        ran = subprocess.run(["dpkg-buildpackage", "-us", "-uc", "-b"], cwd=top, stdout=sys.stderr, check=False)
    except FileNotFoundError:
        raise Failed("dpkg-buildpackage is missing; apt install build-essential debhelper dh-python") from None
    if ran.returncode != 0:
        raise Failed(f"dpkg-buildpackage ended with status {ran.returncode}; the lines above say why")
    [deb] = top.parent.glob("*.deb")
    return deb.name, deb.read_bytes()


def run(arguments):
    folder = Path(arguments.folder)
    with tempfile.TemporaryDirectory() as work:
        name, deb = built(Path(work) / "gr-desk")
    text = beside(name, deb)
    folder.mkdir(parents=True, exist_ok=True)
    with undisturbed(), Folder(os.path.realpath(folder), Readers.ALL) as place:
        place.put(name, deb)
        place.put(f"{name}.sha256", text.encode())
    say(b"ok\n")
    return 0


def parser():
    command = Parser(
        "package",
        __doc__,
        ["FOLDER"],
        examples=["gr-desk package /tmp/packages"],
        statuses=[(0, "made"), (2, "wrong arguments"), (3, "failed; a line says why")],
    )
    command.add_argument("folder", metavar="FOLDER", help="gets the package, and a file with its SHA-256")
    return command
