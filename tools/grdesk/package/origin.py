"""What a package was made from: the text of the file beside it."""
import hashlib
import re

from grdesk.desk.program import BUILT
from grdesk.inventory import TOP
from grdesk.output import note
from grdesk.package.commit import changed_since, last_commit
from grdesk.error import Failed

TOOLCHAIN = re.compile("`(rattle-kit-[a-z0-9]+ logic [0-9a-f]+)`")


def toolchain():
    """The toolchain by which the program is proved, as README.md names it."""
    found = TOOLCHAIN.search((TOP / "README.md").read_text())
    if not found:
        raise Failed("README.md does not name the toolchain")
    return found[1]


def sources():
    """Which sources these are. Files that differ from the commit are warned of."""
    found = last_commit()
    if not found:
        return "The sources are of no commit that git knows of."
    if changed := changed_since():
        note(f"warning: the package has what no commit has, as {changed[0]}")
        return f"The sources are those of the commit {found.digits}, with changes that no commit has."
    return f"The sources are those of the commit {found.digits}."


def beside(name, deb):
    """The text of the file beside the package. `sha256sum` passes over its first lines."""
    return f"""\
# To sign this file: gpg --armor --detach-sign {name}.sha256
# To check it: gpg --verify {name}.sha256.asc {name}.sha256 && sha256sum --check {name}.sha256
# The program in this package was proved and built by {toolchain()}.
# {sources()}
# The program, /usr/lib/gr-desk/gr_desk, has the SHA-256 {hashlib.sha256(BUILT.read_bytes()).hexdigest()}.
{hashlib.sha256(deb).hexdigest()}  {name}
"""
