"""What lies here, in the sources or in a folder in which the desk is installed: its commands, and the files that are
laid down elsewhere."""
import os
import re
from pathlib import Path

# The folder that has tools/ and gr_desk.
TOP = Path(__file__).resolve().parents[2]
PACKAGE = TOP / "tools" / "grdesk"

# Commands for the sources alone, and the room that they use. They are not installed.
FOR_SOURCES = "install", "manual", "package"
# The examples that a voter or a reader of a published vote runs, and the pages that are laid down.
EXAMPLES = "check_receipt", "recount"
PAGES = "CHANGELOG.md", "README.md", "docs/formats.md", "docs/result.png", "docs/rules.md", "docs/service.md"

NAME = re.compile("[a-z][a-z_]*")


def commands():
    """The file of each command that is here, by its name."""
    return {path.stem: path for path in (PACKAGE / "commands").glob("*.py") if NAME.fullmatch(path.stem)}


def examples():
    """The examples that are run as a command is, by their names."""
    found = (path for path in (TOP / "examples").iterdir() if NAME.fullmatch(path.name))
    return {path.name: path for path in found if path.is_file() and os.access(path, os.X_OK)}


def laid_down():
    """The file of each command and example that is installed elsewhere too, by its name."""
    found = {name: path for name, path in commands().items() if name not in FOR_SOURCES}
    return found | {name: path for name, path in examples().items() if name in EXAMPLES}


def files():
    """What is laid down as it is here, beside the program: paths from the top of the sources."""
    kept = [path for path in PACKAGE.rglob("*.py") if path not in for_sources()]
    run = [TOP / "tools" / "gr-desk", *kept, *(TOP / "examples" / name for name in EXAMPLES)]
    return [*sorted(path.relative_to(TOP).as_posix() for path in run), *PAGES]


def for_sources():
    """The files of the package that are not laid down."""
    return {*(PACKAGE / "package").rglob("*.py"), *(PACKAGE / "commands" / f"{name}.py" for name in FOR_SOURCES)}
