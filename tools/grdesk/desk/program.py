"""The program as it stands. The tools run it, and never build it."""
import os
from functools import lru_cache
from pathlib import Path

from grdesk.error import Failed
from grdesk.inventory import TOP
from grdesk.output import note

# Where the sources have it. A folder that gr-desk install made has it under the name gr_desk, and no sources.
BUILT = TOP / "crates" / "gr_main" / "out" / "gr_main"
# The sources that are known by their names alone.
SOURCES = "crates.txt", "HANDLES"


def newer_source(than):
    """A source of the program that is newer than this moment, by the rule of ./gr_desk, or None."""
    alone = (TOP / name for name in SOURCES)
    found = (path for path in alone if path.stat().st_mtime > than)
    return next(found, None) or newer_below(TOP / "crates", than)


def newer_below(folder, than):
    with os.scandir(folder) as entries:
        for entry in sorted(entries, key=lambda each: each.name):
            if entry.is_dir():
                # The crates of tests are no part of it.
                if entry.name == "out" or entry.name.endswith("_tests"):
                    continue
                if found := newer_below(entry.path, than):
                    return found
            elif is_source(entry.name) and entry.stat().st_mtime > than:
                return Path(entry.path)
    return None


def is_source(name):
    return name.endswith((".rt", ".antt")) or name in SOURCES


@lru_cache(maxsize=None)
def program():
    """The path of the program. Where a source is newer, a line on error output says so, once."""
    if not BUILT.parents[2].is_dir():
        path = TOP / "gr_desk"
        if not path.is_file():
            raise Failed(f"the program is not there: {path}; gr-desk install of the sources lays it down")
        return path
    if not BUILT.is_file():
        raise Failed("the program is not built; ./gr_desk builds it, by proofs that take up to an hour")
    if source := newer_source(BUILT.stat().st_mtime):
        note(f"{source.relative_to(TOP)} is newer than the program, which runs as it stands; ./gr_desk builds it anew")
    return BUILT
