"""The SHA-256 of a copy of a desk, which stands beside it in COPY.sha256, as sha256sum writes and reads it: a line for
the file, and after it one for the log. A log that has nothing of the desk gets another head whenever it is opened, so
it has no line."""
import hashlib
import os
import re

from grdesk.error import Failed
from grdesk.new_file import naming, new_file, write_all
from grdesk.output import note
from grdesk.regular_file import open_regular

# A log that is shorter, as that of a desk that was closed, has nothing that the file lacks.
LEAST_LOG_BYTES = 56
LINE = re.compile(rb"\\?([0-9a-f]{64}) [ *].+", re.DOTALL)


def digests_at(file):
    return f"{file}.sha256"


def has_frames(log):
    return os.path.exists(log) and os.stat(log).st_size >= LEAST_LOG_BYTES


def digest_of(path):
    digest = hashlib.sha256()
    with open_regular(path) as file:
        while piece := file.read(1 << 20):
            digest.update(piece)
    return digest.hexdigest()


def digests_of(copy, log):
    """Those of a copy: of its file, and of its log if that has anything."""
    return [digest_of(path) for path in (copy, *([log] if has_frames(log) else []))]


def write_digests(copy, log, name):
    """Writes those of a copy that is to have this name."""
    names = name, f"{name}-wal"
    lines = b"".join(os.fsencode(line_of(*each)) for each in zip(digests_of(copy, log), names))
    with new_file(digests_at(copy)) as file, naming(digests_at(copy)):
        write_all(file.fileno(), lines)


def line_of(digest, name):
    """The line of a file. A name with these two characters is written as sha256sum does it."""
    quoted = name.replace("\\", "\\\\").replace("\n", "\\n")
    mark = "\\" if quoted != name else ""
    return f"{mark}{digest}  {quoted}\n"


def read_digests(name):
    """Those beside a copy: of its file, and of its log where that had anything. None: nothing stands there."""
    try:
        with open_regular(digests_at(name)) as file:
            lines = file.read(65_536).split(b"\n")
    except FileNotFoundError:
        return None
    found = [LINE.fullmatch(line) for line in lines[:-1]]
    if lines[-1] or not all(found) or len(found) not in (1, 2):
        raise Failed(f"{digests_at(name)} is none that gr-desk backup wrote")
    return [line[1].decode() for line in found]


def check_digests(name, copy, log):
    """Holds a copy of what has this name against what stands beside that."""
    wanted = read_digests(name)
    if wanted is None:
        note(f"warning: {digests_at(name)} is not there, so nothing tells whether {name} is as it was copied")
        if not os.path.exists(log):
            note(f"warning: {name} has no log beside it; if it was copied without its log, acts are missing")
        return
    message = f"{name} is not as it was copied"
    if has_frames(log) != (len(wanted) == 2):
        raise Failed(f"{message}: {name}-wal {'is empty or gone' if len(wanted) == 2 else 'had nothing'}")
    for path, of, digest in zip([copy, log], [name, f"{name}-wal"], wanted):
        if (found := digest_of(path)) != digest:
            raise Failed(f"{message}: the SHA-256 of {of} is {found}, and {digests_at(name)} has {digest}")
