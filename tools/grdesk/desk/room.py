"""How much room the disk of a desk has left: what is said of that after a fault, which itself tells nothing of it."""
import os

# The greatest act is an import of a mebibyte, which is written to the log and to the file.
ROOM_OF_AN_ACT = 4 << 20


def free_at(folder):
    """How many bytes this account can still write on the disk of a folder."""
    about = os.statvfs(folder)
    blocks = about.f_bfree if os.geteuid() == 0 else about.f_bavail
    return blocks * about.f_frsize


def why_no_room(path):
    """That the disk of a desk has less room than an act may need, with its folder; None if it has that, or nobody knows
    how much it has."""
    folder = os.path.dirname(os.path.abspath(path))
    try:
        free = free_at(folder)
    except OSError:
        return None
    if free >= ROOM_OF_AN_ACT:
        return None
    return f"the disk of {folder} {'is full' if free == 0 else f'has only {free:,} bytes left'}"
