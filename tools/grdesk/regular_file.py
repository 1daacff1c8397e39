"""Files that are opened to be read, although something else may have their name: to open a FIFO would wait for ever."""
import os
import stat

from grdesk.error import Failed


def open_regular(path):
    """A regular file, open to be read without a buffer. A link to one is followed. Fails if something else is there, or
    by FileNotFoundError if nothing is."""
    descriptor = os.open(path, os.O_RDONLY | os.O_NONBLOCK)
    if not stat.S_ISREG(os.fstat(descriptor).st_mode):
        os.close(descriptor)
        raise Failed(f"{path} is no file")
    return open(descriptor, "rb", buffering=0)
