"""Has a tool meet an error of the system from a chosen call on, for tests of what it says in the midst of its work."""
import os

# Python runs this at its start if PYTHONPATH has its folder.
SCRIPT = """import errno, os, socket

def failing(call, number, is_counted, left):
    def step(*words, **more):
        nonlocal left
        if is_counted(*words):
            left -= 1
            if left < 0:
                raise OSError(number, os.strerror(number))
        return call(*words, **more)
    return step

lines, connections = {lines!r}, {connections!r}
if lines is not None:
    os.write = failing(os.write, errno.ENOSPC, lambda _, data: bytes(data[:9]) == b'{{"form": ', lines)
if connections is not None:
    made = socket.create_connection
    socket.create_connection = failing(made, errno.ECONNREFUSED, lambda *_: True, connections)
"""


def failing(place, lines=None, connections=None):
    """What the environment of a tool gets so that a journal takes so many lines, and so many connections are made. The
    next one meets a full disk, or is refused."""
    (place / "sitecustomize.py").write_text(SCRIPT.format(lines=lines, connections=connections))
    return {"PYTHONPATH": os.fspath(place)}
