"""Runs of gr-desk act, and what comes of them, for its tests: what it prints and its exit status, whole."""
import os
import re
import socket
import subprocess
import sys
from contextlib import contextmanager
from threading import Thread

from tests.support.program import LOCAL, PATIENCE, TOP, Ran

sys.path.insert(0, str(TOP / "tools"))
from grdesk.acts.refusal import MEANINGS  # noqa: E402

ACT = [TOP / "tools" / "gr-desk", "act"]
ADDRESSES = "GR_DESK_PORT", "GR_DESK_SOCKET"


def act(port, *words, given=b"", env=(), **streams):
    """Runs the tool to its end."""
    pipe = subprocess.PIPE
    environment = {name: value for name, value in os.environ.items() if name not in ADDRESSES} | dict(env)
    ports = ["--port", str(port)] if port else []
    streams = {"stdout": pipe, "stderr": pipe} | streams
    line = [*ACT, *ports, *words]
    ran = subprocess.run(line, input=given, env=environment, timeout=PATIENCE, check=False, **streams)
    return Ran(ran.returncode, ran.stdout or b"", ran.stderr or b"")


def says(text, *sentences):
    return Ran(0, text.encode(), noted(*sentences))


def noted(*sentences):
    """What stands on error output."""
    return "".join(f"gr-desk act: {sentence}\n" for sentence in sentences).encode()


def wrong(text):
    return Ran(2, b"", noted(text))


def lost(text):
    return Ran(3, b"", noted(text))


def meaning(name):
    """What a refusal means, on whatever desk."""
    return f"{name}: {MEANINGS[name]}"


def in_words(*ranks):
    """What is printed after a vote: the rank of each place."""
    last = len(ranks)
    of = {number: "" if number < last else ", None of the above" for number in range(1, last + 1)}
    return "".join(f"place {number}{of[number]}: {rank}\n" for number, rank in enumerate(ranks, start=1))


def response(status, body, length=None):
    return f"HTTP/1.1 {status} x\r\nContent-Length: {length or len(body)}\r\nConnection: close\r\n\r\n{body}".encode()


@contextmanager
def answering(data):
    """A port at which one connection is answered by these bytes, and what came on it."""
    came = []

    def answer():
        peer = listener.accept()[0]
        with peer:
            peer.settimeout(PATIENCE)
            text = b""
            while b"\r\n\r\n" not in text:
                text += peer.recv(65_536)
            head, _, body = text.partition(b"\r\n\r\n")
            length = int(re.search(rb"Content-Length: (\d+)", head)[1])
            while len(body) < length:
                body += peer.recv(65_536)
            came.append((head, body))
            peer.sendall(data)

    with socket.create_server((LOCAL, 0)) as listener:
        thread = Thread(target=answer, daemon=True)
        thread.start()
        yield listener.getsockname()[1], came
        thread.join(PATIENCE)
