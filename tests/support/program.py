"""Runs of the program and of tools, for tests: a line and what came of it, a `serve` with requests to it, and a few
desks. Whatever is started here has ended when the tests end, also by a signal."""
import atexit
import hashlib
import http.client
import os
import resource
import shutil
import signal
import socket
import stat
import subprocess
import sys
import tempfile
from contextlib import contextmanager
from functools import cache
from pathlib import Path
from threading import RLock
from typing import NamedTuple

TOP = Path(__file__).resolve().parents[2]
PROGRAM = str(TOP / "gr_desk")
LOCAL = "127.0.0.1"

# 2026-01-01T00:00:00Z, and a day.
T0 = 1767225600
DAY = 86_400

# What a tool reports if it is given neither a desk nor where one is reached.
NO_ADDRESS = "no port or socket is given: by --port P or --socket PATH, "
NO_ADDRESS += "or by the environment variable GR_DESK_PORT or GR_DESK_SOCKET"

# How long a run may take that nothing holds up, in seconds. A machine that proves crates meanwhile is slow.
PATIENCE = 300

PHRASES = {
    200: "OK",
    400: "Bad Request",
    404: "Not Found",
    405: "Method Not Allowed",
    409: "Conflict",
    413: "Payload Too Large",
    503: "Service Unavailable",
}

running = set()
# What a signal runs takes it too, in whatever the main thread is.
running_lock = RLock()


class Ran(NamedTuple):
    """What came of a line: the exit status, and what stood on standard output and on error output."""

    status: int
    out: bytes
    err: bytes


def fail(message):
    """Fails the test that is running, or its subtest, with this message."""
    raise AssertionError(message)


def expect(what, got, expected):
    """Fails the test that is running, or its subtest, unless both are equal."""
    if got != expected:
        fail(f"{what}: expected\n    {shown(expected)}\nand got\n    {shown(got)}")


def shown(value):
    text = repr(value)
    return text if len(text) < 2_000 else f"{text[:1_900]} .. ({len(text)} characters)"


@cache
def build():
    """Builds the program, if it is not current, once for all tests of a process."""
    quiet = subprocess.DEVNULL
    subprocess.run([PROGRAM], stdin=quiet, stdout=quiet, stderr=quiet, check=False)


@cache
def compile_tools():
    """Makes tools start sooner, for all tests of a process. Their modules, and those of the library that they use, are
    compiled once, into a folder of their own. And `python3` is the one that runs the tests, not a shell script that
    looks for it."""
    os.environ["PATH"] = os.pathsep.join([os.path.dirname(sys.executable), os.environ["PATH"]])
    place = tempfile.mkdtemp()
    atexit.register(shutil.rmtree, place, ignore_errors=True)
    os.environ["PYTHONPYCACHEPREFIX"] = place
    # What a tool of another test was killed over is not reported here.
    os.environ["TMPDIR"] = place
    os.environ.pop("XDG_RUNTIME_DIR", None)
    tools = TOP / "tools"
    paths = sorted(path.relative_to(tools).with_suffix("") for path in tools.rglob("*.py") if path.stem != "__init__")
    names = ", ".join([*(".".join(path.parts) for path in paths), "getpass", "secrets"])
    line = [sys.executable, "-c", f"import sys; sys.path.insert(0, {str(tools)!r}); import {names}"]
    writing = {name: value for name, value in os.environ.items() if name != "PYTHONDONTWRITEBYTECODE"}
    subprocess.run(line, env=writing, check=True)


def kill_all():
    with running_lock:
        for process in running:
            process.kill()


def end_all(*_):
    kill_all()
    raise SystemExit(143)


# What tests started ends with them.
atexit.register(kill_all)
for number in signal.SIGTERM, signal.SIGHUP:
    signal.signal(number, end_all)


@contextmanager
def started(words, limit=None, **streams):
    """A run of the program that is under way. `limit` is how many bytes a file of it may have at most."""

    def hold_to_the_limit():
        signal.signal(signal.SIGXFSZ, signal.SIG_IGN)
        resource.setrlimit(resource.RLIMIT_FSIZE, (limit, limit))

    build()
    process = subprocess.Popen(
        [PROGRAM, *map(str, words)], preexec_fn=hold_to_the_limit if limit is not None else None, **streams
    )
    with running_lock:
        running.add(process)
    try:
        yield process
    finally:
        process.kill()
        process.wait()
        for stream in process.stdout, process.stderr, process.stdin:
            if stream:
                stream.close()
        with running_lock:
            running.discard(process)


def run(*words, given=b"", limit=None, seconds=PATIENCE, **streams):
    """Runs a line to its end. `given` is its standard input; streams that are named go elsewhere."""
    pipe = subprocess.PIPE
    with started(words, limit, **{"stdin": pipe, "stdout": pipe, "stderr": pipe} | streams) as process:
        try:
            out, err = process.communicate(given if process.stdin else None, timeout=seconds)
        except subprocess.TimeoutExpired:
            fail(f"{' '.join(map(str, words))}: did not end within {seconds} seconds")
        return Ran(process.returncode, out or b"", err or b"")


def runs(line, **options):
    """Runs another program to its end, with nothing to read."""
    line = list(map(str, line))
    ran = subprocess.run(line, capture_output=True, timeout=PATIENCE, check=False, stdin=subprocess.DEVNULL, **options)
    return Ran(ran.returncode, ran.stdout, ran.stderr)


def tool(name, *words, top=TOP, seconds=PATIENCE, **streams):
    """Runs a tool to its end, with nothing to read. Streams that are named go elsewhere."""
    build()
    compile_tools()
    pipe = subprocess.PIPE
    streams = {"stdin": subprocess.DEVNULL, "stdout": pipe, "stderr": pipe} | streams
    line = [Path(top) / "tools" / "gr-desk", name, *map(str, words)]
    ran = subprocess.run(line, timeout=seconds, check=False, **streams)
    return Ran(ran.returncode, ran.stdout or b"", ran.stderr or b"")


def copy_desk(file, to):
    """Copies the file of a desk, with its log where there is one, in the place of what was there. Gives the copy."""
    for end in "", "-wal":
        Path(f"{to}{end}").unlink(missing_ok=True)
        if os.path.exists(f"{file}{end}"):
            shutil.copyfile(f"{file}{end}", f"{to}{end}")
    return to


def free_port():
    """A port that nobody listens on just now."""
    with socket.socket() as probe:
        probe.bind((LOCAL, 0))
        return probe.getsockname()[1]


class Serve:
    """A `serve` that listens. Other programs take ports too, so it may take more than one try to begin."""

    def __init__(self, process, port):
        self.process = process
        self.port = port

    @property
    def pid(self):
        return self.process.pid

    def ask(self, method, path, form=""):
        """The status and the body of the response to a request."""
        return ask(self.port, method, path, form)

    def accepts(self, path, form, line, method="POST"):
        """Sends a command, and expects this line."""
        expect(f"{method} {path} with {form}", self.ask(method, path, form), (200, f"{line}\n"))

    def kill(self):
        self.process.kill()
        self.process.wait()

    def ended(self, seconds=PATIENCE):
        """What came of it, after the line that it listens, once it has ended."""
        try:
            out, err = self.process.communicate(timeout=seconds)
        except subprocess.TimeoutExpired:
            fail(f"serve: did not end within {seconds} seconds")
        return Ran(self.process.returncode, out, err)


@contextmanager
def serve(file, count, *words, limit=None):
    """A `serve` of so many connections, which listens on a port that was free."""
    pipe = subprocess.PIPE
    for _ in range(10):
        port = free_port()
        line = ["serve", file, "--port", port, "--count", count, *words]
        with started(line, limit, stdin=subprocess.DEVNULL, stdout=pipe, stderr=pipe) as process:
            said = process.stdout.readline()
            if said == f"listening {LOCAL}:{port}\n".encode():
                yield Serve(process, port)
                return
            ended = process.communicate(timeout=PATIENCE)
            if ended[1] != b"cannot listen\n":
                fail(f"serve {file}: status {process.returncode}, {said + ended[0]} and {ended[1]}")
    fail("serve: no port was free, of ten")


def ask(port, method, path, form="", seconds=PATIENCE):
    """The status and the body of the response to a request, which has to come whole."""
    client = http.client.HTTPConnection(LOCAL, port, timeout=seconds)
    try:
        client.request(method, path, form.encode() if method == "POST" else None)
        response = client.getresponse()
        return response.status, response.read().decode()
    finally:
        client.close()


def request(method, path, form=""):
    """The bytes of a request."""
    body = form.encode()
    return f"{method} {path} HTTP/1.1\r\nContent-Length: {len(body)}\r\n\r\n".encode() + body


def response(status, body, allow=None):
    """The bytes of a response."""
    text = body.encode()
    allows = f"Allow: {allow}\r\n" if allow else ""
    head = f"HTTP/1.1 {status} {PHRASES[status]}\r\n{allows}Content-Type: text/plain; charset=utf-8\r\n"
    return f"{head}Content-Length: {len(text)}\r\nConnection: close\r\n\r\n".encode() + text


def receipt(resolution, login, token):
    return hashlib.sha256(f"{resolution}\n{login}\n{token}\n".encode()).hexdigest()


def make_desk(file):
    """A new desk."""
    expect(f"init {file}", run("init", file), Ran(0, b"ok\n", b""))


def once(file, at, path, form, line):
    """Has `once` carry out a command, and expects this line."""
    expect(
        f"once {path} with {form}",
        run("once", file, "--at", at, given=request("POST", path, form)),
        Ran(0, response(200, f"{line}\n"), b""),
    )


# The modes of a desk and its log that nobody but their owner may read.
PRIVATE = ["-rw-------"] * 2


def modes_of(file):
    """Those of a desk and its log."""
    return [stat.filemode(os.stat(f"{file}{end}").st_mode) for end in ("", "-wal")]


def bytes_of(file):
    """What a file holds, or None where there is no such file."""
    try:
        return Path(file).read_bytes()
    except FileNotFoundError:
        return None
