"""A network of its own with a desk in it, and a socket that leads there, as gr_desk.socket and its services make them.

It is used as a module, and run by itself inside that network. There it brings up the loopback, starts `serve`, and on
the socket the proxy of systemd or the one below. It ends with its standard input, and what it has started ends with it.
"""
import fcntl
import os
import re
import select
import shutil
import socket
import struct
import subprocess
import sys
import threading
from contextlib import contextmanager

from tests.support.program import LOCAL, PATIENCE, PROGRAM, TOP, fail, free_port

UNIT = TOP / "tools" / "units" / "gr_desk.socket"
PROXY_UNIT = TOP / "tools" / "units" / "gr_desk-proxy.service"
# The calls of the system that bring up an interface, and the flag that does.
SIOCGIFFLAGS, SIOCSIFFLAGS, IFF_UP = 0x8913, 0x8914, 1
# What is run inside.
INSIDE = [sys.executable, "-B", "-m", "tests.commands.private_network"]
# How a process begins with a socket by systemd (sd_listen_fds).
FIRST_DESCRIPTOR = 3


def systemd_proxy():
    """The program that the unit of the proxy names, or None where it is not there."""
    path = re.search(r"^ExecStart=(\S+)", PROXY_UNIT.read_text(), re.M)[1]
    return path if os.path.exists(path) else None


def namespace_words():
    """The words before a line that run it in a network of its own, or None where the machine refuses one."""
    words = ["unshare", "--net"] if os.geteuid() == 0 else ["unshare", "--user", "--map-root-user", "--net"]
    if not shutil.which("unshare"):
        return None
    line = [*words, *INSIDE, "--try"]
    ran = subprocess.run(line, cwd=TOP, stdin=subprocess.DEVNULL, capture_output=True, check=False)
    return words if ran.returncode == 0 else None


def socket_mode():
    """The mode that the unit gives to the socket."""
    return int(re.search(r"^SocketMode=(\d+)$", UNIT.read_text(), re.M)[1], 8)


class Private:
    """A desk behind a socket."""

    def __init__(self, process, port, path):
        self.process = process
        self.port = port
        self.path = path

    def say(self, word):
        """Has something done there, and waits for that."""
        self.process.stdin.write(f"{word}\n".encode())
        self.process.stdin.flush()
        message = self.process.stdout.readline()
        if message != b"done\n":
            fail(f"{word} in the network of its own: {message}")


@contextmanager
def behind_socket(file, at, path, proxy, words):
    """A desk behind a socket, in the network that these words make, or with no words in that of the machine. Its acts
    have a moment. No proxy of systemd is the one below."""
    port = free_port()
    line = [*words, *INSIDE, *map(str, (file, at, path, port, proxy or "-"))]
    with subprocess.Popen(line, cwd=TOP, stdin=subprocess.PIPE, stdout=subprocess.PIPE) as process:
        try:
            private = Private(process, port, path)
            private.say("serve")
            private.say("proxy")
            yield private
        finally:
            process.stdin.close()
            process.wait(PATIENCE)
            process.stdout.close()


# What is done inside.


def bring_up_loopback():
    with socket.socket() as probe:
        asked = struct.pack("16sh14x", b"lo", 0)
        flags = struct.unpack("16sh14x", fcntl.ioctl(probe, SIOCGIFFLAGS, asked))[1]
        # In the network of the machine it is up.
        if not flags & IFF_UP:
            fcntl.ioctl(probe, SIOCSIFFLAGS, struct.pack("16sh14x", b"lo", flags | IFF_UP))


def listen(path):
    listener = socket.socket(socket.AF_UNIX)
    listener.bind(path)
    os.chmod(path, socket_mode())
    listener.listen()
    return listener


def serve(file, at, port):
    """A `serve` that listens."""
    line = [PROGRAM, "serve", file, "--at", at, "--port", port, "--count", "1000"]
    process = subprocess.Popen(line, stdin=subprocess.DEVNULL, stdout=subprocess.PIPE)
    if process.stdout.readline() != f"listening {LOCAL}:{port}\n".encode():
        fail("serve does not listen")
    return process


def begin_with(listener, proxy, port):
    """The proxy of systemd, which finds the socket where systemd puts it."""

    def hand_over():
        os.dup2(listener.fileno(), FIRST_DESCRIPTOR)
        os.set_inheritable(FIRST_DESCRIPTOR, True)

    # The shell keeps its number for the proxy, which looks for that number in its environment.
    line = ["sh", "-c", 'LISTEN_FDS=1 LISTEN_PID=$$ exec "$@"', "sh", proxy, f"{LOCAL}:{port}"]
    return subprocess.Popen(line, preexec_fn=hand_over, close_fds=False, stderr=subprocess.DEVNULL)


def lead(client, port):
    """Leads one connection to the port, and gives it up as soon as one side has ended, as the proxy of systemd does."""
    with client, socket.create_connection((LOCAL, int(port))) as server:
        to = {client: server, server: client}
        while True:
            for side in select.select(list(to), [], [])[0]:
                piece = side.recv(65_536)
                if not piece:
                    return
                to[side].sendall(piece)


def lead_quietly(client, port):
    try:
        lead(client, port)
    except OSError:
        client.close()


def take_all(listener, port):
    while True:
        threading.Thread(target=lead_quietly, args=[listener.accept()[0], port], daemon=True).start()


def main(file, at, path, port, proxy):
    bring_up_loopback()
    listener = listen(path)
    started = {}
    try:
        for line in sys.stdin:
            word = line.strip()
            if word == "serve":
                started[word] = serve(file, at, port)
            elif word == "proxy" and proxy != "-":
                started[word] = begin_with(listener, proxy, port)
            elif word == "proxy":
                threading.Thread(target=take_all, args=[listener, port], daemon=True).start()
            elif word == "end serve":
                started["serve"].kill()
                started["serve"].wait()
            print("done", flush=True)
    finally:
        for process in started.values():
            process.kill()
            process.wait()


if __name__ == "__main__":
    bring_up_loopback() if sys.argv[1:] == ["--try"] else main(*sys.argv[1:])
