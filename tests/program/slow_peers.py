"""Peers of `serve` that take their time: each does what it does with its connection until it is over, and gives the
bytes that came."""
import socket
import struct
import time
from threading import Event, Thread

from tests.support.program import LOCAL, PATIENCE, response

REQUEST = b"GET /roll HTTP/1.1\r\n\r\n"
SHEET = response(200, "Developers: 0\nCurrent: 0\n")
TOO_LARGE = response(413, "too large\n")

# How long the first connection may hold the desk, in seconds.
LIMIT = 5

# How long the desk reads on where it responded before a request had come whole, in seconds, while the peer is there.
READS_ON = 1

# How long after a response its end may come, in seconds: what the peer has not sent yet is waited for a second longer.
END_OF_A_RESPONSE = 0.8

# How long a slow peer pauses after each byte, in seconds: a short request comes within the limit so, and a long one
# does not.
PAUSE = 0.125

# How long a peer pauses between the parts of a request, in seconds: two of them come within the limit, and three do
# not.
LONG_PAUSE = 3

# How long anything may take that is waited for, in seconds.
LONGEST = 2 * LIMIT + PATIENCE


class Visit:
    """That of a peer to the desk on a port: whether the peer has a connection, and whether another one was served."""

    def __init__(self, port):
        self.port = port
        self.has_come = Event()
        self.is_over = Event()

    def connect(self):
        peer = socket.create_connection((LOCAL, self.port), timeout=LONGEST)
        self.has_come.set()
        peer.setsockopt(socket.IPPROTO_TCP, socket.TCP_NODELAY, 1)
        return peer

    def connect_in_small_pieces(self):
        """A connection that takes little at a time, so that what it does not read stays with the desk."""
        peer = socket.socket()
        peer.setsockopt(socket.IPPROTO_TCP, socket.TCP_MAXSEG, 88)
        peer.setsockopt(socket.SOL_SOCKET, socket.SO_RCVBUF, 1)
        peer.settimeout(LONGEST)
        peer.connect((LOCAL, self.port))
        self.has_come.set()
        return peer

    def send_slowly(self, peer, text):
        """Sends a text byte by byte, until another has been served or the desk hangs up."""
        for byte in text:
            try:
                peer.send(bytes([byte]))
            except OSError:
                return
            if self.is_over.wait(PAUSE):
                return

    def send_in_parts(self, peer, *parts):
        """Sends parts of a text with long pauses between them, until another has been served or the desk hangs up."""
        for number, part in enumerate(parts):
            if number and self.is_over.wait(LONG_PAUSE):
                return
            try:
                peer.sendall(part)
            except OSError:
                return


def rest(peer):
    """What comes up to the end of the connection, however that ends."""
    came = b""
    try:
        while piece := peer.recv(65_536):
            came += piece
    except OSError:
        pass
    return came


def silent(visit):
    with visit.connect() as peer:
        visit.is_over.wait(LONGEST)
        return rest(peer)


def silent_after_its_head(visit):
    with visit.connect() as peer:
        peer.sendall(b"POST /import HTTP/1.1\r\nContent-Length: 1000\r\n\r\n" + b"x" * 999)
        visit.is_over.wait(LONGEST)
        return rest(peer)


def slow_with_its_head(visit):
    with visit.connect() as peer:
        visit.send_slowly(peer, b"GET /roll HTTP/1.1\r\nX: " + b"x" * 100)
        return rest(peer)


def slow_with_its_body(visit):
    with visit.connect() as peer:
        peer.sendall(b"POST /import HTTP/1.1\r\nContent-Length: 1000\r\n\r\n")
        visit.send_slowly(peer, b"x" * 100)
        return rest(peer)


def slow_but_in_time(visit):
    with visit.connect() as peer:
        visit.send_slowly(peer, REQUEST)
        return rest(peer)


def in_two_parts(visit):
    with visit.connect() as peer:
        visit.send_in_parts(peer, REQUEST[:5], REQUEST[5:])
        return rest(peer)


def in_two_parts_and_late(visit):
    return in_two_parts(visit)


def in_three_parts(visit):
    with visit.connect() as peer:
        visit.send_in_parts(peer, REQUEST[:5], REQUEST[5:10], REQUEST[10:])
        return rest(peer)


def unread(visit):
    with visit.connect_in_small_pieces() as peer:
        peer.sendall(b"GET /status/1 HTTP/1.1\r\n\r\n")
        visit.is_over.wait(LONGEST)
        return b""


def read_slowly(visit):
    with visit.connect_in_small_pieces() as peer:
        peer.sendall(b"GET /status/1 HTTP/1.1\r\n\r\n")
        while not visit.is_over.wait(PAUSE):
            try:
                peer.recv(10)
            except OSError:
                break
        return b""


def reset(visit):
    with visit.connect() as peer:
        peer.sendall(REQUEST[:5])
        peer.setsockopt(socket.SOL_SOCKET, socket.SO_LINGER, struct.pack("ii", 1, 0))
    return b""


def gone(visit):
    with visit.connect() as peer:
        peer.sendall(REQUEST)
    return b""


def half_closed(visit):
    with visit.connect() as peer:
        peer.sendall(REQUEST)
        peer.shutdown(socket.SHUT_WR)
        return rest(peer)


def refused_and_silent(visit):
    with visit.connect() as peer:
        peer.sendall(b"POST /import HTTP/1.1\r\nContent-Length: 2097152\r\n\r\n")
        came = peer.recv(65_536)
        began = time.monotonic()
        came += rest(peer)
        is_late = time.monotonic() - began > END_OF_A_RESPONSE
        visit.is_over.wait(PATIENCE)
        return b"the end came late" if is_late else came


def refused_and_sending(visit):
    with visit.connect() as peer:
        peer.sendall(b"POST /import HTTP/1.1\r\nContent-Length: 2097152\r\n\r\n")
        sender = Thread(target=visit.send_slowly, args=(peer, b"x" * 1_000), daemon=True)
        sender.start()
        came = rest(peer)
        visit.is_over.wait(PATIENCE)
        sender.join()
        return came


def flooding(visit):
    with visit.connect() as peer:
        try:
            peer.sendall(b"x" * 8_192)
            while not visit.is_over.is_set():
                peer.sendall(b"x" * 65_536)
        except OSError:
            pass
        return b""


# Each peer with how many seconds it holds the desk, at least and at most, and what comes to it, if anybody looks.
PEERS = [
    (silent, LIMIT, LIMIT, b""),
    (silent_after_its_head, LIMIT, LIMIT, b""),
    (slow_with_its_head, LIMIT, LIMIT, b""),
    (slow_with_its_body, LIMIT, LIMIT, b""),
    (slow_but_in_time, PAUSE * (len(REQUEST) - 1), PAUSE * (len(REQUEST) - 1), SHEET),
    (in_two_parts, LONG_PAUSE, LONG_PAUSE, SHEET),
    (in_two_parts_and_late, LONG_PAUSE, LONG_PAUSE, SHEET),
    (in_three_parts, LIMIT, LIMIT, b""),
    (unread, LIMIT, LIMIT, None),
    (read_slowly, LIMIT, LIMIT, None),
    (reset, 0, 0, None),
    (gone, 0, 0, None),
    (half_closed, 0, 0, SHEET),
    (refused_and_silent, READS_ON, READS_ON, TOO_LARGE),
    (refused_and_sending, READS_ON, READS_ON, TOO_LARGE),
    (flooding, 0, READS_ON, None),
]

# Those that ask for a sheet of half a megabyte.
WITH_A_LARGE_SHEET = (unread, read_slowly)

# Those that come when the desk has listened for longer than a request may take.
COME_LATE = (in_two_parts_and_late,)
