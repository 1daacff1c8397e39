"""One request to the desk that `serve` holds, and its whole answer."""
import io
import time
from contextlib import suppress
from http.client import HTTPException, HTTPResponse, IncompleteRead
from typing import NamedTuple

from grdesk.desk.address import LOCAL

# A request whose body is longer is answered `too large`.
MOST_BYTES = 1_048_576
# No desk has an answer that is longer, in bytes. What else listens there could fill the memory.
MOST_OF_AN_ANSWER = 64 << 20


class Response(NamedTuple):
    """What came back: the status, and the body."""

    status: int
    body: bytes


class NoResponse(Exception):
    """Nothing came back, or not all of it."""

    def __init__(self, why, was_connected):
        super().__init__(why)
        self.was_connected = was_connected


def request_of(method, path, body=b""):
    """The bytes of a request. What has a body is a form, but for a roll file, which the desk knows by the path."""
    lines = [f"{method} {path} HTTP/1.1", f"Host: {LOCAL}"]
    if method == "POST":
        lines += ["Content-Type: application/x-www-form-urlencoded", f"Content-Length: {len(body)}"]
    return "\r\n".join([*lines, "", ""]).encode() + body


def answer_on(connection):
    """The answer that comes on a connection."""
    response = HTTPResponse(connection)
    try:
        response.begin()
        # A head that is cut off is one of a body of any length.
        if response.getheader("Content-Length") is None or response.length is None:
            raise IncompleteRead(b"")
        if response.length > MOST_OF_AN_ANSWER:
            raise IncompleteRead(b"")
        return Response(response.status, response.read())
    finally:
        response.close()


class TimedConnection(io.RawIOBase):
    """What comes on a connection until a moment. A peer has no more time where it sends a byte now and then."""

    def __init__(self, connection, end):
        self.connection = connection
        self.end = end

    def makefile(self, _):
        return io.BufferedReader(self)

    def readable(self):
        return True

    def readinto(self, room):
        left = self.end - time.monotonic()
        if left <= 0:
            raise TimeoutError
        self.connection.settimeout(left)
        return self.connection.recv_into(room)


class PrintedResponse:
    """What a program has printed, in the place of a connection on which it comes."""

    def __init__(self, text):
        self.text = text

    def makefile(self, _):
        return io.BytesIO(self.text)


def answer_in(text):
    """The answer that a program has printed, or None where it is not whole."""
    try:
        return answer_on(PrintedResponse(text))
    except (OSError, HTTPException):
        return None


def exchange(address, request, patience=None):
    """Makes the one request. `patience` is how long that may take in all, in seconds; with None it has no limit. The
    connection is open for writing until the answer is there, since a proxy gives it up otherwise."""
    end = None if patience is None else time.monotonic() + patience
    try:
        connection = address.connect(patience)
    except OSError as error:
        raise NoResponse(reason_of(error), was_connected=False) from None
    with connection:
        try:
            # What answers before it has taken all, as `too large`, may take no more of it.
            with suppress(BrokenPipeError):
                connection.sendall(request)
            return answer_on(connection if end is None else TimedConnection(connection, end))
        except (OSError, HTTPException) as error:
            raise NoResponse(reason_of(error), was_connected=True) from None


def reason_of(error):
    return getattr(error, "strerror", None) or "the answer did not come whole"
