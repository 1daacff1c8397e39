"""Has one `serve` answer a thousand requests, one after the other, of each status but 413 and 503, with lost
connections among them: the memory that it holds and the files that it has open stay flat. The desk itself does not grow
by these."""
import http.client
import os
import socket
import struct
import time
from pathlib import Path

from tests.support.case import Case
from tests.support.program import LOCAL, PATIENCE, T0, Ran, expect, make_desk, response, serve

REQUESTS = 1_000

# The first look is after these, when each kind of request has come; the second one before the last of all.
WARM = 250

# How much more memory may be held then, in kilobytes.
FLAT = 1_024

ALICE = "login=alice&name=Alice+Adams&status=current"
ROLL = "Developers: 1\nCurrent: 1\nD: alice current Alice Adams\n"


def responded(desk, method, path, form, response_to):
    expect(f"{method} {path}", desk.ask(method, path, form), response_to)


def accepted(desk, commands):
    desk.accepts("/developers", ALICE, f"ok {commands + 1}")


def shown(desk, _):
    responded(desk, "GET", "/roll", "", (200, ROLL))


def refused(desk, _):
    form = "login=alice&ranks=12&token=tokenA01"
    responded(desk, "POST", "/resolutions/1/vote", form, (409, "refused 9 NoResolution\n"))


def unknown(desk, _):
    responded(desk, "GET", "/rolls", "", (404, "not found\n"))


def wrong_method(desk, _):
    responded(desk, "POST", "/roll", "", (405, "method not allowed\n"))


def bad_head(desk, _):
    with socket.create_connection((LOCAL, desk.port), timeout=PATIENCE) as peer:
        peer.sendall(b"x" * 8_193)
        peer.shutdown(socket.SHUT_WR)
        with peer.makefile("rb") as stream:
            expect("a bad head", stream.read(), response(400, "bad head\n"))


def large_body(desk, _):
    responded(desk, "POST", "/import", "x" * 100_000, (400, "bad roll 1\n"))


def lost(desk, _):
    with socket.create_connection((LOCAL, desk.port), timeout=PATIENCE) as peer:
        peer.sendall(b"GET /roll")
        peer.setsockopt(socket.SOL_SOCKET, socket.SO_LINGER, struct.pack("ii", 1, 0))


# The first of them is the only one that is a command.
KINDS = [accepted, shown, refused, unknown, wrong_method, bad_head, large_body, lost]


def held(pid):
    """How much memory a process holds, in kilobytes, and how many files it has open."""
    lines = Path(f"/proc/{pid}/status").read_text().splitlines()
    [memory] = [int(line.split()[1]) for line in lines if line.startswith("VmRSS:")]
    return memory, len(os.listdir(f"/proc/{pid}/fd"))


class SteadyMemory(Case):
    """What a `serve` held and gave: two looks at it, the first wrong response of each kind of request, and its end."""

    @classmethod
    def setUpClass(cls):
        file = cls.shared_folder() / "desk.db"
        make_desk(file)
        cls.looks, cls.wrong = [], {}
        with serve(file, REQUESTS, "--at", T0) as desk:
            for number in range(REQUESTS):
                # The desk gets time to close the connection before.
                if number in (WARM, REQUESTS - 1):
                    time.sleep(1)
                    cls.looks.append(held(desk.pid))
                cls.send(desk, number)
            cls.ended = desk.ended()

    @classmethod
    def send(cls, desk, number):
        kind = KINDS[number % len(KINDS)]
        try:
            kind(desk, number // len(KINDS))
        except (AssertionError, OSError, http.client.HTTPException) as error:
            cls.wrong.setdefault(kind, f"request {number}: {error}")

    def test_memory_stays_flat(self):
        (memory, _), (more, _) = self.looks
        self.assertLessEqual(more, memory + FLAT, "kilobytes")

    def test_as_many_files_stay_open(self):
        (_, files), (_, more) = self.looks
        self.assertEqual(more, files)

    def test_each_request_has_its_response(self):
        for kind in KINDS:
            with self.subTest(kind.__name__):
                self.assertIsNone(self.wrong.get(kind))

    def test_serve_ends_well(self):
        self.assertEqual(self.ended, Ran(0, b"", b""))
