"""Holds `serve` against peers that take their time, each of them a connection to a desk of its own, all side by side:
one that sends nothing, one that sends a byte at a time, one that takes nothing of a large sheet, and others. The next
connection has its response when the time of the first is over, and no earlier: five seconds for a request, and five
more for its response. The parts of a request share its five seconds, which begin when its connection is accepted,
however long the desk has waited for that. A peer that has a response before it has sent all its bytes gets the whole of
it, as by curl, and holds the desk for a second, and no longer."""
import subprocess
import time
from concurrent.futures import ThreadPoolExecutor
from typing import NamedTuple

from tests.program.slow_peers import COME_LATE, LIMIT, LONGEST, PEERS, WITH_A_LARGE_SHEET, Visit, rest
from tests.support.case import Case
from tests.support.program import LOCAL, PATIENCE, T0, Ran, ask, expect, fail, response, serve

# It measures how long peers wait.
ALONE = True

# How much longer than its limit a peer may hold the desk, in seconds, on a machine with other work.
BESIDES = 4

# How many bytes the text of a choice may have, and how many choices the large sheet has.
MOST_TEXT = 20_000
CHOICES = 8

NOTHING = Ran(0, b"", b"")


class Held(NamedTuple):
    """What came of a peer: how many seconds the next one waited, and how many of these are the desk's own work; what
    came to the peer and to the next one; and the end of `serve`."""

    waited: float
    work: float
    came: bytes
    came_next: tuple
    ended: Ran


def hold(peer):
    """Has a peer hold a desk, and then another one come."""
    is_large = peer in WITH_A_LARGE_SHEET
    connections = CHOICES + 3 if is_large else 2
    with serve(":memory:", connections, "--at", T0) as desk, ThreadPoolExecutor(1) as pool:
        work = make_large_sheet(desk) if is_large else 0
        if peer in COME_LATE:
            time.sleep(LIMIT + 1)
        visit = Visit(desk.port)
        began = time.monotonic()
        first = pool.submit(peer, visit)
        if not visit.has_come.wait(PATIENCE):
            fail("the peer got no connection")
        try:
            came_next = ask(desk.port, "GET", "/status/2", seconds=LONGEST)
        finally:
            visit.is_over.set()
        waited = time.monotonic() - began
        return Held(waited, work, first.result(), came_next, desk.ended())


def make_large_sheet(desk):
    """Proposes a resolution whose status has half a megabyte: each line of its texts is empty, and has a bar there.
    Gives how many seconds the desk takes for it by itself."""
    text = "\n" * MOST_TEXT
    for number in range(1, CHOICES + 1):
        path = "/resolutions" if number == 1 else "/resolutions/1/choice"
        noted = "resolution 1" if number == 1 else f"choice {number}"
        desk.accepts(path, f"author=@leader&summary=Red&text={text}&ratio=1", f"ok {number} {noted}")
    began = time.monotonic()
    status, sheet = desk.ask("GET", "/status/1")
    expect("the large sheet", (status, sheet.count("\n| ")), (200, CHOICES * MOST_TEXT))
    return time.monotonic() - began


class SlowPeers(Case):
    @classmethod
    def setUpClass(cls):
        with ThreadPoolExecutor(len(PEERS)) as pool:
            cls.outcomes = [pool.submit(hold, peer) for peer, *_ in PEERS]

    def each(self, look):
        """Looks at what came of each peer."""
        for row, outcome in zip(PEERS, self.outcomes, strict=True):
            with self.subTest(row[0].__name__.replace("_", " ")):
                look(row, outcome.result())

    def test_a_peer_holds_the_desk_up_to_the_end_of_its_time_and_no_longer(self):
        def look(row, held):
            _, least, most, _ = row
            self.assertGreaterEqual(held.waited, least)
            self.assertLessEqual(held.waited, most + held.work + BESIDES)

        self.each(look)

    def test_the_next_peer_has_its_response(self):
        self.each(lambda _, held: self.assertEqual(held.came_next, (409, "refused 9 NoResolution\n")))

    def test_a_peer_gets_its_response_whole_where_its_request_came_in_time(self):
        def look(row, held):
            if row[3] is not None:
                self.assertEqual(held.came, row[3])

        self.each(look)

    def test_serve_ends_well_after_each_peer(self):
        self.each(lambda _, held: self.assertEqual(held.ended, NOTHING))


class EarlyResponses(Case):
    def test_curl_prints_the_response_to_two_megabytes_each_time_of_fifty(self):
        # It waits for no leave to send them.
        large = self.folder() / "large"
        large.write_bytes(b"x" * 2_097_152)
        line = ["curl", "-s", "-S", "--noproxy", "*", "-H", "Expect:", "--max-time", "60"]
        line += ["--data-binary", f"@{large}"]
        with serve(":memory:", 50) as desk:
            for number in range(50):
                with self.subTest(time=number):
                    url = f"http://{LOCAL}:{desk.port}/import"
                    ran = subprocess.run([*line, url], capture_output=True, check=False)
                    self.assertEqual((ran.returncode, ran.stdout, ran.stderr), (0, b"too large\n", b""))
            self.assertEqual(desk.ended(), NOTHING)

    def test_a_peer_that_sends_a_megabyte_of_no_request_gets_the_whole_response_each_time_of_twenty(self):
        with serve(":memory:", 20) as desk:
            for number in range(20):
                with self.subTest(time=number), Visit(desk.port).connect() as peer:
                    peer.sendall(b"x" * 1_048_576)
                    self.assertEqual(rest(peer), response(400, "bad head\n"))
            self.assertEqual(desk.ended(), NOTHING)
