"""Runs sheets that are refused, and `serve` over ports that are taken, that it has left, and at another address."""
import errno
import os
import socket
import subprocess

from tests.program.good_desk import NO_FILE, NOTHING, ROLL, STORE, GoodDeskCase
from tests.support.program import LOCAL, PATIENCE, Ran, Serve, ask, run, serve, started


ROOT = os.geteuid() == 0


def is_refused(host, port):
    """Whether nobody listens there."""
    with socket.socket() as client:
        client.settimeout(PATIENCE)
        return client.connect_ex((host, port)) == errno.ECONNREFUSED


def is_free(port):
    """Whether one may listen there."""
    with socket.socket() as probe:
        try:
            probe.bind((LOCAL, port))
        except OSError:
            return False
        return True


class Refusals(GoodDeskCase):
    def test_a_sheet_that_is_refused_is_reported_by_number_and_name(self):
        for subcommand, number, line in [
            ("status", 3, "refused 9 NoResolution"),
            ("tally", 2, "refused 24 NotRevealed"),
            ("tally", 3, "refused 9 NoResolution"),
            ("result", 2, "refused 24 NotRevealed"),
            ("result", 3, "refused 9 NoResolution"),
        ]:
            with self.subTest(subcommand, number=number):
                self.assertEqual(run(subcommand, self.good, number), Ran(1, b"", f"{line}\n".encode()))


class Ports(GoodDeskCase):
    def test_a_port_that_is_taken_is_reported_after_the_faults_of_the_file(self):
        taken = self.enter(socket.create_server((LOCAL, 0)))
        for file, expected in [
            (self.good, Ran(3, b"", b"cannot listen\n")),
            (":memory:", Ran(3, b"", b"cannot listen\n")),
            (self.good.with_name("nothing.db"), NO_FILE),
            (self.good.parent, STORE),
        ]:
            with self.subTest(file=file):
                ran = run("serve", file, "--port", taken.getsockname()[1], "--count", 1)
                self.assertEqual(ran, expected)

    def test_nobody_listens_at_another_address_than_the_one_that_serve_prints(self):
        with serve(self.good, 1) as desk:
            self.assertTrue(is_refused("127.0.0.2", desk.port))

    def test_serve_answers_as_many_requests_as_it_was_given_and_another_one_takes_its_port(self):
        with serve(self.good, 2) as desk:
            for _ in range(2):
                self.assertEqual(desk.ask("GET", "/roll"), (200, ROLL))
            self.assertEqual(desk.ended(), NOTHING)
            port = desk.port
        self.one_request_is_answered_at(port)

    def one_request_is_answered_at(self, port):
        line = ["serve", self.good, "--port", port, "--count", 1]
        with started(line, stdout=subprocess.PIPE, stderr=subprocess.PIPE) as process:
            self.assertEqual(process.stdout.readline(), f"listening {LOCAL}:{port}\n".encode())
            self.assertEqual(ask(port, "GET", "/roll"), (200, ROLL))
            self.assertEqual(Serve(process, port).ended(), NOTHING)

    def test_a_free_port_of_each_range_is_listened_on(self):
        # The registered ports, and those that the system gives out. Those of the system are for root.
        for first, last in [*[(1, 1_023)] * ROOT, (1_024, 32_767), (49_152, 65_535)]:
            with self.subTest(first=first, last=last):
                self.one_request_is_answered_at(next(port for port in range(last, first - 1, -1) if is_free(port)))
