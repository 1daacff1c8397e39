"""gr-desk wait ends when the desk answers, and not before."""
import subprocess
import time

from tests.support.called import Called
from tests.support.case import Case
from tests.support.program import LOCAL, PATIENCE, T0, TOP, Ran, build, compile_tools, free_port, started, tool


class Waits(Case):
    @classmethod
    def setUpClass(cls):
        build()
        compile_tools()

    def test_a_wait_for_nobody_ends_in_time(self):
        port = free_port()
        ran = tool("wait", "--port", port, "--seconds", 1)
        message = f"gr-desk wait: port {port} of {LOCAL} did not answer in time, which is 1 s: Connection refused\n"
        self.assertEqual(ran, Ran(3, b"", message.encode()))

    def test_a_wait_for_a_desk_ends_when_that_answers_by_one_connection(self):
        file, port, quiet = Called.made(self.folder(), begin=T0).file, free_port(), subprocess.DEVNULL
        words = [TOP / "tools" / "gr-desk", "wait", "--port", str(port), "--seconds", "60"]
        with subprocess.Popen(words, stdin=subprocess.DEVNULL) as waits:
            try:
                time.sleep(0.5)
                self.assertIsNone(waits.poll(), "a wait before there is a desk")
                with started(["serve", file, "--port", port, "--count", 1], stdin=quiet, stdout=quiet) as desk:
                    self.assertEqual(waits.wait(PATIENCE), 0, "a wait for a desk")
                    self.assertEqual(desk.wait(PATIENCE), 0, "serve, after the one connection that it took")
            finally:
                waits.kill()
