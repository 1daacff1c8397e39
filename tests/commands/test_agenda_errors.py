"""Looks at gr-desk agenda where it gives none: words that are wrong, desks that are not there, and what listens and is
no desk."""
import os
import socket
from threading import Thread

from tests.commands.agenda_runs import agenda
from tests.support.case import Case
from tests.support.program import LOCAL, NO_ADDRESS, Ran, build, compile_tools, free_port


def answers_with(data):
    """A port on which something else listens, and answers one connection with these bytes."""
    listener = socket.create_server((LOCAL, 0))

    def answer_one():
        with listener, listener.accept()[0] as peer:
            peer.recv(65_536)
            peer.sendall(data)

    Thread(target=answer_one, daemon=True).start()
    return listener.getsockname()[1]


def wrong(status, text):
    return Ran(status, b"", f"gr-desk agenda: {text}\n".encode())


class Errors(Case):
    @classmethod
    def setUpClass(cls):
        build()
        compile_tools()

    def test_words_that_are_wrong_and_desks_that_are_not_there_are_named(self):
        port = free_port()
        for words, status, text in [
            (["a", "b"], 2, "there is a word too many: 'b'; gr-desk agenda --help says more"),
            (["--port", "0"], 2, "a port is 1 to 65535, and not '0'"),
            (["no_such.db"], 3, "no_such.db is not there"),
            (["--port", port], 3, f"port {port} of 127.0.0.1 gave no sheet, after 0 connections: Connection refused"),
        ]:
            with self.subTest(words=words):
                self.assertEqual(agenda(*words), wrong(status, text))

    def test_an_agenda_needs_a_desk_or_its_address(self):
        addresses = "GR_DESK_PORT", "GR_DESK_SOCKET"
        environment = {name: value for name, value in os.environ.items() if name not in addresses}
        self.assertEqual(agenda(env=environment), wrong(2, NO_ADDRESS))

    def test_a_file_that_is_no_desk_does_not_open(self):
        file = self.folder() / "empty.db"
        file.write_bytes(b"")
        message = f"fault F6 NotADesk\ngr-desk agenda: {file} does not open\n"
        self.assertEqual(agenda(file), Ran(3, b"", message.encode()))

    def test_what_gives_no_sheet_is_no_desk(self):
        for body, why in [
            (b"Hello\n", "line 1 of the roll does not fit such a sheet, so what answers is no desk"),
            (b"Developers: 0\nCurrent: 0", "the roll has no end"),
            (b"\xff\n", "a sheet is no UTF-8, so what answers is no desk"),
        ]:
            with self.subTest(body=body):
                port = answers_with(b"HTTP/1.1 200 OK\r\nContent-Length: %d\r\n\r\n%s" % (len(body), body))
                self.assertEqual(agenda("--port", port), wrong(3, why))

    def test_what_answers_another_status_is_no_desk(self):
        port = answers_with(b"HTTP/1.1 301 Moved\r\nContent-Length: 0\r\n\r\n")
        message = wrong(3, f"what listens on port {port} is no desk, and answered status 301")
        self.assertEqual(agenda("--port", port), message)

    def test_a_fault_of_the_desk_is_shown_with_its_marks_by_their_numbers(self):
        port = answers_with(b"HTTP/1.1 503 Service Unavailable\r\nContent-Length: 15\r\n\r\n\x1b[2J F3 Closed\n")
        lines = b"<U+001B>[2J F3 Closed\ngr-desk agenda: the desk gave no sheet, and said what is above\n"
        self.assertEqual(agenda("--port", port), Ran(3, b"", lines))

    def test_help_has_the_form_of_its_words(self):
        ran = agenda("--help")
        form = b"usage: gr-desk agenda DESK [--at DATE] [--due] [--journal FILE]\n"
        self.assertEqual((ran.status, form in ran.out, ran.err), (0, True, b""))
