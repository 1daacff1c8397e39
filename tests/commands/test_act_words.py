"""Looks at words and input of gr-desk act in which something is wrong. Nothing is sent then, and one line says why."""
import socket
import subprocess
from contextlib import contextmanager
from threading import Thread

from tests.commands.act_runs import ACT, ADDRESSES, act, wrong
from tests.support.case import Case
from tests.support.program import LOCAL, NO_ADDRESS, PATIENCE, Ran, build, compile_tools

NO_RANKS = "standard input has no ranks; its first line needs a character for each place"
NO_NUMBER = "close needs the number of a resolution after it"
NAMES = "developer, import, propose, choice, sponsor, unsponsor, withdraw, adopt, amend, vary, call, vote, close, cast"
READ_BY_ALL = "is secret, and every account can read the words of a process: give it on standard input"
# What may be a token by mistake is not printed.
NOT_SHOWN = "a vote takes only R and login= as words, and reads ranks and token from standard input"
PROPOSAL = ["propose", "author=a", "summary=b", "ratio=1"]
WRONG = [
    ([], f"there is no command ''; the commands are {NAMES}"),
    (["frob"], f"there is no command 'frob'; the commands are {NAMES}"),
    (["--frob"], "there is no option '--frob'; gr-desk act --help says more"),
    (["vary", "1", "-7"], "there is no option '-7'; gr-desk act --help says more"),
    (["vary", "1", "--", "-7"], "a word has to be FIELD=VALUE, and not '-7'"),
    (["close"], NO_NUMBER),
    (["close", "one"], NO_NUMBER),
    (["close", "01"], NO_NUMBER),
    (["close", "1234567890"], NO_NUMBER),
    (["call", "days=7"], "call needs the number of a resolution after it"),
    (["close", "1", "2"], "a word has to be FIELD=VALUE, and not '2'"),
    (["close", "1", "days=7"], "close has no field 'days'; it has none"),
    (["import", "roll.csv"], "a word has to be FIELD=VALUE, and not 'roll.csv'"),
    (["developer", "login=a", "nam=A", "status=current"], "developer has no field 'nam'; it has login, name, status"),
    (["developer", "login=a", "name=A"], "developer needs status="),
    (["developer", "login=a", "login=a", "name=A", "status=current"], "login= is given twice"),
    (["call", "1", "days"], "a word has to be FIELD=VALUE, and not 'days'"),
    (["cast", "1", "place=1", "--port", "1"], "--port is given twice"),
    (["cast", "1", "--port=1", "place=1"], "--port is given twice"),
    (["vote", "1", "login=d1", "ranks=12"], f"ranks= {READ_BY_ALL}"),
    (["vote", "1", "login=d1", "token=tokenA01"], f"token= {READ_BY_ALL}"),
    (["vote", "1", "login=d1", "12", "tokenA01"], NOT_SHOWN),
    (["vote", "1", "tokenA01=12", "login=d1"], NOT_SHOWN),
    (["vote", "1"], "vote needs login="),
    (["vote", "1", "login=d1"], NO_RANKS),
    ([*PROPOSAL, "text=@no such file"], "'no such file' cannot be read: No such file or directory"),
    ([*PROPOSAL, "text=@/"], "'/' cannot be read: Is a directory"),
    (["developer", "login=a", "name=\udcff", "status=current"], "a word is not UTF-8"),
]

# What a vote finds on standard input, and what is wrong with it.
WRONG_INPUT = [
    (b"\n", NO_RANKS),
    (b"\ntokenA01\n", NO_RANKS),
    (b"12\ntokenA01\nmore\n", "standard input has more than two lines, the ranks and the token"),
    (b"12\ntokenA01\n\n", "standard input has more than two lines, the ranks and the token"),
    (b"12\n\xff\n", "standard input is not UTF-8"),
    (b"1" * 5_000, "standard input has more than the ranks and a token"),
]


LAST = b"last"


@contextmanager
def ended_connections():
    """A port that ends each connection at once, and a list of what came by each, which is whole at the end."""
    came = []

    def take():
        while True:
            with listener.accept()[0] as peer:
                text = peer.recv(65_536)
                if text == LAST:
                    return
                came.append(text)

    with socket.create_server((LOCAL, 0)) as listener:
        thread = Thread(target=take, daemon=True)
        thread.start()
        address = listener.getsockname()
        yield address[1], came
        with socket.create_connection(address) as last:
            last.sendall(LAST)
            thread.join(PATIENCE)


class WrongWords(Case):
    """Nothing is sent to a port where something is wrong."""

    @classmethod
    def setUpClass(cls):
        build()
        compile_tools()

    def is_wrong(self, run, why):
        """A line, which gets a port, is wrong, and makes no connection to the port."""
        with ended_connections() as (port, came):
            ran = run(port)
        self.assertEqual((ran, came), (wrong(why), []), "what it printed, and what it sent")

    def test_words_that_are_wrong_send_nothing(self):
        for words, why in WRONG:
            with self.subTest(words=words):
                self.is_wrong(lambda port: act(port, *words), why)

    def test_a_text_that_is_no_utf_8_is_not_sent(self):
        latin = self.folder() / "latin"
        latin.write_bytes(b"\xe4")
        self.is_wrong(lambda port: act(port, *PROPOSAL, f"text=@{latin}"), f"{str(latin)!r} is not UTF-8")

    def test_a_vote_whose_input_is_wrong_is_not_sent(self):
        for given, why in WRONG_INPUT:
            with self.subTest(given=given[:20]):
                self.is_wrong(lambda port: act(port, "vote", "1", "login=d1", given=given), why)

    def test_a_vote_without_input_is_not_sent(self):
        def run(port):
            line = ["sh", "-c", 'exec "$@" <&-', "sh", *ACT, "--port", str(port), "vote", "1", "login=d1"]
            ran = subprocess.run(line, capture_output=True, timeout=PATIENCE, check=False)
            return Ran(ran.returncode, ran.stdout, ran.stderr)

        self.is_wrong(run, "standard input is closed")


class WrongAddresses(Case):
    """Where the desk is, by words or by the environment."""

    @classmethod
    def setUpClass(cls):
        build()
        compile_tools()

    def test_an_act_needs_a_desk_or_its_address(self):
        self.assertEqual(act(None, "close", "1"), wrong(NO_ADDRESS))

    def test_a_port_is_a_number_up_to_65535(self):
        for port in "0", "65536", "x", "", "08123":
            for words, ran in [
                ("--port P", lambda: act(None, "--port", port, "close", "1")),
                ("--port=P", lambda: act(None, f"--port={port}", "close", "1")),
                ("GR_DESK_PORT", lambda: act(None, "close", "1", env={"GR_DESK_PORT": port})),
            ]:
                with self.subTest(port=port, words=words):
                    self.assertEqual(ran(), wrong(f"a port is 1 to 65535, and not {port!r}"))

    def test_the_name_of_a_socket_has_up_to_107_bytes(self):
        for name in "", "x" * 108:
            for words, ran in [
                ("--socket PATH", lambda: act(None, "--socket", name, "close", "1")),
                ("GR_DESK_SOCKET", lambda: act(None, "close", "1", env={"GR_DESK_SOCKET": name})),
            ]:
                with self.subTest(name=name, words=words):
                    message = wrong(f"the name of a socket has 1 to 107 bytes, and not {len(name)}")
                    self.assertEqual(ran(), message)

    def test_a_port_and_a_socket_do_not_go_together(self):
        with self.subTest(words="by words"):
            both = "a --port and a --socket are given: one of them says which desk"
            self.assertEqual(act(1, "--socket", "x", "close", "1"), wrong(both))
        with self.subTest(words="by the environment"):
            both = "GR_DESK_PORT and GR_DESK_SOCKET are both set: say --port or --socket, or unset one of them"
            self.assertEqual(act(None, "close", "1", env=dict.fromkeys(ADDRESSES, "1")), wrong(both))
