"""The help of the program and of the examples, which have no parser here. Their man pages are made of it."""
import os
import subprocess
from typing import NamedTuple

from grdesk.desk.program import program
from grdesk.error import Failed
from grdesk.inventory import EXAMPLES, examples


class Help(NamedTuple):
    """What is called by these words, and what it says of itself."""

    words: tuple
    text: str

    @property
    def name(self):
        """As its man page is called."""
        return "-".join(self.words)

    def options(self):
        """The options whose lines the help has."""
        lines = (line.replace(",", " ").split() for line in self.text.split("\n") if line.lstrip().startswith("-"))
        return [word for words in lines for word in words[:2] if word.startswith("--")]


def text_of(path, *words):
    """A help text, without white space at its ends."""
    line = [str(path), *words, "--help"]
    # A text is the same in each language, and however wide a terminal is.
    settled = {name: value for name, value in os.environ.items() if name not in ("COLUMNS", "LINES")}
    try:
        ran = subprocess.run(
            line, stdin=subprocess.DEVNULL, capture_output=True, check=False, env={**settled, "LC_ALL": "C.UTF-8"}
        )
    except OSError as error:
        raise Failed(f"{path} cannot be run: {error.strerror}") from None
    if ran.returncode != 0:
        raise Failed(f"{' '.join(line)} ended with status {ran.returncode}")
    return ran.stdout.decode().strip()


def subcommands_in(text):
    """The names that the help of the program lists below its commands."""
    block = text.partition("\nCommands:\n")[2].partition("\n\n")[0]
    names = [line.split()[0] for line in block.split("\n") if line.startswith("  ") and not line.startswith("   ")]
    if not names:
        raise Failed("the help of the program lists no subcommand")
    return [name for name in names if name != "help"]


def help_of_program():
    """The help of the program, and after it that of each subcommand."""
    main = Help(("gr_desk",), text_of(program()))
    return [main, *(Help(("gr_desk", name), text_of(program(), name)) for name in subcommands_in(main.text))]


def help_of_examples():
    """The help of each example that is installed as a tool is."""
    return [Help(("gr-desk", name), text_of(examples()[name])) for name in EXAMPLES]
