"""What a command prints: its output, what it says on error output, and how a text of a stranger is shown."""
import os
import sys
import unicodedata
from contextlib import suppress

from grdesk.error import Failed, Refused


def write(stream, text):
    """Writes to a stream past its buffer, which Python would try to write again at the end."""
    if stream is None:
        raise OSError("closed")
    while text:
        text = text[os.write(stream.fileno(), text) :]


def say(text):
    """Prints bytes at once."""
    try:
        write(sys.stdout, text)
    except OSError:
        raise Failed("lost: standard output could not be written") from None


def say_line(text):
    say(f"{text}\n".encode(errors="backslashreplace"))


# The command that runs, once the first word was read.
running = []


def name_of_tool():
    """How the command is called."""
    return " ".join(["gr-desk", *running])


def note(text):
    """Says a line on error output, which it is also where a name in it has a line end."""
    line = str(text).replace("\n", "\\n")
    hand_on(f"{name_of_tool()}: {line}\n".encode(errors="backslashreplace"))


def hand_on(text):
    """Writes bytes on error output, where that can be written."""
    with suppress(OSError):
        write(sys.stderr, text)


def is_at_terminal():
    return bool(sys.stdin) and sys.stdin.isatty()


def confirm(question, what):
    """Asks at the terminal whether something should be sent, and refuses where that is not confirmed."""
    print(f"{question} y or n: ", end="", file=sys.stderr, flush=True)
    try:
        is_sure = sys.stdin.readline().strip() in ("y", "yes")
    except UnicodeDecodeError:
        is_sure = False
    if not is_sure:
        raise Refused(f"nothing was sent: the {what} was not confirmed")


def counted(count, word):
    return f"{count} {word}{'' if count == 1 else 's'}"


# Of the characters that are not seen, these two belong to words.
JOINERS = "\u200c\u200d"
# Letters, marks and signs of which nothing is seen.
BLANKS = "\u034f\u115f\u1160\u17b4\u17b5\u2800\u3164\uffa0"


def is_hidden(character):
    """Whether a character is a control character, a mark of direction, or another one that shows nothing itself."""
    is_sign = unicodedata.category(character) in ("Cc", "Cf", "Cs", "Zl", "Zp")
    return character in BLANKS or is_sign and character not in JOINERS


def shown(text):
    """A text for a terminal: what would move or hide what stands beside it is shown by its number."""
    return "".join(f"<U+{ord(each):04X}>" if is_hidden(each) else each for each in text)


# Of what a voter wrote no more characters are reported.
MOST_QUOTED = 60


def quoted(text):
    """What a voter wrote, for a sentence. A blank that is none here is shown by its number."""
    text = text if len(text) <= MOST_QUOTED else f"{text[:MOST_QUOTED]}.."
    text = "".join(f"<U+{ord(each):04X}>" if each.isspace() and each != " " else each for each in text)
    return f'"{shown(text)}"'
