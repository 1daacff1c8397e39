"""Run a tool of the voting desk, or a subcommand of its program"""
import os
import signal
import subprocess
import sys
from importlib import import_module

from grdesk.desk.copy import is_locked
from grdesk.desk.program import program
from grdesk.desk.room import why_no_room
from grdesk.error import Failed, Stop, Wrong
from grdesk.interruption import ENDS, end
from grdesk.inventory import commands, examples, laid_down
from grdesk.output import hand_on, note, running, say
from grdesk.parser import Parser

# The subcommands of the program.
SUBCOMMANDS = "init", "once", "serve", "import", "roll", "status", "tally", "result", "migrate"
# Those that open the desk of a FILE, and the line of the program if they cannot.
OPENING = "init", "roll", "status", "tally", "result"
NOT_OPENED = b"fault F2 Store\n"


def purpose(path):
    """What a tool does, as its file says at its head."""
    with path.open(encoding="utf-8") as file:
        line = file.readline()
        line = file.readline() if line.startswith("#!") else line
        return line.lstrip("#").strip().replace('"""', "").rstrip(".:")


def parser():
    """The parser of the command itself. Its words are handed on as they are, so it has the help alone."""
    command = Parser(
        "",
        __doc__,
        ["TOOL ..", "SUBCOMMAND ..", "help [TOOL | SUBCOMMAND]", "--version"],
        statuses=[("", "that of the tool or of the program")],
    )
    for name, path in sorted(laid_down().items()):
        command.add_command(name, purpose(path))
    return command


def run_here(name, words):
    """Runs a command in this process, and gives its exit status."""
    running.append(name)
    command = import_module(f"grdesk.commands.{name}")
    return command.run(command.parser().read(words))


def run_instead(path, words):
    """Runs an example or the program in the place of this one."""
    # Python has these ignored, and what is run would have them so too.
    for number in signal.SIGPIPE, signal.SIGXFSZ:
        signal.signal(number, signal.SIG_DFL)
    try:
        os.execv(path, [str(path), *words])
    except OSError as error:
        raise Failed(f"{path} cannot be run: {error.strerror}") from None


def open_by_program(words):
    """Runs a subcommand that opens a desk. If the program cannot open it, a line of its own says why that may be."""
    with subprocess.Popen([program(), *words], stderr=subprocess.PIPE) as process:
        text = process.stderr.read()
    hand_on(text)
    if process.returncode < 0:
        # It ends as the program did, for example if nobody reads its output.
        signal.signal(-process.returncode, signal.SIG_DFL)
        os.kill(os.getpid(), -process.returncode)
    if text == NOT_OPENED:
        running.append(words[0])
        note(why_not_opened(next((word for word in words[1:] if not word.startswith("-")), "")))
    return process.returncode


def why_not_opened(name):
    """What may be wrong with a desk that the program does not open."""
    path = os.path.realpath(name)
    if not os.path.isdir(os.path.dirname(path)):
        return f"cannot open {name}: its folder is not there"
    if os.path.exists(path) and not os.path.isfile(path):
        return f"cannot open {name}: it is not a regular file"
    if full := why_no_room(path):
        return f"cannot open {name}: {full}"
    if os.path.exists(path) and not os.access(path, os.R_OK | os.W_OK):
        return f"cannot open {name}: this account may not read or write it"
    if os.path.exists(path) and is_locked(path):
        return f"cannot open {name}: another process has it open, for example `serve`"
    return f"cannot open {name}: it is damaged or no desk, or this account may not write in its folder"


def help_of(words):
    """Prints the help of a tool, an example or a subcommand, or that of the program."""
    first = words[0] if words else ""
    if first in commands():
        return run_here(first, [*words[1:], "--help"])
    return run_instead(examples().get(first) or program(), [*(words if first not in examples() else []), "--help"])


def gr_desk(words):
    first = words[0] if words else ""
    if first in ("-h", "--help"):
        say(parser().format_help().encode())
        return 0
    if first == "help":
        return help_of(words[1:])
    if first in OPENING and not {"-h", "--help"} & {*words}:
        return open_by_program(words)
    if first in commands():
        return run_here(first, words[1:])
    if path := examples().get(first):
        return run_instead(path, words[1:])
    if not first or first.startswith("-") and first != "--version":
        raise Wrong("the words are TOOL or SUBCOMMAND, and its own; gr-desk --help lists the tools")
    if first not in (*SUBCOMMANDS, "--version"):
        raise Wrong(f"there is no tool or subcommand {first!r}; gr-desk --help and gr-desk help list them")
    return run_instead(program(), words)


class Words:
    """Takes the words as they are."""

    @staticmethod
    def read(words):
        return words


def run(tool, parser):
    """Runs a tool, which is handed its words and gives the exit status, and ends with it. What nobody foresaw is a
    failure too, and no refusal."""
    for number in ENDS:
        # One that is ignored from the beginning, as after nohup, stays so.
        if signal.getsignal(number) != signal.SIG_IGN:
            signal.signal(number, end)
    try:
        status = tool(parser.read(sys.argv[1:]))
    except Stop as stop:
        note(stop)
        status = stop.status
    except OSError as error:
        note(f"{error.filename or 'a file'}: {error.strerror or error}")
        status = Failed.status
    except Exception as error:
        note(f"failed, by what nobody foresaw: {type(error).__name__}: {' '.join(str(error).split())}")
        status = Failed.status
    sys.exit(status)


def main():
    run(gr_desk, Words)
