"""What a tool is asked about: a desk, a resolution of it, and the sheets of that, whose refusals are reported in
words."""
import re

from grdesk.acts.refusal import MEANINGS
from grdesk.desk.address import given_address
from grdesk.desk.sheet import NotGiven, status_of
from grdesk.error import Refused, Wrong
from grdesk.output import name_of_tool

# The arguments of a command about one resolution, and the help of each.
DESK_AND_R = (("DESK", "the file of the desk; not with --port or --socket"), ("R", "the number of the resolution"))
RESOLUTION = re.compile("[1-9][0-9]{0,8}", re.ASCII)


def resolution_number(text):
    if not RESOLUTION.fullmatch(text):
        raise Wrong(f"R is the number of a resolution, and not {text!r}")
    return int(text)


def take_desk(arguments, rest):
    """Puts DESK and R into the words, and gives what stands after the two. DESK is left out where a port or a socket
    says which desk it is, or where the first word is a number as R is. A desk with such a name is written as ./1."""
    is_file = given_address(arguments) is None and rest and not RESOLUTION.fullmatch(rest[0])
    arguments.desk, rest = (rest[0], rest[1:]) if is_file else (None, rest)
    if not rest:
        raise Wrong(f"the number of a resolution is missing; {name_of_tool()} --help says more")
    arguments.resolution = resolution_number(rest[0])
    return rest[1:]


def sheet_in(desk, kind, number):
    """A sheet of a resolution. That the desk refuses it is reported with what it means."""
    try:
        return desk.sheet(kind, number)
    except NotGiven as refusal:
        raise Refused(f"{refusal}: {MEANINGS[str(refusal).split()[-1]]}") from None


def status_in(desk, number):
    return status_of(number, sheet_in(desk, "status", number))
