"""Runs of gr-desk agenda, and the parts of what it prints, for its tests."""
import re

from tests.support.program import fail, tool


def agenda(*words, **env):
    return tool("agenda", *words, **env)


def agenda_of(file, at):
    """The agenda of a desk at a moment, at which nothing speaks against it."""
    ran = agenda(file, "--at", at)
    if ran[::2] != (0, b""):
        fail(f"agenda {file} --at {at}: {ran}")
    return ran.out.decode()


def sections(text):
    """What may be done now, and what comes next, as lines."""
    form = "Agenda of .*\n\nMay be done now:\n(.*?)\n\nComes next:\n(.*?)\n\n"
    now, coming = re.match(form, text, re.DOTALL).groups()
    return [[line.strip() for line in part.split("\n") if line != "    nothing"] for part in (now, coming)]


def held_in(text):
    """The lines of the held acts."""
    return re.search("\n\nHeld in the journal:\n(.*?)\n(?:\n|$)", text, re.DOTALL)[1].split("\n")
