"""What a voter has filled in: the ranks and the token of a form in a text. Nothing is guessed. What is not as the form
requires it is not read, and a sentence that can be sent to the voter says why."""
import re
import unicodedata
from collections import deque
from typing import NamedTuple, Optional

from grdesk.acts.refusal import MEANINGS
from grdesk.ballots.form import BEGIN, END, IDENTIFIER, TOKEN
from grdesk.desk.rank import NO_RANK, RANKS
from grdesk.desk.token import TOKEN_FORM
from grdesk.error import NotRead
from grdesk.output import quoted

# A blank is a space or a tab, and nothing else: so it is for what verifies a signature, too.
BLANKS = " \t"
QUOTES = re.compile(r"[> \t]+")
OPTION = re.compile(r"\[([^\[\]]*)\](.*)")
RANK = re.compile("[1-9][0-9]?", re.ASCII)
# Of a line that is longer than this no part is an option, and to compose its characters could take hours.
MOST_COMPOSED = 2_000


class OfAnotherVote(NotRead):
    """A text has no form of this vote that is filled in, and one of another vote of the desk."""

    def __init__(self, form):
        super().__init__(f"its form is one of resolution {form.number}")
        self.form = form


class FilledForm(NamedTuple):
    """What a voter filled in: the ranks, in the characters of a desk, and the token, or None where there is none."""

    ranks: str
    token: Optional[str]


def unquoted(line):
    """A line without the marks of quotes before it, and without blanks at its ends."""
    return line.lstrip(f">{BLANKS}").rstrip(BLANKS)


def lines_of(text):
    """The lines of a text, each of which ends at a LF, or at a CR LF."""
    return [line[:-1] if line.endswith("\r") else line for line in text.split("\n")]


def key(text):
    """A text as it is compared: blanks and marks of quotes make no difference, since mail programs wrap lines."""
    text = QUOTES.sub("", text)
    return unicodedata.normalize("NFC", text) if len(text) <= MOST_COMPOSED else text


def read_form(form, text, others=()):
    """What is filled in on the one form of this vote in a text. Beside it forms of other votes may stand there."""
    forms, passed = [], []
    for lines in forms_in(text):
        if other := next((each for each in others if FormLines(lines).are_of(each)), None):
            passed.append((other, lines))
        else:
            forms.append(FormLines(lines).boxes_and_token(form))
    filled = [(boxes, token) for boxes, token in forms if any(boxes)]
    if not filled:
        check_of_this_vote(bool(forms), passed)
    if not forms:
        raise NotRead(f'there is no ballot: a line "{BEGIN}" is missing')
    if len(filled) > 1:
        raise NotRead("two forms in it are filled in, and one is to be")
    if not filled:
        raise NotRead("all boxes are empty; a - in each box makes an empty ballot")
    boxes, token = filled[0]
    ranks = "".join(mark_of(place, box) for place, box in enumerate(boxes, start=1))
    return FilledForm(ranks, token_of(token))


def check_of_this_vote(is_there, passed):
    """Refuses a text whose form of this vote is empty or not there, if it is meant for another vote: if a form of that
    is filled in, or is there alone."""
    for other, lines in passed:
        if not is_there or is_filled(other, lines):
            raise OfAnotherVote(other)


def is_filled(form, lines):
    """Whether a form has anything in its boxes. One that is not read may have."""
    try:
        return any(FormLines(lines).boxes_and_token(form)[0])
    except NotRead:
        return True


def forms_in(text):
    """The lines between two marker lines that are not empty, of each form."""
    lines = None
    for line in map(unquoted, lines_of(text)):
        if line == BEGIN:
            if lines is not None:
                raise NotRead(f'a form has no end: the line "{END}" is missing')
            lines = []
        elif line == END:
            if lines is None:
                raise NotRead(f'a form has no beginning: the line "{BEGIN}" is missing')
            yield lines
            lines = None
        elif lines is not None and line:
            lines.append(line)
    if lines is not None:
        raise NotRead(f'a form has no end: the line "{END}" is missing')


class FormLines:
    """The lines of a form, of which the next ones are taken. One may have been wrapped."""

    def __init__(self, lines):
        self.lines = deque(lines)

    def next(self, what):
        if not self.lines:
            raise NotRead(f"the line of {what} is missing")
        return self.lines[0]

    def take(self, begun, wanted):
        """Takes the first line, of which this is the beginning, with those after it on which it goes on. Gives whether
        it is what is expected."""
        found, wanted = key(begun), key(wanted)
        self.lines.popleft()
        while found != wanted and wanted.startswith(found) and self.lines:
            found += key(self.lines.popleft())
        return found == wanted

    def are_of(self, form):
        """Whether they begin with the identifier of a form."""
        return bool(self.lines) and self.take(self.lines[0], f"{IDENTIFIER} {form.identifier()}")

    def boxes_and_token(self, form):
        """What stands in each box, and after the last one."""
        line = self.next("the identifier")
        if not line.startswith(IDENTIFIER):
            raise NotRead(f"the line of the identifier is missing, and in its place stands {quoted(line)}")
        if not self.take(line, f"{IDENTIFIER} {form.identifier()}"):
            raise NotRead("the identifier is not that of this vote: the form is of another one, or was changed")
        boxes = [self.box(form, place) for place in form.places]
        line = self.next(TOKEN)
        if not line.startswith(TOKEN):
            raise NotRead(f'after the last choice "{TOKEN}" is to stand, and there stands {quoted(line)}')
        self.lines[0] = line[len(TOKEN) :]
        return boxes, [word for each in self.lines for word in re.split("[ \t]+", each) if word]

    def box(self, form, place):
        line, wanted = self.next(f"choice {place}"), form.option(place)
        option = OPTION.fullmatch(line)
        if not option:
            raise NotRead(f'the line of choice {place} is to be a box with "{wanted}", and is {quoted(line)}')
        if not self.take(option[2], wanted):
            raise NotRead(f'the line of choice {place} is to have "{wanted}" after its box, and is {quoted(line)}')
        return option[1].strip(BLANKS)


def mark_of(place, box):
    """The character of a desk for what stands in a box."""
    if box in ("", NO_RANK):
        return NO_RANK
    if RANK.fullmatch(box) and int(box) <= len(RANKS):
        return RANKS[int(box) - 1]
    if len(re.findall("[0-9]+", box)) > 1:
        raise NotRead(f"the box of choice {place} has {quoted(box)}, and a choice has one rank")
    raise NotRead(f"the box of choice {place} has {quoted(box)}, and a rank is a number from 1 to {len(RANKS)}")


def token_of(words):
    """The token among the words after the last choice, or None."""
    if not words:
        return None
    if len(words) > 1:
        raise NotRead(f'after "{TOKEN}" stands more than one word')
    if not TOKEN_FORM.fullmatch(words[0]):
        raise NotRead(MEANINGS["BadToken"])
    return words[0]
