"""The acts of a desk: the path of each, its fields, and its request."""
import re
from dataclasses import dataclass
from urllib.parse import quote_from_bytes

from grdesk.desk.request import request_of

CHOICE = ["author", "summary", "text", "ratio"]

# The path of each act and its fields, as docs/formats.md has them. Those of a vote that are secret are not words.
ACTS = {
    "developer": ("/developers", ["login", "name", "status"]),
    "import": ("/import", []),
    "propose": ("/resolutions", CHOICE),
    "choice": ("/resolutions/{r}/choice", CHOICE),
    "sponsor": ("/resolutions/{r}/sponsor", ["choice", "login"]),
    "unsponsor": ("/resolutions/{r}/unsponsor", ["choice", "login"]),
    "withdraw": ("/resolutions/{r}/withdraw", ["choice"]),
    "adopt": ("/resolutions/{r}/adopt", ["choice", "author"]),
    "amend": ("/resolutions/{r}/amend", ["choice", "minor", "summary", "text"]),
    "vary": ("/resolutions/{r}/vary", ["days"]),
    "call": ("/resolutions/{r}/call", ["days"]),
    "vote": ("/resolutions/{r}/vote", ["login"]),
    "close": ("/resolutions/{r}/close", []),
    "cast": ("/resolutions/{r}/cast", ["place"]),
}
SECRET = ["ranks", "token"]

# The body of an import is no form. Where acts are kept, it has this name among their fields.
ROLL = "roll"

# What `once` ends with after a response of each status.
EXITS = {200: 0, 400: 1, 404: 1, 405: 1, 409: 1, 413: 1, 503: 3}

NUMBER = re.compile(r"0|[1-9][0-9]{0,8}", re.ASCII)


@dataclass(frozen=True)
class Act:
    """An act: its path, and the bytes of its fields."""

    path: str
    values: dict

    @property
    def is_vote(self):
        return self.path.endswith("/vote")

    def body(self):
        if ROLL in self.values:
            return self.values[ROLL]
        return "&".join(f"{field}={quote_from_bytes(value, safe='')}" for field, value in self.values.items()).encode()

    def request(self):
        return request_of("POST", self.path, self.body())

    def when_lost(self):
        """What should be done where nobody knows whether the desk accepted the act."""
        if self.is_vote:
            again = "send the vote again, with the same token"
            return f"{again}: if it was accepted before, `Received` of the result is one higher for that"
        return "the desk may have accepted the act, so look at the status"

    def texts(self):
        """The fields as texts, from which `of_texts` makes the same bytes again, also where they are no UTF-8."""
        return {field: value.decode(errors="surrogateescape") for field, value in self.values.items()}

    @classmethod
    def of_texts(cls, path, texts):
        return cls(path, {field: text.encode(errors="surrogateescape") for field, text in texts.items()})


def act_at(path):
    """The name of the act that has this path, and the number of its resolution as a word, or None. None: no act has it.
    """
    word = re.search(r"(?<=/)[0-9]+(?=/)", path)
    form = path.replace(word[0], "{r}", 1) if word else path
    for name, (each, _) in ACTS.items():
        if each == form:
            return name, word and word[0]
    return None


def fields_at(path):
    """The names of all fields of the act that has this path, also of those that are no words. None: no act has it."""
    found = act_at(path)
    if found is None:
        return None
    name, _ = found
    return {"import": {ROLL}, "vote": {*ACTS["vote"][1], *SECRET}}.get(name, {*ACTS[name][1]})
