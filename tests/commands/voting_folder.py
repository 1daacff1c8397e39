"""A vote that gr-desk votes enters, all in one folder: the desk, the ballots that came, the journal and the outbox."""
import copy
import json

from tests.support.called import Called
from tests.support.journaled import accepted_of, name_in
from tests.support.mailed import ballots_in, says, votes
from tests.support.program import expect, runs

HOUR = 3_600


class VotingFolder:
    """A desk and the ballots that came for it, with a journal and an outbox that a run makes. `words` come before the
    desk on each line."""

    def __init__(self, desk, came, *words):
        self.desk, self.came, self.words = desk, came, words
        self.work = desk.file.parent
        self.journal = self.work / "journal"

    @property
    def outbox(self):
        """Where the mails go if no outbox is given."""
        return self.came.place.with_name(f"{self.came.place.name}.outbox")

    def run(self, *words, place=None, journal=None):
        """Runs the tool to its end, with more words or none, over the ballots or a copy of them in another place."""
        line = [*self.words, *words, self.desk.file, 1, place or self.came.place]
        return votes(*line, journal=journal or self.journal)

    def reports(self, what, *texts):
        """Runs the tool, which reports these texts, and that not each ballot was entered."""
        says(what, self.run(), 1, *texts)

    def ballots(self):
        return ballots_in(self.desk.file)

    def acts(self):
        """The lines of the acts that the journal has."""
        return self.lines("act")

    def lines(self, kind):
        """The lines of this kind that the journal has."""
        return [line for line in map(json.loads, self.journal.read_text().splitlines()) if line["line"] == kind]

    def forget_replaced(self):
        """Makes the journal one of a version that kept no ballot which was replaced before it was sent."""
        lines = self.journal.read_text().splitlines(keepends=True)
        self.journal.write_text("".join(line for line in lines if json.loads(line)["line"] != "replaced"))

    def kept(self):
        """What the desk and the journal have."""
        return self.ballots(), self.journal.read_bytes()

    def mails(self):
        """The bytes of each file in the outbox."""
        return {path.name: path.read_bytes() for path in self.outbox.iterdir()}

    def copied(self, work):
        """The same in another folder, as it stands, with the times of the files."""
        expect("cp", runs(["cp", "-a", f"{self.work}/.", work]).status, 0)
        file = work / self.desk.file.name
        came = copy.copy(self.came)
        came.place = work / self.came.place.name
        other = VotingFolder(Called(file, accepted_of(file)), came, *self.words)
        if other.journal.exists():
            other.journal.write_bytes(other.journal.read_bytes().replace(name_in(self.desk.file), name_in(file)))
        return other
