"""Looks at gr-desk journal check. It finds each of a hundred bits that are turned in a desk: the environment variable
SEED may have the seed by which they are drawn. Acts that came by another way are named by a check from a copy, as those
that a shorter journal lacks."""
import os
import random
import re

from tests.commands.journal_case import SECRETS, SHORTER, JournalCase, is_silent, put_back
from tests.support.journaled import DISCUSSION, TABLES, WHOLE, Journaled, reports, rows_of
from tests.support.program import DAY, T0, Ran, copy_desk, once

SEED = int(os.environ.get("SEED", "54"))
BITS = 100
# The columns of each kind.
KINDS = {
    "names": {("developer", "name"), ("choice", "summary")},
    "texts": {("choice", "body")},
    "numbers": {
        ("choice", "introduced"),
        ("resolution", "start"),
        ("resolution", "changed"),
        ("resolution", "called"),
        ("desk", "clock"),
    },
    "ranks": {("ballot2", "ranks")},
}
COLUMNS = {
    "desk": ["id", "version", "accepted", "clock"],
    "developer": ["login", "name", "active"],
    "resolution": ["number", "stage", "start", "changed", "shift", "called", "days", "devs", "chosen"],
    "choice": ["resolution", "number", "kind", "proposer", "summary", "body", "ratio", "introduced", "short", "place"],
    "sponsor": ["resolution", "choice", "login", "active"],
    "ballot2": ["resolution", "login", "ranks", "receipt", "received"],
}
KEYS = {"desk": 1, "developer": 1, "resolution": 1, "choice": 2, "sponsor": 3, "ballot2": 2}


def values_of(kind, rows):
    """The bytes that the values of a kind have in a file, with what stands beside them where they are short."""
    for table, column in KINDS[kind]:
        for row in rows[table]:
            value = row[COLUMNS[table].index(column)]
            if column == "ranks":
                # After them comes the receipt, which no other row has.
                yield value + row[3], len(value)
            elif isinstance(value, bytes):
                yield value, len(value)
            elif value:
                yield value.to_bytes(4, "big"), 4


def places_of(value, whole):
    """Where the bytes of a value stand in a file."""
    text, length = value
    for found in re.finditer(re.escape(text), whole):
        yield from range(found.start(), found.start() + length)


def changes(before, after):
    """The columns that differ, with their table and the key of the row, as a check writes it."""
    found = []
    for table in TABLES:
        for old, new in zip(before[table], after[table]):
            names, key = COLUMNS[table], KEYS[table]
            for name, first, second in zip(names, old, new):
                if first != second:
                    at = ", ".join(f"{name} {shown_key(part)}" for name, part in zip(names[:key], old))
                    found.append((table, name, at))
    return found


def shown_key(part):
    return part.decode() if isinstance(part, bytes) else str(part)


class Bits:
    """The bits of a desk that may be turned."""

    def __init__(self, desk):
        self.desk = desk
        self.whole = desk.file.read_bytes()
        self.rows = rows_of(desk.file, bytes)
        self.places = {kind: self.places_of(kind) for kind in KINDS}
        self.drawn = random.Random(SEED)

    def places_of(self, kind):
        return [place for value in values_of(kind, self.rows) for place in places_of(value, self.whole)]

    def turned(self):
        """A desk with a bit of each kind turned, and the lines of a check of it."""
        turned, lines = bytearray(self.whole), set()
        for kind, columns in KINDS.items():
            line = None
            while line is None:
                place, bit = self.drawn.choice(self.places[kind]), self.drawn.randrange(8)
                line = self.line_of(columns, place, bit)
            turned[place] ^= 1 << bit
            lines.add(line)
        return bytes(turned), lines

    def line_of(self, columns, place, bit):
        """What a check has to say of this bit, where it stands in a row and in one of these columns alone, otherwise
        None."""
        whole = self.whole
        self.desk.file.write_bytes(whole[:place] + bytes([whole[place] ^ 1 << bit]) + whole[place + 1 :])
        changed = changes(self.rows, rows_of(self.desk.file, bytes))
        if len(changed) != 1 or changed[0][:2] not in columns:
            return None
        table, column, key = changed[0]
        return f"{table} {key}: {column}"


class TurnedBits(JournalCase):
    def test_each_bit_that_is_turned_is_found_and_its_column_is_named_and_nothing_else(self):
        desk = self.made(WHOLE)
        bits = Bits(desk)
        for number in range(BITS // len(KINDS)):
            with self.subTest(number=number):
                turned, lines = bits.turned()
                desk.file.write_bytes(turned)
                ran = desk.tool("check")
                self.assertEqual((ran.status, {*ran.out.decode().splitlines()}), (1, lines))
                is_silent("a check of turned bits", ran, *SECRETS)
        desk.file.write_bytes(bits.whole)
        reports("a desk as it was", desk.tool("check"), 0, "ok")


class SummedDesks(JournalCase):
    """Desks whose pages end in sums."""

    def test_a_bit_that_is_turned_where_no_row_is_has_the_program_report_it(self):
        desk = Journaled(self.folder(), "sums")
        reports("init", desk.run("init", "--sums", desk.file), 0, "ok\n")
        desk.accepts(DISCUSSION)
        reports("a check", desk.tool("check"), 0, "ok\n")
        whole, rows = desk.file.read_bytes(), desk.rows()
        place = whole.rindex(bytes(64)) + 32
        desk.file.write_bytes(whole[:place] + b"\1" + whole[place + 1 :])
        self.assertEqual(desk.rows(), rows, "the rows with the bit turned")
        ran = desk.tool("check")
        reports("a check of a bit that is turned", ran, 1, "the program says: ")


def warned_of(copy):
    """What is said of a copy that `cp` has made."""
    message = f"warning: {copy}.sha256 is not there, so nothing tells whether {copy} is as it was copied"
    no_log = f"warning: {copy} has no log beside it; if it was copied without its log, acts are missing"
    lines = [message] if os.path.exists(f"{copy}-wal") else [message, no_log]
    return "".join(f"gr-desk journal: {line}\n" for line in lines).encode()


class ShorterJournals(JournalCase):
    def test_a_check_by_a_journal_that_ends_before_its_desk_says_that_a_replay_does_not_mend_it(self):
        for vote, acts, kept in SHORTER:
            with self.subTest(vote=vote, kept=kept), self.shorter_journal(vote, acts, kept) as (desk, lacks):
                ran = desk.tool("check")
                reports("a check by a shorter journal", ran, 1, f"{lacks}, so a replay does not mend it\n")
                is_silent("a check by a shorter journal", ran, "a copy and a replay")

    def test_a_check_from_a_copy_with_all_acts_says_that_those_were_not_checked(self):
        for vote, acts, kept in SHORTER:
            with self.subTest(vote=vote, kept=kept), self.shorter_journal(vote, acts, kept) as (desk, lacks):
                whole = copy_desk(desk.file, self.folder() / "whole.db")
                message = f"gr-desk journal: {lacks}; these were not checked, since {whole} has them already\n"
                ran = desk.tool("check", "--from", whole)
                self.assertEqual(ran, Ran(1, b"", warned_of(whole) + message.encode()))


class ChecksFromCopy(JournalCase):
    """Two acts came by another way, between an early copy and a late one."""

    @classmethod
    def setUpClass(cls):
        super().setUpClass()
        work = cls.shared_folder()
        cls.desk = Journaled.made(work, "from_copy", DISCUSSION)
        cls.early = copy_desk(cls.desk.file, work / "early.db")
        for number in 6, 7:
            once(cls.desk.file, T0 + 3 * DAY, "/developers", f"login=e{number}&name=A&status=current", f"ok {number}")
        cls.late = copy_desk(cls.desk.file, work / "late.db")

    def test_acts_that_came_by_another_way_are_named_by_a_check_from_an_early_copy(self):
        desk = self.desk
        ran = desk.tool("check", "--from", self.early)
        row = "developer login e6: no act of the journal made this row"
        reports("a check from an early copy", ran, 1, self.lacks_of(desk), row)

    def test_a_check_from_a_copy_that_has_them_says_that_they_were_not_checked(self):
        ran = self.desk.tool("check", "--from", self.late)
        reports("a check from a late one", ran, 1, f"{self.lacks_of(self.desk)}; these were not checked")

    def lacks_of(self, desk):
        counts = "with the numbers 6 to 7: the desk has 7 acts, and the journal 5"
        return f"{desk.file} has acts that {desk.journal} lacks, {counts}"

    def test_a_copy_that_is_later_than_the_desk_is_named(self):
        desk = self.copy_of(self.desk)
        put_back(desk, self.early)
        ran = desk.tool("check", "--from", self.late)
        lost = f"it is a copy of another desk, or {desk.file} has lost acts\n"
        message = f"{self.late} has more acts than {desk.file}: {lost}"
        row = "developer login e6: the row is missing\n"
        reports("a check from one that is later than the desk", ran, 1, row, message)
        ran = desk.tool("check", "--from", self.early)
        is_silent("a check from an early copy", ran, "has more acts than")

    def with_an_act_after_them(self):
        desk = self.copy_of(self.desk)
        words = "developer", "login=e8", "name=A", "status=current"
        reports("an act after them", desk.act("--at", T0 + 3 * DAY, *words), 0, "ok 8")
        return desk

    def test_acts_that_are_missing_between_others_are_named(self):
        desk = self.with_an_act_after_them()
        ran = desk.tool("check", "--from", self.early)
        reports("a check over a gap", ran, 1, "missing in the journal, with the numbers 6 to 7")
        reports("a check after it", desk.tool("check", "--from", self.late), 0, "ok\n")

    def test_an_act_without_an_answer_at_the_end_of_a_shorter_journal_may_be_one_of_them(self):
        desk = self.with_an_act_after_them()
        desk.journal.write_bytes(b"".join(desk.lines()[:-3]))
        ran = desk.tool("check", "--from", self.early)
        message = "with the numbers 6 to 8: the desk has 8 acts, and the journal 5"
        reports("a check with an open act", ran, 1, message)
        ran = desk.tool("check", "--from", self.late)
        message = "the journal has no answer to 5, and nobody can tell which the desk has"
        reports("one from a late copy", ran, 1, message)
