"""Looks at the copies that a timer makes of a desk, at a clock that the tests move: one where acts came since the last,
with the same words whether one is made or not, and which of them stay for a day, a week and a year. Then at those that
gr-desk votes makes: they have names of their own, no other tool counts or removes them, and votes keeps three."""
import os
import re
import sys
import time
from datetime import datetime, timezone
from pathlib import Path
from unittest import mock

from tests.commands.timed import AT, HOUR, OK, QUARTER, Timed, few_programs, name_of, write_program
from tests.support.called import CALLED, Called
from tests.support.case import Case
from tests.support.mailed import Folder as Came
from tests.support.mailed import votes
from tests.support.program import DAY, T0, TOP, Ran, run, tool

sys.path.insert(0, str(TOP / "tools"))
from grdesk.desk.retention import DatedCopy, base_of, name_before_votes, surplus  # noqa: E402


def stays(moments, now):
    """By the words of the help: all of a day, the last one of each hour of a week, and of each day of a year."""
    last = {}
    for moment in sorted(moments):
        for form in "%Y-%m-%d %H", "%Y-%m-%d":
            last[datetime.fromtimestamp(moment, timezone.utc).strftime(form)] = moment
    lasts = {*last.values()}
    of_days = {moment for text, moment in last.items() if " " not in text}
    young = {moment for moment in moments if now - moment < DAY}
    hourly = {moment for moment in moments if now - moment < 7 * DAY} & lasts
    daily = {moment for moment in moments if now - moment < 365 * DAY} & of_days
    return young | hourly | daily | {max(moments)}


def left(moments, now):
    """What stays of copies of these moments, by the function of the tools."""
    copies = [DatedCopy(moment, "") for moment in sorted(moments, reverse=True)]
    return {*moments} - {copy.moment for copy in surplus(copies, now)}


class Retention(Case):
    """Which copies stay, by their moments."""

    end = T0 + 400 * DAY + 5 * HOUR

    def test_the_names_of_copies_begin_with_that_of_the_desk_without_its_folder_or_slashes(self):
        for desk in "desk.db", "./desk.db", "/srv/gr/desk.db", "/srv/gr/desk.db/", "desk.db//":
            with self.subTest(desk=desk):
                self.assertEqual(base_of(desk), "desk.db")

    def test_of_copies_of_400_days_those_stay_that_the_help_names(self):
        moments = [*range(T0, self.end, QUARTER)]
        self.assertEqual(sorted(left(moments, self.end)), sorted(stays(moments, self.end)))

    def test_the_same_copies_stay_where_each_quarter_takes_what_is_surplus(self):
        kept = set()
        for now in range(T0, T0 + 9 * DAY, QUARTER):
            kept = left(kept | {now}, now)
        self.assertEqual(sorted(kept), sorted(stays(range(T0, now + 1, QUARTER), now)))

    def test_the_last_copy_stays_however_old_it_is(self):
        self.assertEqual(left([T0], self.end), {T0})


class Folder(Case):
    """A look at a desk, in a folder with copies of 500 days, one of a later moment, and one of another desk."""

    now = AT + 7 * HOUR + 60
    past = [*range(now - 10 * DAY, now, HOUR // 2), *range(T0, now - 10 * DAY, DAY // 3)]
    past += [now - 365 * DAY, now - 500 * DAY]
    future, other = now + DAY, "other.db-20250101T000000Z"

    @classmethod
    def setUpClass(cls):
        cls.timed = Timed(cls.shared_folder())
        for moment in [*cls.past, cls.future]:
            for end in "", "-wal", ".sha256":
                (cls.timed.copies / f"{name_of(moment)}{end}").write_bytes(b"")
        (cls.timed.copies / cls.other).write_bytes(b"")
        cls.found = cls.timed.look(cls.now)

    def test_just_the_copies_stay_that_must_beside_what_has_another_name(self):
        names = map(name_of, stays([*self.past, self.now], self.now) | {self.future})
        self.assertEqual(self.found, sorted([*names, self.other]))

    def test_a_copy_stays_or_goes_with_its_three_files(self):
        for name in map(name_of, self.past):
            with self.subTest(copy=name):
                ends = {path.name[len(name) :] for path in self.timed.copies.glob(f"{name}*")}
                self.assertEqual(ends, {"", "-wal", ".sha256"} if name in self.found else set())


class Changes(Case):
    """When a look at a desk makes a copy: where acts came since the last one."""

    def setUp(self):
        self.timed = Timed(self.folder())
        self.timed.act(T0, "d1")

    def names_of(self, *quarters):
        """The names of copies that were made so many quarters after the beginning."""
        return [name_of(AT + number * QUARTER) for number in quarters]

    def test_a_look_without_an_act_makes_no_copy_and_the_last_one_has_its_time(self):
        self.assertEqual(self.timed.look(AT), self.names_of(0))
        self.assertEqual(self.timed.look(AT + QUARTER), self.names_of(0))
        self.assertEqual(int((self.timed.copies / name_of(AT)).stat().st_mtime), AT + QUARTER)

    def test_a_look_after_an_act_makes_a_copy(self):
        self.timed.look(AT)
        self.timed.act(T0, "d2")
        self.assertEqual(self.timed.look(AT + 2 * QUARTER), self.names_of(0, 2))

    def test_a_look_after_a_restore_and_another_act_at_the_date_of_the_one_that_is_gone_makes_a_copy(self):
        self.timed.look(AT)
        self.timed.act(T0, "d2")
        self.timed.look(AT + 2 * QUARTER)
        for end in "", "-wal":
            Path(f"{self.timed.file}{end}").unlink()
        self.assertEqual(tool("restore", self.timed.copies / name_of(AT), self.timed.file), OK)
        self.timed.count = 1
        self.timed.act(T0, "d3")
        self.assertEqual(self.timed.look(AT + 3 * QUARTER), self.names_of(0, 2, 3))

    def test_a_copy_that_is_damaged_is_no_copy(self):
        [name] = self.timed.look(AT)
        with open(self.timed.copies / name, "r+b") as damaged:
            damaged.write(b"\0")
        self.assertEqual(self.timed.look(AT + 4 * QUARTER), self.names_of(0, 4))
        self.assertEqual(self.timed.look(AT + 5 * QUARTER), self.names_of(0, 4))

    def test_two_copies_of_one_second_have_two_names(self):
        self.timed.look(AT)
        self.timed.act(T0, "d2")
        self.assertEqual(self.timed.look(AT), [name_of(AT), name_of(AT + 1)])

    def test_two_ways_to_keep_are_refused(self):
        ran = self.timed.tool(AT, "backup", "--thin", "--keep", 3, self.timed.file, self.timed.copies)
        text = b"gr-desk backup: --keep and --thin are given: give only one of them\n"
        self.assertEqual(ran, Ran(2, b"", text))


ENDS = "", "-wal", ".sha256"


def write_copies(place, *names):
    """Puts what has the names of copies into a folder."""
    for name in names:
        for end in ENDS:
            (place / f"{name}{end}").write_text(name)


def left_of(place, *names):
    """Those of these copies that are there, with all their files."""
    return [name for name in names if all((place / f"{name}{end}").exists() for end in ENDS)]


class BeforeVotes(Case):
    """Copies that gr-desk votes makes of a desk before it sends anything."""

    SAFE = [name_before_votes("desk.db", T0 + number) for number in range(4)]

    def test_a_copy_before_votes_has_a_name_of_its_own(self):
        self.assertEqual(self.SAFE[0], "desk.db-before-votes-20260101T000000Z")

    def test_no_backup_counts_or_removes_them(self):
        for words, kept in (["--keep", 1], 1), (["--thin"], 2):
            with self.subTest(words=words):
                timed = Timed(self.folder())
                timed.act(T0, "d1")
                write_copies(timed.copies, *self.SAFE)
                for number in range(2):
                    self.assertEqual(timed.tool(AT + number, "backup", *words, timed.file, timed.copies)[:2], OK[:2])
                    timed.act(T0, f"e{number}")
                self.assertEqual(left_of(timed.copies, *self.SAFE), self.SAFE)
                others = [name for name in timed.names() if name not in self.SAFE]
                self.assertEqual(others, [name_of(AT + number) for number in range(2)][-kept:])

    def test_none_of_them_is_sent_elsewhere(self):
        timed = Timed(self.folder())
        write_copies(timed.copies, *self.SAFE)
        environment = {"COPY_KEY": "age1x", "COPY_TO": "exit 9", "PATH": str(few_programs(timed.work))}
        write_program(timed.work / "bin", "age", "exec cat")
        ran = timed.tool(AT, "copy_out", timed.file, timed.copies, **environment)
        why = f"gr-desk copy_out: nothing was sent: {timed.copies} has no copy of desk.db\n"
        self.assertEqual(ran, Ran(1, b"", why.encode()))

    def test_a_desk_with_a_name_like_theirs_gets_no_copies_by_keep_and_they_stay(self):
        timed = Timed(self.folder())
        write_copies(timed.copies, *self.SAFE)
        desk = timed.file.rename(timed.work / "desk.db-before-votes")
        why = f"nothing was done: copies of {desk.name} have names like those that gr-desk votes makes: rename it"
        for words in ["--keep", 1], ["--thin"]:
            with self.subTest(words=words):
                ran = timed.tool(AT, "backup", *words, desk, timed.copies)
                self.assertEqual(ran, Ran(1, b"", f"gr-desk backup: {why}\n".encode()))
                self.assertEqual(timed.names(), self.SAFE)

    def test_votes_keeps_three_of_them_and_leaves_all_other_copies(self):
        work = self.folder()
        desk = Called.made(work, 3)
        came, journal = Came(work / "came", desk), work / "journal"
        others = "called.db-20260101T000000Z", "other.db-before-votes-20260101T000000Z", "called.db-before-votes-1"
        old = [name_before_votes("called.db", T0 + number) for number in range(4)]
        write_copies(work, *others, *old)
        came.text("d1", came.filled("123"), CALLED + HOUR)
        with mock.patch.dict(os.environ, {"TZ": "AWAY-7"}):
            began = int(time.time())
            ran = votes(desk.file, 1, came.place, journal=journal)
            ended = int(time.time())
        self.assertEqual(ran.status, 0, ran)
        self.assertEqual(left_of(work, *others), [*others])
        form = re.compile("called[.]db-before-votes-[0-9]{8}T[0-9]{6}Z")
        *kept, new = sorted(path.name for path in work.iterdir() if form.fullmatch(path.name))
        self.assertEqual((left_of(work, *old), kept), (old[2:], old[2:]))
        made = datetime.strptime(new, "called.db-before-votes-%Y%m%dT%H%M%SZ").replace(tzinfo=timezone.utc).timestamp()
        self.assertTrue(began <= made <= ended, f"{new} was made between {began} and {ended}")
        self.assertEqual(run("status", work / new, 1).status, 0)
        for name in old[:2]:
            self.assertIn(f"removed {work}/{name}: 3 newer copies of this kind are kept", ran.err.decode())

    def test_one_with_a_later_name_does_not_take_the_place_of_the_new_one(self):
        """As after a clock that was wrong."""
        work = self.folder()
        desk = Called.made(work, 3)
        came = Came(work / "came", desk)
        later = [name_before_votes("called.db", T0 + 9_000 * DAY + number) for number in range(4)]
        write_copies(work, *later)
        came.text("d1", came.filled("123"), CALLED + HOUR)
        self.assertEqual(votes(desk.file, 1, came.place, journal=work / "journal").status, 0)
        form = re.compile("called[.]db-before-votes-[0-9]{8}T[0-9]{6}Z")
        kept = sorted(path.name for path in work.iterdir() if form.fullmatch(path.name))
        self.assertEqual(kept[1:], later[2:])
        self.assertEqual(run("status", work / kept[0], 1).status, 0)


class Names(Case):
    """What the names of copies say, on a machine whose clock shows a local time."""

    def setUp(self):
        self.enter(mock.patch.dict(os.environ, {"TZ": "AWAY-7"}))
        self.timed = Timed(self.folder())
        self.timed.act(T0, "d1")

    def test_the_time_of_a_copy_is_in_utc(self):
        self.assertEqual(self.timed.look(AT), ["desk.db-20260210T000000Z"])
        ran = self.timed.tool(AT + 1, "backup", "--keep", 1, self.timed.file, self.timed.copies)
        self.assertEqual((ran[:2], self.timed.names()), (OK[:2], ["desk.db-20260210T000001Z"]))

    def test_the_hour_of_what_is_sent_is_in_utc(self):
        self.timed.look(AT)
        sent, programs = self.folder(), few_programs(self.timed.work)
        write_program(programs, "age", "exec cat")
        environment = {"COPY_KEY": "age1x", "COPY_TO": f'cp "$1" {sent}', "PATH": str(programs)}
        self.assertEqual(self.timed.tool(AT, "copy_out", self.timed.file, self.timed.copies, **environment), OK)
        self.assertEqual(os.listdir(sent), ["desk.db-20260210T00Z.tar.age"])


class OneKept(Case):
    """`--keep 1`, which removes the copy before once the new one stands."""

    def test_a_desk_that_does_not_open_leaves_the_copy_that_was_there(self):
        timed = Timed(self.folder())
        timed.act(T0, "d1")
        self.assertEqual(timed.tool(AT, "backup", "--keep", 1, timed.file, timed.copies), OK)
        [name] = timed.names()
        found = {path.name: path.read_bytes() for path in timed.copies.iterdir()}
        timed.file.write_bytes(b"no desk\n" * 999)
        ran = timed.tool(AT + 1, "backup", "--keep", 1, timed.file, timed.copies)
        said = b"fault F2 Store\ngr-desk backup: the copy does not open, and is not kept\n"
        self.assertEqual(ran, Ran(3, b"", said))
        self.assertEqual({path.name: path.read_bytes() for path in timed.copies.iterdir()}, found, name)
