"""Looks at the SHA-256 that gr-desk backup keeps beside a copy, and at what gr-desk restore does with it. Then it turns
bits in a desk itself, where nothing but the program looks, and looks at copies of which only the newest are kept."""
import random
import re
import shutil
import subprocess
import time
from collections import Counter
from contextlib import contextmanager

from tests.support.case import Case
from tests.support.program import DAY, T0, Ran, expect, make_desk, once, receipt, run, serve, tool

OK = Ran(0, b"ok\n", b"")
CALLED = T0 + 14 * DAY
VOTES = 20
# How many bits are turned, drawn by a seed: in a copy, and in a desk.
OF_A_COPY, OF_A_DESK = 10, 25
# A log that is shorter has nothing of the desk.
LEAST_LOG_BYTES = 56
# A copy of the desk while it was closed, and one while it was served and its log had votes.
CLOSED, SERVED = COPIES = "closed.db", "served.db"


def said(text, name="restore"):
    return f"gr-desk {name}: {text}\n".encode()


def parts(file):
    """A copy, its log and its digests."""
    return [file, file.with_name(f"{file.name}-wal"), file.with_name(f"{file.name}.sha256")]


def remove(file):
    for path in parts(file):
        path.unlink(missing_ok=True)


def has_log(copy):
    return parts(copy)[1].stat().st_size >= LEAST_LOG_BYTES


def turned(content, place, bit):
    return content[:place] + bytes([content[place] ^ 1 << bit]) + content[place + 1 :]


def new_desk(work):
    """A desk in its voting, which was closed."""
    file = work / "desk.db"
    make_desk(file)
    (work / "roll.csv").write_text("login,name,status\n" + "".join(f"d{n},A Name,current\n" for n in range(1, 31)))
    run("import", file, work / "roll.csv", "--at", T0)
    form = f"author=@leader&summary=Red&text={'Red+or+not.+' * 800}&ratio=1"
    once(file, T0, "/resolutions", form, "ok 2 resolution 1")
    once(file, CALLED, "/resolutions/1/call", "days=7", f"ok 3 places 2 until {CALLED + 7 * DAY}")
    return file


def vote(desk, number):
    login, token = f"d{number}", f"token{number:05}"
    line = f"ok {number + 3} receipt {receipt(1, login, token)}"
    desk.accepts("/resolutions/1/vote", f"login={login}&ranks=12&token={token}", line)


@contextmanager
def voted(file):
    """The desk while it is served and its log has the votes. It is killed then, so that its log has them still."""
    with serve(file, 999, "--at", CALLED) as desk:
        for number in range(1, VOTES + 1):
            vote(desk, number)
        yield
        desk.kill()


class Digests(Case):
    @classmethod
    def setUpClass(cls):
        cls.work = cls.shared_folder()
        file = new_desk(cls.work)
        expect("backup", tool("backup", file, cls.work / CLOSED), OK)
        with voted(file):
            expect("backup", tool("backup", file, cls.work / SERVED), OK)

    def copy_of(self, name):
        """One of the two copies, in a folder of its own."""
        copy = self.folder() / name
        for path, source in zip(parts(copy), parts(self.work / name)):
            shutil.copyfile(source, path)
        return copy

    def finds_right(self, place, name):
        line = ["sha256sum", "--strict", "-c", name]
        ran = subprocess.run(line, cwd=place, capture_output=True, check=False)
        self.assertEqual(ran.returncode, 0, ran)

    def restores(self, copy):
        """A copy is restored, and what it makes is gone afterwards."""
        new = copy.with_name("new.db")
        self.assertEqual(tool("restore", copy, new), OK)
        remove(new)

    def refuses(self, copy, *forms):
        """A restore fails with a line of one of these forms, and makes nothing."""
        new = copy.with_name("new.db")
        ran = tool("restore", copy, new)
        self.assertEqual((ran.status, ran.out), (3, b""), ran)
        self.assertTrue(any(re.fullmatch(form, ran.err.decode()) for form in forms), ran)
        self.assertEqual([path.name for path in parts(new) if path.exists()], [])

    def is_not_as_copied(self, copy, why=".*"):
        return rf"gr-desk restore: {re.escape(str(copy))} is not as it was copied: {why}\n"

    def has_no_digests(self, copy):
        return rf"gr-desk restore: {re.escape(str(copy))}\.sha256 is none that gr-desk backup wrote\n"

    def test_a_line_of_the_digests_is_that_of_sha256sum_for_the_file_and_for_a_log_that_has_something(self):
        for name, count in zip(COPIES, (1, 2)):
            with self.subTest(copy=name):
                text = parts(self.work / name)[2].read_text()
                self.assertEqual(len(re.findall(rf"^[0-9a-f]{{64}}  {name}(-wal)?$", text, re.M)), count)
                self.assertEqual(len(text.splitlines()), count)
                self.finds_right(self.work, f"{name}.sha256")

    def test_a_copy_of_any_name_is_found_right_and_restored(self):
        for name in "-x", "a b", "ä€", "back\\slash", "line\nend", "desk-wal":
            with self.subTest(name=name):
                copy = self.folder() / name
                self.assertEqual(tool("backup", self.work / CLOSED, f"./{name}", cwd=copy.parent), OK)
                self.finds_right(copy.parent, f"./{name}.sha256")
                self.restores(copy)

    def test_a_copy_in_which_a_bit_turned_is_not_restored(self):
        drawn = random.Random(7)
        for copy in map(self.copy_of, COPIES):
            lost = self.is_not_as_copied(copy, "the SHA-256 of .* is [0-9a-f]{64}, and .*")
            of_digests = self.is_not_as_copied(copy), self.has_no_digests(copy)
            for path, forms in zip(parts(copy), ([lost], [lost], of_digests)):
                if path.name.endswith("-wal") and not has_log(copy):
                    continue
                content = path.read_bytes()
                # The names in the digests are for sha256sum alone.
                most = len(content) if not path.name.endswith(".sha256") else 64
                for _ in range(OF_A_COPY):
                    place, bit = drawn.randrange(most), drawn.randrange(8)
                    with self.subTest(file=path.name, place=place, bit=bit):
                        path.write_bytes(turned(content, place, bit))
                        self.refuses(copy, *forms)
                path.write_bytes(content)

    def test_a_copy_with_another_log_or_without_it_is_not_restored_where_it_has_something(self):
        for copy in map(self.copy_of, COPIES):
            log = parts(copy)[1]
            content = log.read_bytes()
            for other in content[:20], None, content + bytes(LEAST_LOG_BYTES):
                with self.subTest(copy=copy.name, length=None if other is None else len(other)):
                    if other is None:
                        log.unlink()
                    else:
                        log.write_bytes(other)
                    # Another head of a log that has nothing, or none, is no other desk.
                    if has_log(self.work / copy.name) or other and len(other) >= LEAST_LOG_BYTES:
                        self.refuses(copy, self.is_not_as_copied(copy))
                    else:
                        self.restores(copy)
                log.write_bytes(content)

    def test_digests_that_no_backup_wrote_are_refused(self):
        for copy in map(self.copy_of, COPIES):
            digests = parts(copy)[2]
            content = digests.read_bytes()
            for other in b"", b"x\n", parts(copy)[1].read_bytes()[:30], content * 3:
                with self.subTest(copy=copy.name, digests=other[:20]):
                    digests.write_bytes(other)
                    self.refuses(copy, self.has_no_digests(copy))

    def test_a_copy_that_was_looked_at_is_as_it_was_copied(self):
        for copy in map(self.copy_of, COPIES):
            for line in ["roll", copy], ["status", copy, 1], ["migrate", copy]:
                with self.subTest(copy=copy.name, line=line[0]):
                    self.assertEqual(run(*line).status, 0)
            with self.subTest(copy=copy.name, line="restore"):
                new = copy.with_name("new.db")
                self.assertEqual(tool("restore", copy, new), OK)
                self.assertEqual(run("status", new, 1), run("status", copy, 1))

    def test_a_copy_that_took_an_act_is_not_restored_and_without_its_digests_it_is_with_a_warning(self):
        copy = self.copy_of(CLOSED)
        once(copy, CALLED, "/developers", "login=d1&name=One&status=current", "ok 4")
        self.refuses(copy, self.is_not_as_copied(copy))
        parts(copy)[2].unlink()
        warning = f"warning: {copy}.sha256 is not there, so nothing tells whether {copy} is as it was copied"
        self.assertEqual(tool("restore", copy, copy.with_name("new.db")), Ran(0, b"ok\n", said(warning)))


def sheets_of(file):
    """What a desk says: its tally, after a close, or the line of its fault."""
    ended = CALLED + 7 * DAY
    ran = run("once", file, "--at", ended, given=b"POST /resolutions/1/close HTTP/1.1\r\n\r\n")
    if ran.status != 0:
        return ran.err or ran.out
    return b"".join(run(kind, file, *number).out for kind, number in (("roll", []), ("status", [1]), ("tally", [1])))


def votes_of(sheets):
    return set(re.findall(rb"^V: .*$", sheets, re.M))


class Desks(Case):
    """Bits that turn in the file and in the log of a desk which nobody holds a digest against, as docs/formats.md has
    it: in the log nothing is reported, and no act is there that was not, nor one after a lost one."""

    @classmethod
    def setUpClass(cls):
        file = new_desk(cls.shared_folder())
        with voted(file):
            pass
        cls.content = [path.read_bytes() for path in parts(file)[:2]]
        receipts = (receipt(1, f"d{number}", f"token{number:05}") for number in range(1, VOTES + 1))
        cls.lines = [f"V: 12 {digits}".encode() for digits in receipts]

    def sheets_with(self, content):
        """What a desk of this file and log says."""
        desk = self.folder() / "turned.db"
        for path, data in zip(parts(desk), content):
            path.write_bytes(data)
        return sheets_of(desk)

    def kinds_of(self, which, seed):
        """How often a desk says what, with a bit turned in its file (0) or in its log (1)."""
        right = self.sheets_with(self.content)
        prefixes = [set(self.lines[:count]) for count in range(VOTES)]
        drawn = random.Random(seed)
        # Most of a page is empty, and a log has room ahead: bits are drawn where bytes are.
        full = [place for place, byte in enumerate(self.content[which]) if byte]
        kinds = Counter()
        for _ in range(OF_A_DESK):
            changed = list(self.content)
            changed[which] = turned(changed[which], drawn.choice(full), drawn.randrange(8))
            found = self.sheets_with(changed)
            if found == right:
                kinds["the same"] += 1
            elif found.startswith(b"fault F") and found.count(b"\n") == 1:
                kinds["a fault"] += 1
            elif found.startswith(b"Developers: ") and votes_of(found) in prefixes:
                kinds["fewer votes"] += 1
            else:
                kinds["another"] += 1
        return kinds

    def test_a_desk_whose_serve_was_killed_has_its_votes(self):
        self.assertEqual(votes_of(self.sheets_with(self.content)), set(self.lines))

    def test_bits_that_turn_in_the_file_are_reported_by_a_fault(self):
        self.assertGreater(self.kinds_of(0, 11)["a fault"], 0)

    def test_bits_that_turn_in_the_log_end_the_acts_there_and_make_no_desk_that_never_was(self):
        kinds = self.kinds_of(1, 12)
        self.assertGreater(kinds["fewer votes"], 0, kinds)
        self.assertEqual((kinds["another"], kinds["a fault"]), (0, 0), kinds)


def kept_in(place):
    """The copies whose names have a time."""
    return {path.name for path in place.iterdir() if re.fullmatch("desk.db-[0-9]{8}T[0-9]{6}Z", path.name)}


class Keep(Case):
    """Copies in a folder whose names have their times, of which the newest are kept."""

    # What has a name that is like that of a copy.
    OTHERS = "desk.db-20260101T000000", "other.db-20260101T000000Z", "desk.db-20260101T000000Z.txt"

    @classmethod
    def setUpClass(cls):
        cls.file = new_desk(cls.shared_folder())

    def copied(self, place, keep, made):
        """The name of a copy that is made in a folder with these, of which so many are kept. What is reported is that
        the one before those that stay was removed."""
        ran = tool("backup", "--keep", keep, self.file, place)
        self.assertEqual((ran.status, ran.out), (0, b"ok\n"))
        [new] = kept_in(place) - set(made)
        gone = [*made, new][-keep - 1 : -keep]
        lines = [said(f"removed {place}/{name}: {keep} newer copies are kept", "backup") for name in gone]
        self.assertEqual(ran.err, b"".join(lines))
        # Another copy has another name.
        time.sleep(1.1)
        return new

    def test_the_newest_copies_are_kept_and_no_file_of_another_name_goes(self):
        place, made = self.folder(), []
        for name in self.OTHERS:
            (place / name).write_text("x")
        for _ in range(4):
            made.append(self.copied(place, 2, made))
        kept = [part.name for name in made[-2:] for part in parts(place / name)]
        self.assertEqual(sorted(path.name for path in place.iterdir()), sorted([*kept, *self.OTHERS]))
        self.assertEqual(tool("restore", place / made[-1], self.folder() / "new.db"), OK)

    def test_a_folder_that_is_not_there_is_reported(self):
        none = self.folder() / "none"
        reported = Ran(3, b"", said(f"the folder {none} is not there", "backup"))
        self.assertEqual(tool("backup", "--keep", 2, self.file, none), reported)

    def test_a_copy_with_a_later_name_does_not_take_the_place_of_the_new_one(self):
        """As after a clock that was wrong."""
        place = self.folder()
        made = self.copied(place, 2, [])
        later = place / "desk.db-20990101T000000Z"
        for path, source in zip(parts(later), parts(place / made)):
            shutil.copyfile(source, path)
        self.assertEqual(tool("backup", "--keep", 1, self.file, place).status, 0)
        [name] = kept_in(place)
        self.assertNotIn(name, (made, later.name))
