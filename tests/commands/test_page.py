"""What gr-desk page says at each stage of a resolution, and the folder that it writes of all. A vote is led from the
draft to the casting vote. At each stage the page says what holds, and before the close nothing of the ballots: with one
ballot, with none and with four the pages are the same bytes, and the clock and the count of acts are on none. Two runs
at one --at give the same files, with the same dates, and no file of an outbox is among them. Nothing is written through
a link, or into a folder that others can write. Who voted is listed if that is asked for and shows no ballot."""
import os
import re
import resource
import shutil
import stat
import sys

from tests.support.called import CALLED, DAYS, ENDED, Called
from tests.support.case import Case
from tests.support.journaled import CALL, DISCUSSION, VOTES, Journaled
from tests.support.program import DAY, T0, TOP, Ran, expect, run, serve, tool

sys.path.insert(0, str(TOP / "tools"))
from grdesk.web.closed_vote import ClosedVote  # noqa: E402
from grdesk.web.matrix import matrix  # noqa: E402

HOSTILE = "<b>Green</b> \u202e & \"'"
ONE = "The Name of 1 (d1)"
RANKS = "123456789abcdefghijklmnopqrstuvwxyz"
# The files of a folder with a closed vote and a discussion, beside the index.
CLOSED_ENDS = "form.txt", "html", "result.txt", "status.txt", "tally.txt", "voters.txt"
NAMES = [*(f"resolution-1.{end}" for end in CLOSED_ENDS), "resolution-2.html", "resolution-2.status.txt"]


def page(*words):
    ran = tool("page", *words)
    expect(f"page {words}", ran[::2], (0, b""))
    return ran.out.decode()


def line_of(text):
    """A line of the tool on error output."""
    return f"gr-desk page: {text}\n".encode()


def written(files, count):
    """What comes of a run that writes a folder."""
    return Ran(0, b"", line_of(f"{count} files written to {files}"))


def found_in(place):
    """What is in a folder, in its order: of each file its bytes, its mode and its date."""
    found = {".": (b"", stat.filemode(place.stat().st_mode), int(place.stat().st_mtime))}
    for name in sorted(os.listdir(place)):
        about = (place / name).stat()
        found[name] = (place / name).read_bytes(), stat.filemode(about.st_mode), int(about.st_mtime)
    return found


class Pages(Case):
    def says(self, text, *texts):
        """The page says these, whatever its elements and the blanks between its words."""
        plain = " ".join(re.sub("<[^>]*>", "", text).split())
        for each in texts:
            with self.subTest(text=each):
                self.assertIn(each, plain)


class Stages(Pages):
    def test_the_page_of_a_draft_says_which_sponsors_are_missing(self):
        desk = Journaled.made(self.folder(), "draft", DISCUSSION[:2])
        self.says(page("--at", T0, desk.file, 1), "Resolution 1: Red",
                  "A draft: no choice is introduced yet. As of 2026-01-01T00:00:00Z.",
                  f"Choice 1: Red Proposed by {ONE}. It has 0 sponsors; 1 is needed (Constitution, 4.2.1 and 4.2.7).",
                  "It needs a majority of 3:1. It is not introduced. The desk is red.")

    def test_the_page_of_a_discussion_says_its_times_its_people_and_its_amendments(self):
        desk = Journaled.made(self.folder(), "discussed", DISCUSSION)
        text = page("--journal", desk.journal, "--at", T0 + 3 * DAY, desk.file, 1)
        self.says(text, "Under discussion. As of 2026-01-04T00:00:00Z.",
                  "Discussion2026-01-01T00:00:00Z2026-01-15T00:00:00Z",
                  "The ballot was changed last 2026-01-03T00:00:00Z",
                  "Sponsored by The Name of 2 (d2). It has 1 sponsor; 1 is needed",
                  "Choice 2: Green Proposed by the leader. It has 0 sponsors; none is needed",
                  "Amendments Choice 1 got a substantial amendment 2026-01-03T00:00:00Z (Constitution, A.1.3)",
                  "and is now Crimson. Before, it was: Red The desk is red.")

    def test_a_page_without_the_journal_has_no_amendments(self):
        desk = Journaled.made(self.folder(), "discussed", DISCUSSION)
        self.assertNotIn("Amendments", page("--at", T0 + 3 * DAY, desk.file, 1))

    def test_the_page_of_a_discussion_that_is_over_says_so(self):
        desk = Journaled.made(self.folder(), "discussed", DISCUSSION)
        self.says(page("--at", CALLED, desk.file, 1), "The discussion is over, and the call")

    def short(self, at):
        """A desk on which a choice is short of sponsors, and the discussion is varied, from a moment on."""
        desk = Journaled.made(self.folder(), "short", DISCUSSION)
        for act in "vary 1 days=-2", "unsponsor 1 choice=1 login=d2":
            expect(f"act {act}", desk.act("--at", at, *act.split()).status, 0)
        return desk

    def test_the_page_of_a_short_choice_says_when_it_lapses_and_what_varied_the_discussion(self):
        at = T0 + 4 * DAY
        self.says(page("--at", at, self.short(at).file, 1), "The Leader has varied the discussion by 2 days less",
                  "It is short of a proposer or of sponsors since 2026-01-05T00:00:00Z,"
                  " and lapses 2026-01-06T00:00:00Z if")

    def test_the_page_of_a_lapsed_choice_says_when_that_was_also_after_the_call(self):
        at = T0 + 4 * DAY
        desk = self.short(at)
        self.says(page("--at", at + DAY, desk.file, 1), "and has lapsed 2026-01-06T00:00:00Z")
        desk.accepts([(*CALL[:3], f"ok 8 places 2 until {ENDED}")])
        self.says(page("--at", CALLED, desk.file, 1), "Choice 1: Green", "Not on the ballot: Crimson",
                  "and has lapsed 2026-01-06T00:00:00Z")


class Secrets(Pages):
    """Pages of one vote before its close, with none, one and four ballots."""

    @classmethod
    def setUpClass(cls):
        cls.made, cls.ran = {}, {}
        for name, acts in ("none", []), ("one", VOTES[:1]), ("four", VOTES):
            desk = Journaled.made(cls.shared_folder(), name, [*DISCUSSION, CALL, *acts])
            files = desk.file.with_name("public")
            words = "--journal", desk.journal, "--at", CALLED + 5 * DAY, desk.file
            cls.ran[name] = tool("page", *words, "--all", files), written(files, 4)
            cls.made[name] = found_in(files), page(*words, 1)
        cls.file = desk.file

    def test_each_folder_is_written(self):
        for name, (ran, expected) in self.ran.items():
            with self.subTest(ballots=name):
                self.assertEqual(ran, expected)

    def test_pages_before_the_close_do_not_depend_on_the_ballots(self):
        for name in "one", "four":
            with self.subTest(ballots=name):
                self.assertEqual(self.made[name], self.made["none"])

    def test_pages_before_the_close_have_no_token_no_rank_no_clock_and_no_count_of_acts(self):
        for name, (files, _) in self.made.items():
            for path, (content, *_) in files.items():
                for secret in "tokenA", "bbz", "z-b", "2026-01-16", "2026-01-17", "receipt:", "Received":
                    with self.subTest(ballots=name, path=path, secret=secret):
                        self.assertNotIn(secret, content.decode())

    def test_the_page_of_a_vote_says_its_times_and_its_choices(self):
        self.says(self.made["none"][1], "In voting. As of 2026-01-20T00:00:00Z.", "Choice 1: Crimson",
                  "Choice 3: None of the above The default option",
                  "Voting2026-01-15T00:00:00Z2026-01-22T00:00:00Z")

    def test_a_page_of_a_moment_before_the_call_is_warned_of(self):
        text = "warning: voting of resolution 1 began 2026-01-15T00:00:00Z, after 2026-01-14T23:59:59Z;"
        text += " its page tells how it is now"
        self.assertEqual(tool("page", "--at", CALLED - 1, self.file, 1)[::2], (0, line_of(text)))

    def test_the_page_of_a_vote_whose_time_is_over_says_so(self):
        self.says(page("--at", ENDED, self.file, 1), "The time for votes is over, and the close")


class Folders(Pages):
    """The folder of a desk with a closed vote and a discussion."""

    @classmethod
    def setUpClass(cls):
        work = cls.shared_folder()
        cls.desk = Called.made(work, 9, "all", ("Red", HOSTILE, "Blue"))
        votes = ["1234"] * 4 + ["3124"] * 3 + ["2314"] * 2
        for number, ranks in enumerate(votes, start=1):
            cls.desk.vote(number, f"d{number}", ranks, f"secretToken{number}")
        cls.desk.enter(ENDED, ("/resolutions/1/close", "", ""))
        cls.files = work / "public"
        cls.ran = tool("page", "--at", ENDED + DAY, cls.desk.file, "--all", cls.files, "--voters")
        cls.first = found_in(cls.files)

    def page(self):
        return (self.files / "resolution-1.html").read_text()

    def test_the_folder_has_an_index_and_the_files_of_each_resolution(self):
        self.assertEqual(self.ran, written(self.files, 9))
        self.assertEqual(sorted(self.first), sorted([".", "index.html", *NAMES]))

    def test_each_file_is_readable_by_all_and_has_the_date_of_the_page(self):
        for name, (_, mode, date) in self.first.items():
            with self.subTest(name=name):
                kind = "drwxr-xr-x" if name == "." else "-rw-r--r--"
                self.assertEqual((mode, date), (kind, ENDED + DAY))

    def test_a_second_run_gives_the_same_files_and_takes_away_what_an_earlier_one_left(self):
        files = shutil.copytree(self.files, self.folder() / "public")
        # As an earlier run may have left them, after which a copy of the desk was put back.
        for name in "resolution-2.tally.txt", "resolution-3.html", "index.html.new":
            (files / name).write_text("")
        ran = tool("page", "--at", ENDED + DAY, self.desk.file, "--all", files, "--voters")
        self.assertEqual(ran, written(files, 9))
        self.assertEqual(found_in(files), self.first)

    def test_without_voters_no_list_of_them_is_written_and_one_of_an_earlier_run_is_taken_away(self):
        files = shutil.copytree(self.files, self.folder() / "public")
        for place in files, self.folder() / "new":
            with self.subTest(place=place.name):
                ran = tool("page", "--at", ENDED + DAY, self.desk.file, "--all", place)
                self.assertEqual(ran, written(place, 8))
                names = [name for name in NAMES if "voters" not in name]
                self.assertEqual(sorted(os.listdir(place)), sorted(["index.html", *names]))
                self.assertNotIn("voters", (place / "index.html").read_text())

    def test_each_file_is_linked_from_the_index_by_a_name_beside_it(self):
        text = (self.files / "index.html").read_text()
        self.assertEqual(sorted(re.findall('<a href="([^"]*)">', text)), sorted(NAMES))
        self.says(text, "As of 2026-01-23T00:00:00Z.", "Red", "The vote is closed.", "Under discussion.")

    def test_the_sheets_are_those_of_the_program(self):
        for sheet in "tally", "result", "status":
            with self.subTest(sheet=sheet):
                content = (self.files / f"resolution-1.{sheet}.txt").read_bytes()
                self.assertEqual(content, run(sheet, self.desk.file, 1).out)

    def test_the_form_and_the_voters_are_those_of_their_tools(self):
        for name, words in ("form", ["ballot", "form"]), ("voters", ["voters"]):
            with self.subTest(name=name):
                content = (self.files / f"resolution-1.{name}.txt").read_bytes()
                self.assertEqual(content, tool(*words, self.desk.file, 1).out)

    def test_the_page_is_the_one_that_is_printed(self):
        self.assertEqual(self.page(), page("--at", ENDED + DAY, self.desk.file, 1))

    def test_the_page_of_a_closed_vote_says_its_winner_and_its_quorum(self):
        self.says(self.page(), "The vote is closed.", "The winner is choice 1, Red.",
                  "Q is 1.50 and the quorum 3Q is 4.50, which 5 votes meet")

    def test_no_page_has_a_summary_that_is_not_escaped_a_token_or_a_moment_in_seconds(self):
        pages = sorted(self.files.glob("*.html"))
        self.assertEqual([path.name for path in pages], ["index.html", "resolution-1.html", "resolution-2.html"])
        for path in pages:
            for each in "<b>Green", "\u202e", "<script", "secretToken", str(ENDED):
                with self.subTest(path=path.name, each=each):
                    self.assertNotIn(each, path.read_text())


class Places(Pages):
    """Folders that are taken, and folders that are not."""

    @classmethod
    def setUpClass(cls):
        cls.desk = Called.made(cls.shared_folder(), 4)

    def refused(self, why):
        return Ran(1, b"", line_of(f"nothing was written: {why}"))

    def test_no_folder_is_written_to_that_has_anything_else(self):
        mixed = self.folder() / "mixed"
        mixed.mkdir()
        for name in "desk.db", "index.html":
            (mixed / name).write_text("")
        before = found_in(mixed)
        ran = tool("page", self.desk.file, "--all", mixed)
        why = f"{mixed} has desk.db, which would be published too; name a folder of its own"
        self.assertEqual(ran, self.refused(why))
        self.assertEqual(found_in(mixed), before)

    def test_a_folder_that_was_there_keeps_its_mode(self):
        private = self.folder() / "private"
        private.mkdir(mode=0o700)
        ran = tool("page", "--at", ENDED, self.desk.file, "--all", private)
        self.assertEqual(ran, written(private, 6))
        self.assertEqual(found_in(private)["."], (b"", "drwx------", ENDED))

    def test_no_folder_of_an_outbox_or_above_one_is_written_to(self):
        box = self.folder() / "box"
        outbox = box / "outbox"
        outbox.mkdir(parents=True)
        (outbox / ".written").write_text("")
        for place, why in (
            (outbox, f"{outbox} is inside the outbox {outbox}: name another folder"),
            (outbox / "public", f"{outbox}/public is inside the outbox {outbox}: name another folder"),
            (box, f"{box} contains the outbox {outbox}: name another folder"),
        ):
            with self.subTest(place=place.name):
                self.assertEqual(tool("page", self.desk.file, "--all", place), self.refused(why))
        self.assertEqual((os.listdir(box), os.listdir(outbox)), (["outbox"], [".written"]))

    def test_a_file_in_the_place_of_a_folder_is_a_failure(self):
        place = self.folder() / "a file"
        place.write_text("")
        self.assertEqual(tool("page", self.desk.file, "--all", place).status, 3)

    def test_a_resolution_and_all_do_not_go_together(self):
        ran = tool("page", self.desk.file, 1, "--all", self.folder() / "none")
        text = "there is a word too many: '1'; gr-desk page --help says more"
        self.assertEqual(ran, Ran(2, b"", line_of(text)))

    def test_pages_by_a_port_are_those_of_the_file_without_when_the_ballot_was_changed(self):
        at = "--at", CALLED + DAYS
        of_file = [re.sub("<p>The ballot was changed last [^<]*</p>\n", "", page(*at, self.desk.file, number))
                   for number in (1, 2)]
        with serve(self.desk.file, 99) as served:
            for number, expected in enumerate(of_file, start=1):
                with self.subTest(number=number):
                    self.assertEqual(page("--port", served.port, *at, number), expected)

    def test_a_folder_by_a_port_is_written(self):
        files = self.folder() / "public"
        with serve(self.desk.file, 99) as served:
            ran = tool("page", "--port", served.port, "--at", CALLED, "--all", files)
        self.assertEqual(ran, written(files, 6))

    def test_a_resolution_that_is_not_there_has_no_page(self):
        self.assertEqual(tool("page", self.desk.file, 3).status, 1)


# The ballots of a vote, and why there is no list of its voters beside its tally.
ALIKE = "all ballots are alike, so that this list tells who voted how"
REVEALED = {
    "one voter": ([("d2", "123")], "only 1 developer voted, so that the tally tells how"),
    "ballots that are alike": ([("d1", "12-"), ("d2", "12-"), ("d3", "12-")], ALIKE),
    "ballots of one order in other ranks": ([("d1", "12-"), ("d2", "249"), ("d3", "1z-")], ALIKE),
}


class Voters(Pages):
    """Folders with the lists of voters, or without those that would show how somebody voted."""

    def closed(self, ballots):
        """A desk with these ballots, whose vote is closed."""
        desk = Called.made(self.folder(), 6)
        for number, (login, ranks) in enumerate(ballots, start=1):
            desk.vote(number, login, ranks, f"tokenOf{login}")
        desk.enter(ENDED, ("/resolutions/1/close", "", ""))
        return desk

    def test_a_list_that_shows_how_somebody_voted_is_not_written_and_all_else_is(self):
        for name, (ballots, why) in REVEALED.items():
            with self.subTest(name=name):
                desk, files = self.closed(ballots), self.folder() / "public"
                files.mkdir()
                # As an earlier run may have left it, before there was such a rule.
                (files / "resolution-1.voters.txt").write_text("")
                ran = tool("page", "--at", ENDED + DAY, desk.file, "--all", files, "--voters")
                said = line_of(f"the list of voters of resolution 1 was not written: {why}")
                self.assertEqual(ran, Ran(1, b"", said + written(files, 8).err))
                names = [name for name in NAMES if "voters" not in name]
                self.assertEqual(sorted(os.listdir(files)), sorted(["index.html", *names]))

    def test_of_few_voters_the_list_is_written_with_a_warning_and_of_none_without(self):
        few = "warning: resolution-1.voters.txt: only 2 developers voted, so that the tally nearly tells who voted how"
        for ballots, said in ([("d1", "123"), ("d2", "213")], line_of(few)), ([], b""):
            with self.subTest(ballots=len(ballots)):
                desk, files = self.closed(ballots), self.folder() / "public"
                ran = tool("page", "--at", ENDED + DAY, desk.file, "--all", files, "--voters")
                self.assertEqual(ran, Ran(0, b"", said + written(files, 9).err))
                listed = (files / "resolution-1.voters.txt").read_bytes()
                self.assertEqual(listed, tool("voters", desk.file, 1).out)

    def test_voters_are_listed_for_a_folder_alone_and_from_a_file_alone(self):
        none = self.folder() / "none"
        page = "--voters needs --all FOLDER; gr-desk voters prints the list of one resolution"
        port = "--voters needs DESK: by a port it is not known who voted"
        for words, text in ((["a", 1, "--voters"], page), (["--port", 5, "--all", none, "--voters"], port)):
            with self.subTest(words=words):
                self.assertEqual(tool("page", *words), Ran(2, b"", line_of(text)))
        self.assertFalse(none.exists())


class Strangers(Pages):
    """Folders in which others have, or may have, put something."""

    @classmethod
    def setUpClass(cls):
        cls.desk = Called.made(cls.shared_folder(), 4)

    def setUp(self):
        self.work = self.folder()
        self.files, self.secret = self.work / "public", self.work / "secret"
        self.files.mkdir()
        self.secret.write_text("the ballots")
        self.secret.chmod(0o600)

    def page(self, place, **streams):
        return tool("page", "--at", ENDED, self.desk.file, "--all", place, **streams)

    def is_secret(self):
        about = self.secret.stat()
        found = self.secret.read_text(), stat.filemode(about.st_mode), about.st_nlink
        self.assertEqual(found, ("the ballots", "-rw-------", 1), "what a link leads to")

    def test_nothing_is_written_through_a_link_in_the_folder(self):
        self.files.chmod(0o755)
        for name in "index.html", "index.html.new", "resolution-1.html.new":
            (self.files / name).symlink_to("../secret")
        self.assertEqual(self.page(self.files), written(self.files, 6))
        self.is_secret()
        self.assertEqual([path.name for path in self.files.iterdir() if path.is_symlink()], [])

    def test_a_folder_into_which_others_can_write_is_refused_with_what_to_do(self):
        (self.files / "index.html.new").symlink_to("../secret")
        for mode in 0o777, 0o1777, 0o775, 0o757:
            with self.subTest(mode=oct(mode)):
                self.files.chmod(mode)
                why = f"other accounts can write into {self.files}, where all is published: chmod go-w {self.files}"
                self.assertEqual(self.page(self.files), Ran(1, b"", line_of(f"nothing was written: {why}")))
                self.is_secret()
                self.assertEqual(os.listdir(self.files), ["index.html.new"])

    def test_a_link_to_a_folder_of_this_account_leads_there(self):
        link = self.work / "link"
        link.symlink_to("public")
        self.assertEqual(self.page(link), written(link, 6))
        self.assertEqual(len(os.listdir(self.files)), 6)

    def test_a_link_of_another_account_and_a_folder_of_one_are_refused(self):
        if os.geteuid() != 0:
            self.skipTest("only root can give a file to another account")
        link, owned, by_link = self.work / "link", self.work / "owned", self.work / "by_link"
        link.symlink_to("public")
        os.chown(link, 54_321, -1, follow_symlinks=False)
        owned.mkdir()
        os.chown(owned, 54_321, -1)
        by_link.symlink_to("owned")
        foreign = "belongs to another account, where all is published: name a folder of your own"
        for place, why in (
            (link, f"{link} is a link of another account: name the folder itself"),
            (owned, f"{owned} {foreign}"),
            (by_link, f"{by_link} {foreign}"),
        ):
            with self.subTest(place=place.name):
                self.assertEqual(self.page(place), Ran(1, b"", line_of(f"nothing was written: {why}")))
        self.assertEqual((os.listdir(owned), os.listdir(self.files)), ([], []))

    def test_what_is_made_can_be_read_by_all_whatever_the_umask(self):
        for mask in 0, 0o077:
            with self.subTest(umask=oct(mask)), serve(self.desk.file, 99) as served:
                place = self.work / f"above{mask}" / "public"
                words = "--port", served.port, "--at", ENDED, "--all", place
                self.assertEqual(tool("page", *words, preexec_fn=lambda: os.umask(mask)), written(place, 6))
                modes = {mode for _, mode, _ in found_in(place).values()}
                self.assertEqual(modes, {"drwxr-xr-x", "-rw-r--r--"})
                self.assertEqual(stat.filemode(place.parent.stat().st_mode), "drwxr-xr-x")

    def test_a_file_that_a_full_disk_does_not_take_is_named(self):
        def fill():
            resource.setrlimit(resource.RLIMIT_FSIZE, (1_000, 1_000))

        with serve(self.desk.file, 99) as served:
            words = "--port", served.port, "--at", ENDED, "--all", self.files
            ran = tool("page", *words, preexec_fn=fill)
        why = f"{self.files}/resolution-1.html cannot be written: File too large"
        self.assertEqual(ran, Ran(3, b"", line_of(why)))
        self.assertEqual(os.listdir(self.files), [])


class Matrices(Case):
    def test_from_13_options_on_the_columns_are_in_blocks_of_12_and_each_pair_is_there_once(self):
        for count, blocks in (12, [12]), (13, [12, 1]), (35, [12, 12, 11]):
            with self.subTest(options=count):
                order = RANKS[:count]
                options = {place: f"Option {place}" for place in range(1, count + 1)}
                ballots = [(order, ""), (order[::-1], "")]
                vote = ClosedVote(1, "", 9, options, {}, {}, {}, [1], "Winner: 1", 1, ballots, None)
                tables = matrix(vote).split("<table>")[1:]
                heads = [re.findall('<th scope="col"[^>]*>([0-9]+)</th>', table) for table in tables]
                self.assertEqual([len(head) for head in heads], blocks)
                self.assertEqual([int(each) for head in heads for each in head], list(options))
                pairs = re.findall('id="pair-([0-9]+)-([0-9]+)" class="number">1<', "".join(tables))
                self.assertEqual(len(set(pairs)), count * (count - 1))
