"""Has a desk stand in one file with what stock SQLite made there: tables with rows, of which one counts them and some
refer to tables of the desk, indexes and views. The desk takes eighteen acts, in two parts, and shows its sheets. Then
the file is sound to stock SQLite, the desk has the rows that are written out below, and the rest is as it was. Where a
key has an action, rows of its own table may go, and none of the desk's; or the act is a fault, and changes nothing."""
import sqlite3
from contextlib import closing
from itertools import groupby
from operator import itemgetter

from tests.support.case import Case
from tests.support.program import DAY, T0, TOP, Ran, expect, make_desk, receipt, request, response, run, serve

CALLED = T0 + 14 * DAY
CLOSED = CALLED + 7 * DAY

# The acts: their moments, paths and forms, and what is noted after `ok` and the count.
ACTS = [
    (T0, "/developers", "login=d1&name=One&status=current", ""),
    (T0, "/import", "login,name,status\nd2,Two,current\nd3,Three,current\n", " added 2 changed 0 same 0"),
    (T0, "/resolutions", "author=d1&summary=Red&text=a&ratio=1", " resolution 1"),
    (T0, "/resolutions/1/sponsor", "choice=1&login=d2", ""),
    (T0, "/resolutions/1/choice", "author=@leader&summary=Green&text=b&ratio=1", " choice 2"),
    (T0, "/developers", "login=d4&name=Four&status=current", ""),
    (T0, "/resolutions/1/withdraw", "choice=2", ""),
    (T0, "/resolutions/1/adopt", "choice=2&author=@committee", ""),
    (T0, "/resolutions/1/unsponsor", "choice=1&login=d2", ""),
    (T0, "/resolutions/1/sponsor", "choice=1&login=d2", ""),
    (T0, "/resolutions/1/amend", "choice=1&minor=1&summary=Red&text=new", ""),
    (CALLED, "/resolutions/1/call", "days=7", f" places 3 until {CLOSED}"),
    (CALLED, "/resolutions/1/vote", "login=d1&ranks=113&token=tokenA01", f" receipt {receipt(1, 'd1', 'tokenA01')}"),
    (CALLED, "/resolutions/1/vote", "login=d2&ranks=113&token=tokenA02", f" receipt {receipt(1, 'd2', 'tokenA02')}"),
    (CALLED, "/resolutions/1/vote", "login=d3&ranks=131&token=tokenA03", f" receipt {receipt(1, 'd3', 'tokenA03')}"),
    (CALLED, "/resolutions/1/vote", "login=d3&ranks=113&token=tokenA04", f" receipt {receipt(1, 'd3', 'tokenA04')}"),
    (CLOSED, "/resolutions/1/close", "", ""),
    (CLOSED, "/resolutions/1/cast", "place=1", ""),
]
# How many of them come first: what is made then may refer to three developers, two choices and a sponsor.
FIRST = 5

# The rows of the desk after them.
ROWS = {
    "desk": [(1, 2, 18, CLOSED)],
    "developer": [("d1", "One", 1), ("d2", "Two", 1), ("d3", "Three", 1), ("d4", "Four", 1)],
    "resolution": [(1, 3, T0, T0, 0, CALLED, 7, 4, 1)],
    "choice": [(1, 1, 1, "d1", "Red", "new", 1, T0, 0, 1), (1, 2, 3, "", "Green", "b", 1, T0, 0, 2)],
    "sponsor": [(1, 1, "d2", 1)],
    "ballot2": [
        (1, "d1", "113", receipt(1, "d1", "tokenA01"), 1),
        (1, "d2", "113", receipt(1, "d2", "tokenA02"), 1),
        (1, "d3", "113", receipt(1, "d3", "tokenA04"), 2),
    ],
}

# What stock SQLite makes in the file before there is a desk, and after the first acts.
BEFORE = """
CREATE TABLE note (id INTEGER PRIMARY KEY AUTOINCREMENT, title TEXT NOT NULL);
INSERT INTO note (title) VALUES ('Red'), ('Green'), ('Blue');
DELETE FROM note WHERE title = 'Blue';
CREATE INDEX by_title ON note (title);
CREATE VIEW title AS SELECT title FROM note;
CREATE TABLE seat (room TEXT, place INTEGER, UNIQUE (room, place)) STRICT;
INSERT INTO seat VALUES ('hall', 1), ('hall', 2);
CREATE TABLE member (login TEXT REFERENCES developer (login), since INTEGER);
INSERT INTO member VALUES (NULL, 1999);
CREATE TABLE ballot (box TEXT);
INSERT INTO ballot VALUES ('a box with the name that a table of version 1 has');
"""
AFTER = """
INSERT INTO member VALUES ('d1', 2001), ('d3', 2003);
CREATE INDEX by_stage ON resolution (stage);
CREATE VIEW voter AS SELECT login FROM ballot2;
"""

# Tables that refer to rows which the other acts put again, except for that of a developer. The text is completed by
# what must happen where such a row goes.
REFERRING = """
CREATE TABLE of_developer (login TEXT REFERENCES developer {0});
INSERT INTO of_developer VALUES ('d1');
CREATE TABLE of_resolution (number INTEGER REFERENCES resolution {0});
INSERT INTO of_resolution VALUES (1);
CREATE TABLE of_choice (resolution INTEGER, number INTEGER,
  FOREIGN KEY (resolution, number) REFERENCES choice {0});
INSERT INTO of_choice VALUES (1, 1), (1, 2);
CREATE TABLE of_sponsor (resolution INTEGER, choice INTEGER, login TEXT,
  FOREIGN KEY (resolution, choice, login) REFERENCES sponsor {0});
INSERT INTO of_sponsor VALUES (1, 1, 'd2');
"""
GOING = {"of_resolution", "of_choice", "of_sponsor"}


def change(file, statements):
    """Has stock SQLite change the file."""
    with closing(sqlite3.connect(file)) as conn:
        conn.executescript(statements)


def others_in(file):
    """What the file has beside the desk: the text of each object, and the rows of each table and view but one that
    shows a table of the desk."""
    with closing(sqlite3.connect(file)) as conn:
        listed = conn.execute("SELECT name, type, sql FROM sqlite_schema WHERE sql IS NOT NULL")
        texts = {name: (kind, text) for name, kind, text in listed if name not in ROWS}
        tables = [name for name, (kind, _) in texts.items() if kind != "index" and name != "voter"]
        return texts, {name: sorted(conn.execute(f"SELECT * FROM {name}"), key=repr) for name in tables}


def take(file, acts, accepted):
    """Has the desk take acts, which had accepted so many before. Each part of one moment is a `serve`."""
    for at, part in groupby(acts, itemgetter(0)):
        listed = list(part)
        with serve(file, len(listed), "--at", at) as desk:
            for _, path, form, noted in listed:
                accepted += 1
                desk.accepts(path, form, f"ok {accepted}{noted}")
            expect("serve: its end", desk.ended(), Ran(0, b"", b""))


class Desk:
    """A desk in one file with what stock SQLite made there, and the first acts. Tables refer to it by an action."""

    def __init__(self, file, action):
        self.file = file
        change(file, BEFORE)
        # What stands beside it: before there was a desk, and after the first acts.
        self.before = others_in(file)
        make_desk(file)
        take(file, ACTS[:FIRST], 0)
        self.later = others_in(file)
        change(file, AFTER + REFERRING.format(action))
        self.held = others_in(file)


class BesideTables(Case):
    """A desk that took all acts, beside tables that refer to it by no action."""

    action = ""

    @classmethod
    def setUpClass(cls):
        cls.desk = Desk(cls.shared_folder() / "desk.db", cls.action)
        take(cls.desk.file, ACTS[FIRST:], FIRST)
        # What they say is looked at below, and that they leave the desk as it is.
        cls.sheets = {sheet: run(sheet, cls.desk.file, 1) for sheet in ("tally", "result")}

    def left(self):
        """What must stand beside the desk then."""
        return self.desk.held

    def test_a_new_desk_leaves_what_stands_beside_it(self):
        self.assertEqual(self.desk.later, self.desk.before)

    def test_the_desk_shows_its_sheets(self):
        for sheet, ran in self.sheets.items():
            with self.subTest(sheet=sheet):
                stored = (TOP / f"examples/votes/whole_vote.{sheet}").read_bytes()
                self.assertEqual(ran, Ran(0, stored, b""))

    def test_stock_sqlite_finds_the_rows_of_the_desk_in_a_sound_file(self):
        with closing(sqlite3.connect(self.desk.file)) as conn:
            self.assertEqual(conn.execute("PRAGMA integrity_check").fetchall(), [("ok",)])
            self.assertEqual(conn.execute("PRAGMA foreign_key_check").fetchall(), [])
            for table, rows in ROWS.items():
                with self.subTest(table=table):
                    self.assertEqual(conn.execute(f"SELECT * FROM {table} ORDER BY 1, 2").fetchall(), rows)

    def test_a_view_of_a_table_of_the_desk_shows_its_rows(self):
        voters = [(login,) for _, login, *_ in ROWS["ballot2"]]
        with closing(sqlite3.connect(self.desk.file)) as conn:
            self.assertEqual(conn.execute("SELECT login FROM voter ORDER BY 1").fetchall(), voters)

    def test_what_stands_beside_the_desk_is_as_it_was_except_for_rows_that_go_by_cascade(self):
        self.assertEqual(others_in(self.desk.file), self.left())


class BesideTablesThatCascade(BesideTables):
    """The same beside tables whose rows go with those to which they refer."""

    action = "ON DELETE CASCADE"

    def left(self):
        texts, rows = self.desk.held
        return texts, {name: [] if name in GOING else found for name, found in rows.items()}


class BesideTablesThatRestrict(Case):
    def test_where_a_row_may_not_go_the_act_is_a_fault_and_changes_nothing(self):
        desk = Desk(self.folder() / "desk.db", "ON DELETE RESTRICT")
        line = ["once", desk.file, "--at", T0]
        withdraw = request("POST", "/resolutions/1/withdraw", "choice=2")
        self.assertEqual(run(*line, given=withdraw), Ran(3, response(503, "fault F2 Store\n"), b""))
        self.assertEqual(others_in(desk.file), desk.held)
        change(desk.file, "DELETE FROM of_choice")
        self.assertEqual(run(*line, given=withdraw), Ran(0, response(200, f"ok {FIRST + 1}\n"), b""))
