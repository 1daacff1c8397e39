"""The preferences of a closed vote, as a page shows them. Ballots and counts are written out by hand, and each cell is
found by the headings of its row and its column."""
from tests.support.case import Case
from tests.support.hand_made import tested, vote
from tests.support.html_tables import table_in, tables_in
from tests.support.in_process import stopped
from grdesk.error import Failed
from grdesk.web.matrix import matrix

NAMES = ["Red", "Green", "Blue", "None of the above"]
THREE = ["Red", "Green", "None of the above"]
# No two of the counts of a pair are equal, but those of Red and the default option in the last ballot alone.
BALLOTS = ["1234", "1234", "1234", "21-3", "1-1-", "a9za"]
# How many of these voters prefer the first option to the second.
COUNTS = {
    (1, 2): 4, (2, 1): 2,
    (1, 3): 5, (3, 1): 0,
    (1, 4): 5, (4, 1): 0,
    (2, 3): 5, (3, 2): 1,
    (2, 4): 5, (4, 2): 0,
    (3, 4): 4, (4, 3): 2,
}
# Of these ballots the second option is not kept.
WITHOUT_GREEN = {2: tested("dropped")}


def cells_of(shown):
    """Each cell of the matrix of a vote, by its two options."""
    return {(int(row.split()[0]), int(column)): cell
            for (row, column), cell in table_in(matrix(shown)).by_headings().items()}


class Counts(Case):
    def test_a_cell_has_how_many_prefer_the_option_of_its_row_to_that_of_its_column(self):
        cells = cells_of(vote(NAMES, BALLOTS))
        found = {pair: cell.text for pair, cell in cells.items() if pair[0] != pair[1]}
        self.assertEqual(found, {pair: str(count) for pair, count in COUNTS.items()})

    def test_a_row_is_named_by_its_option_with_its_summary(self):
        table = table_in(matrix(vote(NAMES, BALLOTS)))
        self.assertEqual(table.headings(), ["1 Red", "2 Green", "3 Blue", "4 None of the above"])
        self.assertEqual(table.columns(), ["Option", "1", "2", "3", "4"])

    def test_beside_an_option_itself_stands_nothing(self):
        cells = cells_of(vote(NAMES, BALLOTS))
        self.assertEqual([cells[place, place].text for place in range(1, 5)], ["", "", "", ""])

    def test_an_option_with_no_rank_comes_after_the_last_rank_and_is_level_with_another_one_without(self):
        cells = cells_of(vote(THREE, ["z--", "-z-"]))
        found = [cells[pair].text for pair in ((1, 2), (2, 1), (1, 3), (3, 1), (2, 3), (3, 2))]
        self.assertEqual(found, ["1", "1", "1", "0", "1", "0"])

    def test_rank_9_comes_before_rank_a_which_is_10(self):
        cells = cells_of(vote(["Red", "None of the above"], ["9a"]))
        self.assertEqual((cells[1, 2].text, cells[2, 1].text), ("1", "0"))

    def test_counts_stay_with_their_options_if_one_that_was_not_kept_stands_last(self):
        shown = vote(NAMES, BALLOTS, WITHOUT_GREEN)
        self.assertEqual(table_in(matrix(shown)).columns(), ["Option", "1", "3", "4", "2"])
        found = {pair: cell.text for pair, cell in cells_of(shown).items() if pair[0] != pair[1]}
        self.assertEqual(found, {pair: str(count) for pair, count in COUNTS.items()})


class Marks(Case):
    """What is drawn otherwise: a cell of the option that is preferred, and what was not kept."""

    def marked(self, shown, mark):
        return {pair for pair, cell in cells_of(shown).items() if mark in cell.classes}

    def test_the_greater_count_of_a_pair_is_marked_and_the_smaller_is_not(self):
        expected = {(1, 2), (1, 3), (1, 4), (2, 3), (2, 4), (3, 4)}
        self.assertEqual(self.marked(vote(NAMES, BALLOTS), "more"), expected)

    def test_of_a_level_pair_neither_count_is_marked(self):
        self.assertEqual(self.marked(vote(THREE, ["12-", "21-"]), "more"), {(1, 3), (2, 3)})

    def test_a_pair_with_an_option_that_was_not_kept_is_drawn_apart_and_no_other_one(self):
        expected = {(1, 2), (2, 1), (2, 3), (3, 2), (2, 4), (4, 2)}
        self.assertEqual(self.marked(vote(NAMES, BALLOTS, WITHOUT_GREEN), "apart"), expected)
        self.assertEqual(self.marked(vote(NAMES, BALLOTS), "apart"), set())


    def test_of_what_was_not_kept_the_headings_are_drawn_apart_too(self):
        table = table_in(matrix(vote(NAMES, BALLOTS, WITHOUT_GREEN)))
        headings = [*table.rows[0][1:], *(row[0] for row in table.rows[1:])]
        self.assertEqual([cell.text for cell in headings if "apart" in cell.classes], ["2", "2 Green"])

    def test_a_caption_says_what_is_counted_and_what_stands_last(self):
        message = "How many voters prefer the option of a row to that of a column"
        self.assertEqual(table_in(matrix(vote(NAMES, BALLOTS))).caption, message)
        last = ", with the options that were not kept in italics after the others"
        self.assertEqual(table_in(matrix(vote(NAMES, BALLOTS, WITHOUT_GREEN))).caption, message + last)


class Blocks(Case):
    def test_each_of_several_tables_has_its_number_in_its_caption(self):
        names = [f"Option {place}" for place in range(1, 26)]
        tables = tables_in(matrix(vote(names, ["123456789abcdefghijklmnop"])))
        message = "How many voters prefer the option of a row to that of a column: part {} of 3"
        self.assertEqual([table.caption for table in tables], [message.format(number) for number in (1, 2, 3)])

    def test_12_options_make_one_table_and_13_make_two_with_all_rows_in_each(self):
        for count, columns in (12, [12]), (13, [12, 1]):
            with self.subTest(options=count):
                order = "123456789abcdefghijklmnopqrstuvwxyz"[:count]
                names = [f"Option {place}" for place in range(1, count + 1)]
                tables = tables_in(matrix(vote(names, [order])))
                self.assertEqual([len(table.columns()) - 1 for table in tables], columns)
                self.assertEqual([len(table.headings()) for table in tables], [count] * len(columns))
                last = tables[-1].by_headings()
                self.assertEqual(last["1 Option 1", str(count)].text, "1")


class OtherSheets(Case):
    def test_a_result_with_other_counts_than_the_ballots_is_no_desks(self):
        message = "of the voters who prefer option 1 to option 2 the ballots of the tally have 4, and its result has 5"
        other = vote(NAMES, BALLOTS, preferred={(1, 2): 5, (2, 1): 2})
        self.assertEqual(stopped(Failed, matrix, other), message)

    def test_a_ballot_with_a_rank_too_few_or_too_many_is_no_desks(self):
        for ranks in "123", "12345":
            with self.subTest(ranks=ranks):
                message = "a ballot of the tally has more or fewer ranks than there are options"
                message += ", so what answers is no desk"
                self.assertEqual(stopped(Failed, matrix, vote(NAMES, [ranks])), message)
