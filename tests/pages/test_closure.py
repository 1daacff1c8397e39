"""Compares the counts that docs/definitions.md states with those of `dev/closure`, and looks at the definitions of
specs/: their names, their width, and whether a contract reaches each."""
import re
import sys
from collections import Counter

from tests.support.case import Case
from tests.support.program import TOP

sys.path.insert(0, str(TOP / "dev"))
from contracts import CONTRACTS, DEFINITIONS, closure, lines_of, reached, unreached  # noqa: E402

PAGE = "docs/definitions.md"
# A line of a definition that is wider would count for less than it is.
COLUMNS = 120
# A command on the page, and what stands after it.
COMMAND = re.compile(r"`dev/closure (?!NAME)([^`-][^`]*)`(.*?)(?=`|\n\n|\|\n|$)", re.S)
COUNTS = re.compile(r"\b(\d[\d,]*) definitions?\b\D*\b(\d[\d,]*) lines?\b")


class Closures(Case):
    def test_each_count_of_the_page_is_that_of_today(self):
        page = (TOP / PAGE).read_text()
        stated = [*COMMAND.finditer(page)]
        self.assertTrue(stated, f"{PAGE} states no counts")
        for command in stated:
            line = page.count("\n", 0, command.start()) + 1
            with self.subTest(line=f"{PAGE}:{line}", command=command[1]):
                counts = COUNTS.search(command[2])
                self.assertIsNotNone(counts, "no counts stand after it")
                opened = closure(*command[1].split())[1]
                here = tuple(int(count.replace(",", "")) for count in counts.groups())
                self.assertEqual(here, (len(opened), lines_of(opened)[0]))

    def test_no_two_definitions_have_one_name(self):
        counts = Counter(definition.name for definition in DEFINITIONS)
        self.assertTrue(counts)
        self.assertEqual([], [definition.full for definition in DEFINITIONS if counts[definition.name] > 1])

    def test_a_contract_reaches_each_definition(self):
        self.assertEqual([], sorted(definition.full for definition in unreached()))

    def test_no_line_of_a_definition_is_wider_than_a_page(self):
        lines = [(definition.module, number) for definition in DEFINITIONS for number in definition.lines()]
        self.assertTrue(lines)
        wide = [(module.path, number + 1) for module, number in lines if len(module.lines[number]) > COLUMNS]
        self.assertEqual([], wide)

    def test_each_name_in_a_definition_or_a_contract_stands_for_something(self):
        self.assertTrue(CONTRACTS)
        # A name that is not known raises Unclear, which says where it stands.
        opened, _, _ = reached([*DEFINITIONS, *CONTRACTS])
        self.assertLessEqual(opened, {*DEFINITIONS})
