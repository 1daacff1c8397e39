"""Counts the long sentences of README.md and of each page of docs/. A sentence is long if it has more than 25 words. A
page passes where at most one sentence in twenty is long. Of one that fails, all long sentences are printed, by the
lines where they begin.

A paragraph, an item of a list and a cell of a table each end their last sentence. A word has a letter or a digit. What
stands in backquotes is one word, however long. Blocks of code are left out. So are pieces of less than four words, for
example names in cells: they are no sentences, and would hide the long ones."""
import re

from tests.support.case import Case
from tests.support.program import TOP

PAGES = [TOP / "README.md", *sorted((TOP / "docs").glob("*.md"))]
MOST_WORDS = 25
LEAST_WORDS = 4
ONE_IN = 20

ITEM = re.compile(r"^\s*(?:[-*]|\d+\.)\s+")
CELL_END = re.compile(r"(?<!\\)\|")
CODE = re.compile(r"`[^`]*`")
SENTENCE_END = re.compile(r"(?<!\.)[.!?][)\"']*\s+(?=[A-Z0-9@(\"']|\w+/)")


def pieces(page):
    """The paragraphs, items, cells and headings of a page, each as lines with their numbers."""
    found, piece, in_code = [], [], False
    for number, line in enumerate(page.splitlines(), 1):
        fence = line.lstrip().startswith("```")
        in_code ^= fence
        alone = line.startswith(("#", "|")) or not line.strip()
        if fence or in_code or alone or ITEM.match(line):
            found.append(piece)
            piece = []
        if fence or in_code:
            continue
        if alone:
            found += [[(number, cell)] for cell in CELL_END.split(line)]
        else:
            piece.append((number, ITEM.sub("", line)))
    return found + [piece]


def sentences(piece):
    """The sentences of a piece, each as the line where it begins and the number of its words."""
    text = "\n".join(line.strip() for _, line in piece).replace("*", "")
    # Line ends stay where they were, so that each sentence is found again on its line.
    text = CODE.sub(lambda code: "Code" + "\n" * code.group().count("\n"), text)
    begin = 0
    for end in [found.end() for found in SENTENCE_END.finditer(text)] + [len(text)]:
        words = sum(bool(re.search(r"\w", word)) for word in text[begin:end].split())
        if words >= LEAST_WORDS:
            yield piece[text.count("\n", 0, begin)][0], words
        begin = end


class Sentences(Case):
    def test_at_most_one_sentence_in_twenty_of_a_page_is_long(self):
        self.assertGreater(len(PAGES), 1)
        for path in PAGES:
            with self.subTest(page=str(path.relative_to(TOP))):
                found = [sentence for piece in pieces(path.read_text()) for sentence in sentences(piece)]
                self.assertTrue(found)
                long = sorted(((words, line) for line, words in found if words > MOST_WORDS), reverse=True)
                message = [f"{len(long)} of {len(found)} sentences have more than {MOST_WORDS} words"]
                message += [f"line {line}: {words} words" for words, line in long]
                self.assertLessEqual(len(long) * ONE_IN, len(found), "\n".join(message))

    def test_sentences_are_told_apart(self):
        page = "A heading of five words here\n\n- One item has words. It has `code. With` two.\n"
        found = [sentence for piece in pieces(page) for sentence in sentences(piece)]
        self.assertEqual(found, [(1, 6), (3, 4), (3, 4)])
