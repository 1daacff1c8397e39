"""How defeats are drawn, and the colors of the pages. The box of each text is computed from the numbers in the SVG, at
a fixed width of a character: none meets another one, a node that is not its own, or the rim of the picture. So it is
with 2, 3, 9, 20 and 35 options whose summaries have 80 characters, narrow ones and wide ones. Each color of the style
stands out from each background by 4.5 to 1 at least, as WCAG 2.1 requires (1.4.3). Where the machine has Chromium, that
measures the texts too. An arrow leads from the circle of the winner to that of the loser: its ends are compared with
the circles, and these are known by the numbers in them."""
import re
import shutil
import sys
import unicodedata
from functools import cache, wraps
from html import unescape
from itertools import combinations
from math import hypot
from random import Random
from typing import NamedTuple

from tests.support.case import Case
from tests.support.hand_made import tested, vote
from tests.support.html_pages import Page
from tests.support.program import TOP, expect, runs

sys.path.insert(0, str(TOP / "tools"))
from grdesk.web.closed_vote import ClosedVote  # noqa: E402
from grdesk.web.graph import drawing  # noqa: E402
from grdesk.web.html import STYLE, document  # noqa: E402

COUNTS = 2, 3, 9, 20, 35
SEEDS = range(2)
# 80 characters each: of words, of capitals with no blank, of wide ones, and with what shows nothing itself.
SUMMARIES = [
    "a wording of some length & no end, " * 2 + "nor way on",
    "W" * 80,
    "\u8272" * 80,
    "<" * 40 + "\u202e" * 40,
]
SIZES = {"place": 16, "count": 12, "label": 13}
LEAST_CONTRAST = 4.5

# Measures each text of each drawing, and puts into the title how many meet another one, or leave the picture.
MEASURE = """<script>
let count = 0, meet = 0, leave = 0;
for (const svg of document.querySelectorAll("svg")) {
  const rim = svg.getBoundingClientRect();
  const all = [...svg.querySelectorAll("text")].map(each => each.getBoundingClientRect());
  count += all.length;
  leave += all.filter(p => p.left < rim.left || p.right > rim.right || p.top < rim.top || p.bottom > rim.bottom).length;
  meet += all.flatMap((p, i) => all.slice(i + 1).filter(q =>
    p.left < q.right && q.left < p.right && p.top < q.bottom && q.top < p.bottom)).length;
}
document.title = `measured ${count}: ${meet} meet, ${leave} leave`;
</script>"""


def vote_of(count, seed):
    """A vote of so many options, between each two of which there is a defeat, and some are dropped in a round."""
    random = Random(seed)
    options = {place: SUMMARIES[place % len(SUMMARIES)] for place in range(1, count + 1)}
    preferred = {}
    for a, b in combinations(options, 2):
        preferred[a, b] = random.randrange(1_000, 2_000)
        preferred[b, a] = 1_999 - preferred[a, b]
    winners = [pair for pair in preferred if preferred[pair] > preferred[pair[::-1]]]
    rounds = {1: winners[: len(winners) // 3]}
    return ClosedVote(1, "", 2_000, options, {}, preferred, rounds, [1], "Winner: 1", 1, [], None)


def texts_in(svg):
    """The box of each text: its class, what it says, and its four sides."""
    for kind, x, y, text in re.findall(r'<text class="([a-z]+)" x="([0-9.-]+)" y="([0-9.-]+)">(.*?)</text>', svg):
        text, size, x, y = unescape(text), SIZES[kind], float(x), float(y)
        width = size * sum(1 if unicodedata.east_asian_width(each) in "WF" else 0.65 for each in text)
        left = x if kind == "label" else x - width / 2
        yield kind, text, (left, y - size, left + width, y + 0.3 * size)


def nodes_in(svg):
    for place, x, y, r in re.findall(r'<circle id="node-(\d+)" .*?cx="([0-9.]+)" cy="([0-9.]+)" r="([0-9.]+)"', svg):
        x, y, r = float(x), float(y), float(r)
        yield "node", place, (x - r, y - r, x + r, y + r)


def meets(one, other):
    return one[0] < other[2] and other[0] < one[2] and one[1] < other[3] and other[1] < one[3]


class Drawn:
    """A drawing of so many options, with its texts and nodes."""

    def __init__(self, count, seed):
        self.count = count
        self.svg = drawing(vote_of(count, seed))
        self.texts, self.nodes = list(texts_in(self.svg)), list(nodes_in(self.svg))
        self.boxes = [*self.texts, *self.nodes]

    def labels(self):
        return [text for kind, text, _ in self.texts if kind == "label"]


drawn = cache(Drawn)


def of_each_drawing(test):
    """A test that looks at a drawing of each count of options, from each seed, as a subtest."""

    @wraps(test)
    def over_drawings(self):
        for count in COUNTS:
            for seed in SEEDS:
                with self.subTest(options=count, seed=seed):
                    test(self, drawn(count, seed))

    return over_drawings


class Drawings(Case):
    def test_the_summaries_have_80_characters_each(self):
        self.assertEqual({len(each) for each in SUMMARIES}, {80})

    @of_each_drawing
    def test_each_option_has_a_node_its_place_and_a_label(self, found):
        kinds = [kind for kind, _, _ in found.texts]
        self.assertEqual((kinds.count("place"), kinds.count("label"), len(found.nodes)), (found.count,) * 3)

    @of_each_drawing
    def test_no_text_and_no_node_leaves_the_picture(self, found):
        width, height = map(float, re.search(r'viewBox="0 0 ([0-9.]+) ([0-9.]+)"', found.svg).groups())
        outside = [each for each in found.boxes
                   if each[2][0] < 0 or each[2][2] > width or each[2][1] < 0 or each[2][3] > height]
        self.assertEqual(outside, [])

    @of_each_drawing
    def test_no_text_meets_another_one_or_a_node_that_is_not_its_own(self, found):
        meeting = [(one, other) for one, other in combinations(found.boxes, 2) if meets(one[2], other[2])]
        own = [(one, other) for one, other in meeting if (one[0], other[0]) == ("place", "node") and one[1] == other[1]]
        self.assertEqual([pair for pair in meeting if pair not in own], [])

    @of_each_drawing
    def test_each_defeat_stands_in_words_after_the_drawing(self, found):
        self.assertEqual(found.svg.count("<li>"), found.count * (found.count - 1) // 2)

    @of_each_drawing
    def test_no_label_turns_its_direction_or_is_short(self, found):
        self.assertEqual([label for label in found.labels() if "\u202e" in label or len(label) < 30], [])

    def test_of_a_few_options_each_defeat_has_its_counts_beside_its_arrow(self):
        for count, least in (2, 1), (3, 3), (4, 5):
            with self.subTest(options=count):
                self.assertGreaterEqual(drawn(count, 1).svg.count('class="count"'), least)

    def test_a_browser_measures_that_no_text_meets_another_one_or_leaves_the_picture(self):
        browser = next(filter(None, map(shutil.which, ("chromium", "chromium-browser", "google-chrome"))), None)
        if not browser:
            self.skipTest("Chromium is not installed")
        work = self.folder()
        place = work / "drawings.html"
        page = document("x", "x", [*(drawn(count, 1).svg for count in COUNTS), MEASURE])
        place.write_text(re.sub("<meta http-equiv=[^>]*>", "", page))
        line = [browser, "--headless", "--no-sandbox", "--disable-gpu", f"--user-data-dir={work}/profile", "--dump-dom"]
        ran = runs([*line, place.as_uri()])
        title = re.search("<title>measured ([0-9]+): (.*?)</title>", ran.out.decode())
        self.assertEqual(title and title[2], "0 meet, 0 leave")


def light(color):
    """The relative luminance of a color (WCAG 2.1)."""
    digits = color[1:] if len(color) == 7 else "".join(2 * each for each in color[1:])
    parts = [int(digits[at : at + 2], 16) / 255 for at in (0, 2, 4)]
    red, green, blue = (part / 12.92 if part <= 0.03928 else ((part + 0.055) / 1.055) ** 2.4 for part in parts)
    return 0.2126 * red + 0.7152 * green + 0.0722 * blue


def contrast(one, other):
    darker, lighter = sorted([light(one), light(other)])
    return (lighter + 0.05) / (darker + 0.05)


def colors_of_style():
    """The colors of backgrounds, and those of what is drawn on them."""
    backs, fronts = set(), set()
    for selector, rules in re.findall(r"([^{}]+)\{([^}]*)\}", STYLE):
        for name, value in re.findall(r"([a-z-]+):([^;]+)", rules):
            for color in re.findall(r"#[0-9a-f]{3,6}\b", value):
                is_behind = name == "background" or (name, selector.strip().split()[-1]) in (
                    ("fill", ".node"), ("fill", ".in"), ("stroke", ".count"))
                (backs if is_behind else fronts).add(color)
    return backs, fronts


class Colors(Case):
    def test_the_style_has_backgrounds_and_what_is_drawn_on_them(self):
        backs, fronts = colors_of_style()
        self.assertGreaterEqual(len(backs), 3, backs)
        self.assertGreaterEqual(len(fronts), 5, fronts)

    def test_what_is_drawn_stands_out_from_each_background(self):
        backs, fronts = colors_of_style()
        for back in sorted(backs):
            for front in sorted(fronts):
                with self.subTest(front=front, back=back):
                    self.assertGreaterEqual(contrast(front, back), LEAST_CONTRAST)


# The names of three options, each of which has lost to another one, and the defeats that are expected, by hand: Red
# over Green, Green over None and None over Red, of which the last is the weakest, and was dropped.
CIRCLE = vote(["Red", "Green", "None of the above"], preferred={
    (1, 2): 7, (2, 1): 2, (2, 3): 6, (3, 2): 3, (3, 1): 5, (1, 3): 4}, rounds={1: [(3, 1)]})
DEFEATS = {(1, 2): "7:2", (2, 3): "6:3", (3, 1): "5:4"}
# As far as a line ends from the middle of a circle, where it begins and where its head is.
RIM, HEAD = 20, 23


class Arrow(NamedTuple):
    """An arrow as it is seen: at which circle it begins, and at which it ends with its head."""

    begins: int
    ends: int
    text: str
    classes: str


def circles_in(svg):
    """The middle of each circle, by the number that is drawn in it."""
    texts = re.findall(r'<text class="place" x="([0-9.]+)" y="([0-9.]+)">([0-9]+)</text>', svg)
    middles = re.findall(r'<circle [^>]*cx="([0-9.]+)" cy="([0-9.]+)"', svg)
    found = {}
    for x, y in ((float(x), float(y)) for x, y in middles):
        [number] = [int(text) for left, base, text in texts if hypot(float(left) - x, float(base) - y) < RIM]
        found[number] = x, y
    return found


def arrows_in(svg):
    """The arrows, by the circles that are nearest to their ends. None of what names them in the drawing is read."""
    circles = circles_in(svg)
    for line, text in re.findall(r"<line ([^>]*)>(.*?)</line>", svg):
        said = dict(re.findall(r'([a-z0-9-]+)="([^"]*)"', line))
        ends = []
        for x, y, far in ("x1", "y1", RIM), ("x2", "y2", HEAD):
            x, y = float(said[x]), float(said[y])
            place = min(circles, key=lambda each: hypot(circles[each][0] - x, circles[each][1] - y))
            expect("how far it ends from a middle", round(hypot(circles[place][0] - x, circles[place][1] - y)), far)
            ends.append(place)
        expect("where its heads are", [name for name in said if name.startswith("marker")], ["marker-end"])
        yield Arrow(*ends, text, said["class"])


class Arrows(Case):
    def test_an_arrow_leads_from_the_circle_of_the_winner_to_that_of_the_loser(self):
        found = {(each.begins, each.ends) for each in arrows_in(drawing(CIRCLE))}
        self.assertEqual(found, set(DEFEATS))

    def test_an_arrow_says_which_option_defeats_which_and_by_how_many(self):
        names = {1: "1 Red", 2: "2 Green", 3: "3 None of the above"}
        for each in arrows_in(drawing(CIRCLE)):
            message = f"{names[each.begins]} defeats {names[each.ends]}, {DEFEATS.get((each.begins, each.ends))}"
            with self.subTest(message=message):
                self.assertIn(f"<title>{message}", re.sub("[\u2068\u2069]", "", each.text))

    def test_the_counts_of_a_defeat_stand_on_its_arrow_nearer_to_the_winner(self):
        svg = drawing(CIRCLE)
        circles = circles_in(svg)
        texts = re.findall(r'<text class="count" x="([0-9.]+)" y="([0-9.]+)">([^<]*)</text>', svg)
        self.assertEqual({text.split(",")[0] for _, _, text in texts}, set(DEFEATS.values()))
        for pair, counts in DEFEATS.items():
            [(x, y)] = [(float(x), float(y) - 4) for x, y, text in texts if text.split(",")[0] == counts]
            (ax, ay), (bx, by) = (circles[place] for place in pair)
            with self.subTest(counts=counts):
                part = ((x - ax) * (bx - ax) + (y - ay) * (by - ay)) / hypot(bx - ax, by - ay) ** 2
                self.assertTrue(0.2 < part < 0.5, part)
                aside = hypot(ax + part * (bx - ax) - x, ay + part * (by - ay) - y)
                self.assertLess(aside, 1)

    def test_the_one_that_a_round_dropped_is_dashed_and_no_other(self):
        gone = {(each.begins, each.ends) for each in arrows_in(drawing(CIRCLE)) if "gone" in each.classes.split()}
        self.assertEqual(gone, {(3, 1)})

    def test_between_two_that_are_level_there_is_no_arrow(self):
        level = vote(["Red", "None of the above"], preferred={(1, 2): 3, (2, 1): 3})
        self.assertEqual(list(arrows_in(drawing(level))), [])
        self.assertIn("No option defeats another one.", drawing(level))

    def test_the_members_of_the_outcome_have_rings_and_no_other_option(self):
        several = CIRCLE._replace(outcome=[1, 2])
        rings = {place for kind, place in re.findall(r'<circle id="[^"]*" class="([^"]*)".*?\n<text class="place"[^>]*>'
                                                     r'([0-9]+)<', drawing(several)) if "in" in kind.split()}
        self.assertEqual(rings, {"1", "2"})


# What would begin elements or end one, or turn the direction of what follows.
HOSTILE = ["<b>Red</b>", "</text></svg><script>x</script>", "Gr\u202eeen & \"'"]


class Texts(Case):
    """What a reader sees of a drawing, by a parser: what a summary has in it is a text there, and makes no element."""

    def page(self):
        preferred = {(1, 2): 7, (2, 1): 2, (2, 3): 6, (3, 2): 3}
        return Page(f"<div>{drawing(vote(HOSTILE, preferred=preferred))}</div>")

    def texts(self, kind):
        return ["".join(text) for tag, attributes, text in self.page().elements
                if tag == "text" and attributes["class"] == kind]

    def test_each_circle_has_its_place_and_each_label_its_place_and_its_summary(self):
        self.assertEqual(self.texts("place"), ["1", "2", "3"])
        self.assertEqual(self.texts("label"), ["1 <b>Red</b>", "2 </text></svg><script>x</script>",
                                               "3 Gr<U+202E>een & \"'"])

    def test_the_counts_beside_an_arrow_are_those_of_its_winner_first(self):
        self.assertEqual(self.texts("count"), ["7:2", "6:3"])

    def test_titles_have_the_summaries_as_texts(self):
        elements = self.page().elements
        titles = [re.sub("[\u2068\u2069]", "", "".join(text)) for tag, _, text in elements if tag == "title"]
        self.assertEqual(titles, [
            "Defeats between the kept options",
            "1 <b>Red</b> defeats 2 </text></svg><script>x</script>, 7:2",
            "2 </text></svg><script>x</script> defeats 3 Gr<U+202E>een & \"', 6:3",
            "1 <b>Red</b>", "2 </text></svg><script>x</script>", "3 Gr<U+202E>een & \"'",
        ])

    def test_a_summary_makes_no_element(self):
        self.assertEqual({tag for tag, _, _ in self.page().elements} & {"b", "script"}, set())
        self.assertEqual([tag for tag, _, _ in self.page().elements].count("svg"), 1)

    def test_a_vote_of_one_kept_option_has_no_drawing(self):
        alone = vote(["Red", "None of the above"], tests={1: tested("dropped")}, outcome=[2], winner=2)
        self.assertEqual(drawing(alone), "<p>No option but the default one was kept, so there is no defeat.</p>")
