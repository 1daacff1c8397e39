"""The defeats of a closed vote as a drawing in SVG: the kept options on a circle, and an arrow for each defeat. Below
them stand the summaries, each on a line of its own, so that no label meets another one. After the drawing each defeat
is stated in words."""
from html import escape
from math import cos, hypot, pi, sin

from grdesk.web.html import cell, isolated, paragraph, seen

NODE = 20
# The height of a line of the labels, and what is left free beside them.
LINE, MARGIN = 22, 20
LEAST_WIDTH = 760
# Up to so many defeats their counts stand beside the arrows, where there is room.
MOST_COUNTED = 28
# Where on an arrow its counts may stand: nearer to its beginning, since arrows cross in the middle.
PLACES_OF_COUNTS = 0.34, 0.28, 0.4, 0.22, 0.46, 0.52, 0.58, 0.64, 0.7
# The sizes of texts, as the style has them.
SIZE_OF_LABEL, SIZE_OF_COUNT = 13, 12
NARROW = set("abcdefghijklnopqrstuvxyz0123456789 .,:;!?()[]{}'\"`*-_/|\\^…")
# What keeps the direction of a text from what stands beside it, where there are no elements.
ISOLATE, END = "\u2068", "\u2069"


def width_of(text, size):
    """How broad a text is at most: 0.65 of its size for a character that is narrow in any font, and else all of it."""
    return size * sum(0.65 if each in NARROW else 1 for each in text)


def drawing(vote):
    """The drawing with its text."""
    places = vote.kept_options()
    if len(places) == 1:
        return paragraph("No option but the default one was kept, so there is no defeat.")
    return Drawing(vote, places).text()


class Drawing:
    """A drawing of these options."""

    def __init__(self, vote, places):
        self.vote = vote
        self.places = places
        self.defeats = vote.defeats()
        radius = max(110, 40 * len(places)) if len(places) < 8 else 320
        self.width = max(LEAST_WIDTH, 2 * (radius + 50))
        self.top = 2 * (radius + 50)
        self.height = self.top + LINE * len(places) + MARGIN
        self.middle = self.width / 2, radius + 50
        # Two options stand side by side, and of more the first is on top.
        begin = pi if len(places) <= 2 else -pi / 2
        angles = (begin + 2 * pi * index / len(places) for index in range(len(places)))
        around = [(self.middle[0] + radius * cos(angle), self.middle[1] + radius * sin(angle)) for angle in angles]
        self.points = dict(zip(places, around))
        # The boxes that are taken: what stands in one meets none of them.
        self.taken = [(x - NODE - 3, y - NODE - 3, x + NODE + 3, y + NODE + 3) for x, y in around]

    def text(self):
        size = f'viewBox="0 0 {self.width} {self.height}" width="{self.width}"'
        lines = [f'<svg xmlns="http://www.w3.org/2000/svg" {size} role="img" aria-describedby="defeats">',
                 "<title>Defeats between the kept options</title>",
                 "<defs>", marker("arrow"), marker("gone-arrow"), "</defs>"]
        lines += [self.arrow(pair) for pair in self.defeats]
        # After all lines, so that none hides a count.
        if len(self.defeats) <= MOST_COUNTED:
            lines += filter(None, map(self.counts, self.defeats))
        for index, place in enumerate(self.places):
            lines += self.node(place, index)
        message = "An arrow leads from the option that defeats to the one that is defeated. Two with no arrow are"
        message += " level. A dashed one was dropped in a round. The members of the outcome have a thick ring."
        return "\n".join([paragraph(message), '<div class="wide">', *lines, "</svg>", "</div>", self.words()])

    def words(self):
        """Each defeat in words."""
        if not self.defeats:
            return paragraph("No option defeats another one.", id="defeats")
        items = (cell(self.sentence(pair, isolated), "li") for pair in self.defeats)
        return cell("\n".join(["", *items, ""]), "ul", id="defeats")

    def sentence(self, pair, named):
        a, b = (f"{place} {named(self.vote.options[place])}" for place in pair)
        number = self.defeats[pair]
        return f"{a} defeats {b}, {self.counts_in(pair)}" + (f"; dropped in round {number}" if number else "")

    def counts_in(self, pair):
        return f"{self.vote.preferred[pair]}:{self.vote.preferred[pair[::-1]]}"

    def arrow(self, pair):
        """The arrow of a defeat, between the rims of its two nodes."""
        (ax, ay), (bx, by) = (self.points[place] for place in pair)
        length = hypot(bx - ax, by - ay)
        dx, dy = (bx - ax) / length, (by - ay) / length
        x1, y1, x2, y2 = ax + dx * NODE, ay + dy * NODE, bx - dx * (NODE + 3), by - dy * (NODE + 3)
        kind, end = ("edge gone", "gone-arrow") if self.defeats[pair] else ("edge", "arrow")
        ends = f'x1="{x1:.1f}" y1="{y1:.1f}" x2="{x2:.1f}" y2="{y2:.1f}" marker-end="url(#{end})"'
        message = self.sentence(pair, alone)
        return f'<line id="defeat-{pair[0]}-{pair[1]}" class="{kind}" {ends}><title>{message}</title></line>'

    def counts(self, pair):
        """The counts of a defeat, at the first place on its arrow where they meet nothing. None: there is none."""
        (ax, ay), (bx, by) = (self.points[place] for place in pair)
        text = self.counts_in(pair) + (f", round {self.defeats[pair]}" if self.defeats[pair] else "")
        half = width_of(text, SIZE_OF_COUNT) / 2 + 2
        for part in PLACES_OF_COUNTS:
            x, y = ax + (bx - ax) * part, ay + (by - ay) * part + 4
            box = x - half, y - SIZE_OF_COUNT - 2, x + half, y + 6
            if not any(meet(box, other) for other in self.taken):
                self.taken.append(box)
                return f'<text class="count" x="{x:.1f}" y="{y:.1f}">{text}</text>'
        return None

    def node(self, place, index):
        """An option: its place on the circle, and its label in a line below."""
        x, y = self.points[place]
        summary = self.vote.options[place]
        kind = "node in" if place in self.vote.outcome else "node"
        yield f"<g><title>{place} {alone(summary)}</title>"
        yield f'<circle id="node-{place}" class="{kind}" cx="{x:.1f}" cy="{y:.1f}" r="{NODE}"/>'
        yield f'<text class="place" x="{x:.1f}" y="{y + 5.5:.1f}">{place}</text>'
        label = fitting(f"{place} {seen(summary)}", self.width - 2 * MARGIN)
        y = self.top + LINE * index + LINE / 2
        yield f'<text class="label" x="{MARGIN}" y="{y:.1f}">{escape(label)}</text></g>'


def alone(text):
    """A text of SVG, whose direction touches nothing beside it."""
    return f"{ISOLATE}{escape(seen(text))}{END}"


def fitting(text, most):
    """A text, or as much of its beginning as is no broader."""
    if width_of(text, SIZE_OF_LABEL) <= most:
        return text
    while width_of(f"{text}…", SIZE_OF_LABEL) > most:
        text = text[:-1]
    return f"{text}…"


def meet(box, other):
    return box[0] < other[2] and other[0] < box[2] and box[1] < other[3] and other[1] < box[3]


def marker(name):
    shape = '<path d="M0,0 L10,5 L0,10 z"/>'
    size = 'viewBox="0 0 10 10" refX="9" refY="5" markerWidth="8" markerHeight="8" orient="auto"'
    return f'<marker id="{name}" class="{name}" {size}>{shape}</marker>'
