"""What tests look at on pages of gr-desk page: the elements with their texts, whether anything on a page runs or
loads something, and what those need who do not see it."""
import base64
import hashlib
import re
from html.parser import HTMLParser

from tests.support.program import fail, expect

ELEMENTS = set("html head meta title style body h1 h2 h3 p ul li div span bdi".split())
ELEMENTS |= set("table caption thead tbody tr th td svg defs marker path line circle g text".split())
VOID = {"meta", "path", "circle"}


class Page(HTMLParser):
    """The elements of a page, each with its attributes and all the text in it."""

    def __init__(self, text):
        super().__init__(convert_charrefs=True)
        self.elements, self.open = [], []
        self.feed(text)
        self.close()
        expect("the elements that are still open", [tag for tag, _, _ in self.open], [])

    def handle_starttag(self, tag, attrs):
        element = tag, dict(attrs), []
        expect(f"the attributes of {tag}", len(element[1]), len(attrs))
        self.elements.append(element)
        if tag not in VOID:
            self.open.append(element)

    def handle_startendtag(self, tag, attrs):
        self.elements.append((tag, dict(attrs), []))

    def handle_endtag(self, tag):
        expect("the element that ends", tag, self.open.pop()[0])

    def handle_data(self, data):
        for _, _, text in self.open:
            text.append(data)

    def texts(self, **expected):
        """The text of each element with these attributes."""
        expected = {name.rstrip("_"): value for name, value in expected.items()}
        return ["".join(text) for _, attrs, text in self.elements if expected.items() <= attrs.items()]

    def by_id(self, form):
        """The text of each element whose id has this form, by what the form has in brackets."""
        found = {}
        for _, attrs, text in self.elements:
            if match := re.fullmatch(form, attrs.get("id", "")):
                found[tuple(map(int, match.groups()))] = "".join(text), attrs
        return found


def look_at_headings(seen):
    """Headings come in order, each table has a caption and scopes, and the graph has its text."""
    levels = [int(tag[1]) for tag, _, _ in seen.elements if re.fullmatch("h[1-6]", tag)]
    expect("the first heading", levels[0], 1)
    expect("headings that leave one out", [b for a, b in zip(levels, levels[1:]) if b > a + 1 or b == 1], [])
    tags = [tag for tag, _, _ in seen.elements]
    expect("captions", tags.count("caption"), tags.count("table"))
    bare = [attrs for tag, attrs, _ in seen.elements if tag == "th" and "scope" not in attrs]
    expect("heads without a scope", bare, [])
    for tag, attrs, _ in seen.elements:
        if tag == "svg":
            has_text = seen.texts(id=attrs["aria-describedby"]) != []
            expect("the text of the graph", (attrs["role"], has_text), ("img", True))


def look_at_safety(text, seen):
    """Nothing on the page runs, loads or sends anything."""
    expect("elements that it should not have", {tag for tag, _, _ in seen.elements} - ELEMENTS, set())
    for tag, attrs, _ in seen.elements:
        for name, value in attrs.items():
            is_own = value in ("url(#arrow)", "url(#gone-arrow)", "http://www.w3.org/2000/svg")
            is_address = ":" in (value or "") and not is_own
            if is_address or name.startswith("on") or name in ("style", "href", "src", "action"):
                fail(f"the page has the attribute {name}={value} of {tag}")
    style = re.search("<style>(.*?)</style>", text, re.DOTALL)[1]
    if re.search(r"url|@import|expression", style):
        fail("the style loads something")
    digest = base64.b64encode(hashlib.sha256(style.encode()).digest()).decode()
    policy = f"default-src 'none'; style-src 'sha256-{digest}'; base-uri 'none'; form-action 'none'"
    metas = [attrs for tag, attrs, _ in seen.elements if tag == "meta"]
    wanted = [{"charset": "utf-8"}, {"http-equiv": "Content-Security-Policy", "content": policy}]
    expect("the policy", metas[:2], wanted)
    expect("what comes before it", [tag for tag, _, _ in seen.elements][:4], ["html", "head", "meta", "meta"])
