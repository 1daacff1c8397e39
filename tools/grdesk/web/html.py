"""HTML of the pages: texts that are escaped and touch nothing beside them, tables, and a whole document. It has no
script, and loads nothing."""
import base64
import hashlib
import re
from html import escape

from grdesk.output import is_hidden

STYLE = """
:root { color-scheme: light; }
body { font: 16px/1.5 sans-serif; color: #222; background: #fff; max-width: 62rem; margin: 2rem auto; padding: 0 1rem;
  overflow-wrap: break-word; }
h1 { font-size: 1.6rem; } h2 { font-size: 1.2rem; margin-top: 2.5rem; } h3 { font-size: 1rem; margin-top: 1.5rem; }
.wide { overflow-x: auto; margin-bottom: 1rem; }
table { border-collapse: collapse; } caption { text-align: left; color: #555; padding-bottom: .4rem; }
th, td { border: 1px solid #666; padding: .25rem .6rem; text-align: left; vertical-align: top; }
td.number { text-align: right; font-variant-numeric: tabular-nums; }
td.more { background: #dcefdc; font-weight: bold; } td.none { background: #eee; }
tr.dropped, .apart { color: #555; font-style: italic; } tr.member th, .winner { font-weight: bold; }
.mark { font: .75em monospace; border: 1px solid #a00; color: #a00; padding: 0 .2em; }
.winner { background: #dcefdc; border-left: .4rem solid #226b22; padding: .6rem 1rem; }
.text { border-left: .2rem solid #666; padding: .2rem 1rem; white-space: pre-wrap; overflow-wrap: anywhere; }
.ballots td, .digest { font-family: monospace; overflow-wrap: anywhere; }
svg { max-width: 100%; height: auto; }
.edge { stroke: #555; stroke-width: 1.5; fill: none; } .arrow { fill: #555; }
.gone { stroke: #b03a00; stroke-dasharray: 6 4; } .gone-arrow { fill: #b03a00; }
.node { fill: #fff; stroke: #222; stroke-width: 1.5; } .in { fill: #dcefdc; stroke: #226b22; stroke-width: 3; }
.place { font: bold 16px sans-serif; text-anchor: middle; } .count { font: 12px sans-serif; text-anchor: middle; }
.count { paint-order: stroke; stroke: #fff; stroke-width: 4px; } .label { font: 13px sans-serif; }
"""
POLICY = "default-src 'none'; style-src 'sha256-{}'; base-uri 'none'; form-action 'none'"


def seen(text, form="<U+{:04X}>"):
    """A text in which what shows nothing itself stands by its number. Nothing is left that could end an isolation."""
    return "".join(form.format(ord(each)) if is_hidden(each) else each for each in text)


def isolated(text, kind="bdi", **values):
    """A text for HTML, escaped, whose direction touches nothing beside it."""
    pieces = re.split(r"(\0[0-9A-F]+\0)", seen(text, "\0{:04X}\0"))
    marks = (re.sub("\0(.*)\0", r'<span class="mark">U+\1</span>', piece) for piece in map(escape, pieces))
    return cell("".join(marks), kind, **values)


def attributes(**values):
    return "".join(f' {name}="{escape(str(value))}"' for name, value in values.items() if value is not None)


def cell(text, kind="td", **values):
    """An element, whose text is HTML already."""
    names = {name.rstrip("_").replace("_", "-"): value for name, value in values.items()}
    return f"<{kind}{attributes(**names)}>{text}</{kind}>"


def paragraph(text, **values):
    return cell(text, "p", **values)


def table(caption, head, rows, of=None):
    """A table, whose head and rows are HTML already. A name of its head may be a whole cell."""
    names = "".join(name if str(name).startswith("<th") else cell(name, "th", scope="col") for name in head)
    body = [f"<caption>{caption}</caption>", f"<thead>{cell(names, 'tr')}</thead>", "<tbody>", *rows, "</tbody>"]
    return f'<div class="wide"><table{attributes(**{"class": of})}>\n' + "\n".join(body) + "\n</table></div>"


def text_block(lines):
    """The lines of a text, each by itself."""
    return cell("\n".join(isolated(line) for line in lines), "div", class_="text")


def document(title, heading, parts):
    """The whole of a page. Its title is a text, and the heading and the parts are HTML."""
    digest = base64.b64encode(hashlib.sha256(STYLE.encode()).digest()).decode()
    head = [
        "<!DOCTYPE html>", '<html lang="en">', "<head>", '<meta charset="utf-8">',
        f'<meta http-equiv="Content-Security-Policy" content="{escape(POLICY.format(digest))}">',
        '<meta name="viewport" content="width=device-width, initial-scale=1">',
        f"<title>{escape(seen(title))}</title>", f"<style>{STYLE}</style>", "</head>", "<body>",
    ]
    return "\n".join([*head, cell(heading, "h1"), *parts, "</body>", "</html>", ""])
