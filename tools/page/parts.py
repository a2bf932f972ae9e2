"""What can be said of a page without a browser: its parts, its bytes, and that it names no other file."""
import html.parser
import re

from lib.viewer import SCRIPT, texts

NAMESPACES = {"http://www.w3.org/1999/xhtml", "http://www.w3.org/2000/svg"}
POLICY = b"""default-src 'none'; style-src 'unsafe-inline'; script-src 'unsafe-inline' 'wasm-unsafe-eval'; worker-src blob:; img-src data:; base-uri 'none';
  form-action 'none'"""
ASKS = rb"\bsrc\s*=|url\(|\bfetch\b|\bimport\b|@font-face|XMLHttp|WebSocket|EventSource|sendBeacon|\beval\b|innerHTML"

TEXTS = {name: text.encode() for name, text in texts().items()}
FRONT = b"".join(TEXTS[name] for name in ("OPENING", "STYLE", "PARTS"))
VIEWER = b"".join(TEXTS[name] for name, _, _ in SCRIPT)
BETWEEN = TEXTS["BETWEEN"]


def halves(page):
    """The lines of a page's data, and the engine's digits."""
    lines, digits = page[len(FRONT) : len(page) - len(VIEWER)].split(BETWEEN)
    return lines, digits


def data_in(page):
    """The lines of a page's data."""
    return halves(page)[0]


class Balanced(html.parser.HTMLParser):
    """Reads a page, and keeps the tags that don't pair and the names of its elements."""

    VOID = {"meta", "link", "br", "input"}

    def __init__(self):
        super().__init__()
        self.open, self.bad, self.ids = [], [], []

    def handle_starttag(self, tag, attributes):
        self.ids += [value for key, value in attributes if key == "id"]
        if tag not in self.VOID:
            self.open.append(tag)

    def handle_endtag(self, tag):
        if not self.open or self.open.pop() != tag:
            self.bad.append(tag)


# The head of an arrow, which each diagram with an arrow defines by the same text, so that a page may have it several times.
HEAD = re.compile(r'<defs><marker id="head" viewBox="0 0 6 6"[^>]*><path d="M0 0l6 3-6 3z"[^>]*/></marker></defs>')


def wrong_tags(page):
    text = page.decode("ascii")
    heads = HEAD.findall(text)
    if len(set(heads)) > 1:
        return "two heads of arrows differ"
    reader = Balanced()
    reader.feed(text.replace(heads[0], "", len(heads) - 1) if heads else text)
    reader.close()
    if reader.bad or reader.open:
        return f"tags don't pair: {reader.bad + reader.open}"
    return None if len(reader.ids) == len(set(reader.ids)) else "two elements have one name"


def wrong(page, engine=b""):
    """Why a page is not made of its parts around its lines and this engine, or is no page that asks for nothing, if so."""
    if not (page.startswith(FRONT) and page.endswith(VIEWER) and page.count(BETWEEN) == 1):
        return "it does not begin and end as the library says, or has no place for the engine"
    lines, digits = halves(page)
    outside = set(re.findall(rb"\w+://[^\"'`\s]*", page)) - {name.encode() for name in NAMESPACES}
    checks = {
        "a byte is not ASCII": page.isascii(),
        "its data open a tag": b"<" not in lines,
        "its data end in the middle of a line": lines.endswith(b"\n"),
        "its engine is not that of the file": digits == engine.rstrip(b"\n"),
        f"it names {sorted(outside)}": not outside,
        "it has words of those that ask for a file": not re.search(ASKS, (FRONT + VIEWER).replace(POLICY, b"")),
        "its policy does not forbid to ask": POLICY in FRONT,
    }
    found = [why for why, well in checks.items() if not well]
    return found[0] if found else wrong_tags(page)
