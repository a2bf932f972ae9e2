"""What a notebook shows: boards with their moves, and pages."""
import html
from typing import List

from .answers import Move, value_text

# A light ground, since the boards are drawn for one, also in a notebook of a dark scheme.
BOARD = '<div style="display:flex;flex-wrap:wrap;gap:1.5em;align-items:flex-start;background:#fff;color:#000;padding:.5em">'
LIST = '<div style="max-height:24em;overflow:auto">'
FRAME = '<iframe title="gamesman" sandbox="allow-scripts" style="width:100%;height:46em;border:1px solid #777" srcdoc="{}"></iframe>'

# In a frame without an address of its own a link to a part of the page is read by this one.
BASE = '<base href="about:srcdoc">'


def position_html(svg: str, value: str, moves: List[Move]) -> str:
    """Writes a board, what it is worth, and its moves with what each is worth and leads to."""
    rows = [(move.text, value_text(move.value, move.remoteness), move.result) for move in moves]
    cells = ["".join(f"<td>{html.escape(cell)}</td>" for cell in row) for row in rows]
    head = "<tr><th>move</th><th>worth</th><th>result</th></tr>"
    table = f"<table>{head}{''.join(f'<tr>{row}</tr>' for row in cells)}</table>" if rows else "<p>The game is over.</p>"
    return f"{BOARD}<div>{svg[svg.index('<svg') :]}</div>{LIST}<p>To move: <b>{value}</b></p>{table}</div></div>"


class Page:
    """A page of HTML that stands by itself, such as `Game.explorer` returns. A notebook shows it in a frame."""

    __slots__ = ("html",)

    def __init__(self, text: str) -> None:
        self.html = text
        """The text of the page."""

    def __repr__(self) -> str:
        return f"<page of {len(self.html)} characters>"

    def save(self, path: str) -> None:
        """Writes the page to a file, which any browser opens without a network."""
        with open(path, "w", encoding="utf-8", newline="") as file:
            file.write(self.html)

    def _repr_html_(self) -> str:
        front, mark, rest = self.html.partition("<head>")
        return FRAME.format(html.escape(f"{front}{mark}{BASE}{rest}"))
