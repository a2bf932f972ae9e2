"""The viewer of pages, as files that an editor reads: tools/web/viewer. gm_page has their texts as constants, which `tools/docs --write` makes of them.
page.html and sheet.html are cut at their marks '<!-- here: .. -->', where the library puts what differs from page to page."""
import json
import os
import re
import shutil
import subprocess
import textwrap
from collections import Counter
from collections.abc import Iterator

from lib.games import TOLD
from lib.paths import ROOT, TOOLS

FOLDER = os.path.join(TOOLS, "web/viewer")
SOURCES = os.path.join(ROOT, "crates/gm_page/src")

# What stands for the script that is made of the files games.json of the crates.
GAMES = "games.json"

# The parts of the script, in the order in which a page has them: the constant, its module, and its files.
SCRIPT = (
    ("ASKING", "viewer_asking", ("lines.js", GAMES, "asking.js")),
    ("BOARDS", "viewer_boards", ("men.js", "boards.js")),
    ("PLAYING", "viewer_playing", ("editing.js", "playing.js")),
    ("CHOOSING", "viewer_choosing", ("texts.js", "choosing.js")),
    ("DRAWING", "viewer_drawing", ("replies.js", "drawing.js")),
)
PAGE = {"OPENING": "front", "STYLE": "front", "PARTS": "front", "BETWEEN": "engine"}
SHEET = ("LIST_FRONT", "LIST_LEGENDS", "LIST_PUZZLES", "LIST_SOLUTIONS", "LIST_BACK")

# Each constant with its module.
MODULES = PAGE | {name: module for name, module, _ in SCRIPT} | {name: "parts" for name in SHEET}

# The most columns of a line of Rattle's layout.
COLUMNS = 100


def read(path: str) -> str:
    with open(path, encoding="utf-8", newline="") as it:
        return it.read()


def quoted(words: str) -> str:
    """A text as strings of a script, one in each line."""
    *first, last = textwrap.wrap(words, 140, break_long_words=False, break_on_hyphens=False)
    return " +\n    ".join([*(json.dumps(f"{line} ") for line in first), json.dumps(last)])


def family(game: str) -> str:
    """The name under which the script looks for the rules of a game of several sizes."""
    return re.sub(r"-\d(x\d)?", "", game)


# The members of games.json of which the script has tables: the table, and what it has of each game.
TABLES = (
    ("LEGAL", "legal", "how many legal positions it has"),
    ("WORTHS", "worth", "what its start is worth"),
    ("FAMILIES", "family", "its kind"),
    ("ADDS", "adds", "how many men each move adds"),
    ("TURNS", "turn", "how the board is turned for the second player"),
    ("ROWS", "rows", "the rows that end it, by their shapes or their points"),
    ("DROPS", "drops", "whether a man falls to the lowest empty place of a column"),
    ("HEAPS", "heaps", "the heaps of its start"),
    ("BARS", "bar", "the rows of the bar of its start"),
)


def table(name: str, member: str) -> str:
    """A table of the script: the games of which games.json has this member, with what it is."""
    told = {game: told.get(member) or (told.get("lines") if member == "rows" else None) for game, told in TOLD.items()}
    # (a line ends only between entries)
    lines = ["  "]
    for game, it in told.items():
        if it:
            entry = f'"{game}": {json.dumps(it)}, '
            if len(lines[-1]) + len(entry) > 152:
                lines.append("  ")
            lines[-1] += entry
    text = "\n".join(line.rstrip() for line in lines).removesuffix(",")
    return f"const {name} = {{\n{text}\n}};\n"


def words_of_games() -> str:
    """What the script knows of the games beside their lines: the rules of each, or of its family, in a few lines, and tables."""
    ruled = {game: told["rules"] for game, told in TOLD.items() if "rules" in told}
    families = Counter(map(family, ruled))
    rules = "".join(f'  "{game if families[family(game)] > 1 else family(game)}":\n    {quoted(text)},\n' for game, text in ruled.items())
    return (
        "// ---- The games: the rules of each in a few lines; "
        + "; ".join(f"{what} ({name})" for name, _, what in TABLES)
        + f".\nconst RULES = {{\n{rules}}};\n"
        + "".join(table(name, member) for name, member, _ in TABLES)
        + "\n"
    )


def text_of(name: str) -> str:
    return words_of_games() if name == GAMES else read(os.path.join(FOLDER, name))


def cut(name: str) -> list[str]:
    """The texts between the marks of a file."""
    return re.split(r"<!-- here: [^>]+ -->\n?", text_of(name))


def texts() -> dict[str, str]:
    """The text of each constant."""
    opening, parts, between, before, after = cut("page.html")
    found = {"OPENING": opening, "STYLE": text_of("style.css"), "PARTS": parts, "BETWEEN": between}
    found |= {name: "".join(text_of(file) for file in files) for name, _, files in SCRIPT}
    found["ASKING"] = before + found["ASKING"]
    found["DRAWING"] += after
    return found | dict(zip(SHEET, cut("sheet.html")))


def with_text(source: str, name: str, text: str) -> str:
    """A module with this text as its constant."""
    head = f"pub const {name}: &[u8] ="
    first = f' br##"{text}'.split("\n", 1)[0]
    space = " " if len(head + first) <= COLUMNS else "\n    "
    pieces = re.split(rf'(?s){re.escape(head)}\s+br##".*?"##;', source)
    if len(pieces) != 2:
        raise ValueError(f"gm_page has no constant {name}")
    return f'{head}{space}br##"{text}"##;'.join(pieces)


def modules() -> dict[str, str]:
    """The modules with constants, by their paths, as the files of the viewer want them."""
    made: dict[str, str] = {}
    for name, text in texts().items():
        path = os.path.join(SOURCES, f"{MODULES[name]}.rt")
        made[path] = with_text(made.get(path) or read(path), name, text)
    return made


def write_modules() -> None:
    for path, text in modules().items():
        if read(path) != text:
            with open(path, "w", encoding="utf-8", newline="") as it:
                it.write(text)


def bad_scripts() -> Iterator[str]:
    """The scripts that node can't read, where it is."""
    if shutil.which("node"):
        for file in [*sorted(os.listdir(FOLDER)), GAMES]:
            if file.endswith(".js") or file == GAMES:
                ran = subprocess.run(["node", "--check", "-"], input=text_of(file), capture_output=True, text=True, check=False)
                if ran.returncode:
                    yield f"tools/web/viewer: {file}: {ran.stderr.strip().splitlines()[-1]}"


def lacking() -> Iterator[str]:
    """The games of which games.json has no rules in words, neither their own nor those of their family."""
    ruled = {family(game) for game, told in TOLD.items() if "rules" in told}
    for game in TOLD:
        if family(game) not in ruled:
            yield f"no games.json has rules in words of {game}"


def faults() -> Iterator[str]:
    """What is wrong with the viewer: a module that differs from its files, a script that node can't read, a game without rules in words."""
    for path, text in modules().items():
        if read(path) != text:
            yield f"{os.path.relpath(path, ROOT)} differs from tools/web/viewer: tools/docs --write"
    yield from bad_scripts()
    yield from lacking()
