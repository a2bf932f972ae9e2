"""The table from which `gamesman list --json` has the family, the start's value and the number of positions of each game: gamesman's module catalog, which
`tools/docs --write` makes of the crates' games.json."""
import os
import re
from collections.abc import Iterator
from typing import Any

from lib.games import TOLD
from lib.paths import ROOT

PATH = os.path.join(ROOT, "crates/gamesman/src/catalog.rt")

HEAD = """\
//! What the list of games in JSON has of each game besides its texts. `tools/docs --write` makes this file of the crates' `games.json`.

use crate::listing::Row;
use gm_command::names::GameName;
use gm_game::position::Value;

// Writes the rows of these games.
macro_rules! rows {
    ($({ $name:literal, $game:ident, $family:literal, $value:ident, $remoteness:expr, $legal:literal })*) => {
        [$(($name, GameName::$game, $family, Value::$value, $remoteness, $legal)),*]
    };
}
"""

# The two groups of games: the constant, and what it says of them.
GROUPS = (
    ("ROWS", "The games that `list` prints."),
    ("LATER_ROWS", "The games that only `list --all` prints."),
)

# What games.json has of a game's start: a value, with its remoteness unless it is a draw.
WORTH = re.compile(r"(win|lose|tie) in (\d+)|(draw)")


def named() -> list[list[tuple[str, str]]]:
    """The names of the games with their variants, by groups, as gm_command has them."""
    with open(os.path.join(ROOT, "crates/gm_command/src/names.rt"), encoding="utf-8") as it:
        listed = it.read().partition("macro_rules! with_games")[2].partition("\n}\n")[0]
    groups = re.findall(r"(?s)\n            \{\n(.*?)\n            \}", listed)
    return [re.findall(r'"([\w-]+)" => (\w+):', group) for group in groups]


def faults_of(name: str) -> list[str]:
    """The members that games.json lacks of a game, or that have no such form."""
    told = TOLD.get(name, {})
    known = {"family": isinstance(told.get("family"), str), "legal": isinstance(told.get("legal"), int), "worth": WORTH.fullmatch(str(told.get("worth")))}
    return [member for member, is_known in known.items() if not is_known]


def row(name: str, game: str, told: dict[str, Any]) -> str:
    """The row of a game."""
    worth = WORTH.fullmatch(told["worth"])
    if not worth:
        raise ValueError(f"games.json: {name}: no such worth")
    value, remoteness, draw = worth.groups()
    number = f"{told['legal']:,}".replace(",", "_")
    return f'    {{ "{name}", {game}, "{told["family"]}", {(draw or value).capitalize()}, {"None" if draw else f"Some({remoteness})"}, {number} }}\n'


def text() -> str:
    """The text of the module."""
    found = [HEAD]
    for (name, about), games in zip(GROUPS, named()):
        rows = "".join(row(game, variant, TOLD[game]) for game, variant in games)
        found.append(f"\n/// {about}\npub const {name}: [Row; {len(games)}] = rows! {{\n{rows}}};\n")
    return "".join(found)


def lacking() -> list[str]:
    """The games of which games.json lacks a member, each with these."""
    every = [name for group in named() for name, _ in group]
    return [f"games.json has no {', '.join(faults_of(name))} of {name}" for name in every if faults_of(name)]


def write_module() -> None:
    if not lacking():
        with open(PATH, "w", encoding="utf-8", newline="") as it:
            it.write(text())


def faults() -> Iterator[str]:
    """What is wrong with the table: a game that lacks a member, or a module that differs from games.json."""
    yield from lacking()
    if not lacking():
        with open(PATH, encoding="utf-8", newline="") as it:
            if it.read() != text():
                yield f"{os.path.relpath(PATH, ROOT)} differs from games.json: tools/docs --write"
