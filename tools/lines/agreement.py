"""The games are listed as docs/GAMES.md lists them, and what the lines about one game say of its start agrees: its moves, its line of best play, its value, its
drawing, and what `list` has of the game: the start's text and value, and how many positions are legal."""
import csv
import functools
import json
import os
import re

from lib.games import LARGE, TOLD
from lib.paths import ROOT
from lib.programs import Refused, told


def listed():
    """The games that `list` has to print, and those that `list --all` has to print after them, by docs/GAMES.md."""
    with open(os.path.join(ROOT, "docs/GAMES.md"), encoding="utf-8") as it:
        groups = re.search(r"(?s)\n`list` prints, in order, (.*?)`list --all` also prints (.*?)\. ", it.read()).groups()
    return [re.findall(r"`([\w-]+)`", group) for group in groups]


FIRST, LATER = listed()

GAMES = [game for game in FIRST + LATER if game not in LARGE]

# The most columns that a drawing takes.
COLUMNS = 50


def lines_of(*words):
    return told(*words).splitlines()


@functools.cache
def entries():
    """What `list` has of each game, by its name."""
    return {entry["name"]: entry for entry in map(json.loads, lines_of("list", "--all", "--json"))}


def entry_of(game, *options):
    """What `list` has to have of a game, by what the program says of its start and of its positions."""
    start = lines_of("line", game, "--limit", "1", *options)[0].split("\t")[1]
    value, _, remoteness = lines_of("query", game, start, *options)[0].partition(" in ")
    legal = sum(int(row["positions"]) for row in csv.DictReader(lines_of("counts", game, "--legal", "--csv", *options)))
    number = int(remoteness) if remoteness else None
    told_of = {"title": TOLD[game]["title"], "family": TOLD[game]["family"]}
    return {"name": game, **told_of, "start": start, "value": value, "remoteness": number, "legal": legal}


def wrong_entry(game, *options):
    """What `list` says otherwise of a game than the lines about it, if it does."""
    wanted, found = entry_of(game, *options), entries().get(game)
    return None if found == wanted else f"`list` has {found}, and not {wanted}"


def wrong(game):
    """Why the lines about a game disagree, if they do."""
    try:
        moves = [line.split("\t") for line in lines_of("moves", game)]
        line = [entry.split("\t") for entry in lines_of("line", game)]
        start, value = line[0][1:]
        if lines_of("query", game, start) != [value]:
            return "query and line give two values"
        drawing = lines_of("show", game)
    except Refused as why:
        return str(why)
    if moves[0] != [line[1][0], value, line[1][1]]:
        return "the best of the moves is not the first move of the line"
    # A draw ends where a position comes again.
    whole = line[-1][0].startswith("again ") if value == "draw" else int(value.split()[2]) == len(line) - 1
    if not whole:
        return "the line is not as long as its value says"
    return wrong_entry(game) if drawing and all(len(row) <= COLUMNS for row in drawing) else "the drawing is too wide"


def games_are_listed(room):
    # Scripts rely on what `list` prints, so games that came later stand after it.
    found, every = lines_of("list"), lines_of("list", "--all")
    return None if (found, every) == (FIRST, FIRST + LATER) else f"{found} and {every} are listed"


def titles_are_listed(room):
    """`list` has each game's title behind its name, and one line of JSON for each game."""
    wanted = [f"{game}\t{TOLD[game]['title']}" for game in FIRST + LATER]
    if lines_of("list", "--titles") != wanted[: len(FIRST)] or lines_of("list", "--titles", "--all") != wanted:
        return "other titles are listed"
    first = [json.loads(line)["name"] for line in lines_of("list", "--json")]
    return None if (first, list(entries())) == (FIRST, FIRST + LATER) else "other games are listed in JSON"


LISTED = (games_are_listed, titles_are_listed)
