"""Sheets of found positions, `gamesman find .. --page`, and of listed ones, `gamesman sheet`: the same made once more from what `find`, `show --svg` and `line` say,
and whether its tags pair."""
import itertools
import os
import re

from lib.newspaper import newspaper
from lib.paths import ROOT
from lib.programs import told
from page.heads import HEADS
from page.parts import wrong_tags

# The most moves of a solution's line.
MOVES = "40"

# A sheet for each kind of solution: lines that end, that go round, that are cut, and games that have ended.
SHEETS = [
    ("tictactoe", "--value win --only-move --limit 6"),
    ("countdown", "--value lose --limit 3"),
    ("wheel", "--value draw"),
    ("dao", "--value win --remoteness 11 --only-move"),
    ("hare", "--value win --whole-line --limit 2"),
    ("tactix-3-misere", "--value win --limit 4"),
    ("mutorere", "--value draw --limit 2"),
    ("krk", "--value win --remoteness 5 --only-fastest --limit 2"),
]


def constants():
    """The constant parts of a sheet, by their names."""
    with open(os.path.join(ROOT, "crates/gm_page/src/parts.rt"), encoding="ascii") as it:
        return dict(re.findall(r'(?s)pub const (\w+): &\[u8\] = br##"(.*?)"##;', it.read()))


def escaped(text):
    return text.replace("&", "&amp;").replace("<", "&lt;")


def end_of(lines):
    """How a line of best play ends, and its lines of positions."""
    if lines[-1].startswith("again "):
        return " and so on.", lines[:-1]
    return ("." if lines[-1].endswith(" in 0") else " ..."), lines


def others(game, folder, after):
    """The other longest defences in a lost position, each with the best answer."""
    moves = [row.split("\t") for row in told("moves", game, after, "--distinct", "--folder", folder).splitlines()]
    answers = {row.split("\t")[0]: row.split("\t")[2] for row in told("why", game, after, "--folder", folder).splitlines()}
    longest = [move for move, worth, *_ in moves[1:] if worth == moves[0][1]]
    return "".join(f" Also 1... {move}{' 2. ' + answers[move] if answers[move] else ''}." for move in longest)


def solution(game, folder, position, value, best, moves):
    if not best:
        return "The game has ended."
    end, lines = end_of(told("line", game, position, "--limit", MOVES, "--folder", folder).splitlines())
    steps = "".join(" " + line.split("\t")[0] for line in lines[1:])
    choice = ", the only move" if moves == "1" else f", one of {moves} moves"
    more = others(game, folder, lines[1].split("\t")[1]) if value.startswith("win") else ""
    return f"<b>{best}</b>{choice}. Best play:{steps}{end}{more}"


def made(game, words, folder):
    """The sheet of what `find` finds."""
    rows = [(game, row) for row in told("find", game, *words, "--folder", folder).splitlines()]
    return listed("", rows, [game], {game: folder}, HEADS[game]["title"])


def wrong(game, words, folder):
    """Why a sheet is not what it should be, if so."""
    words = words.split()
    sheet = told("find", game, *words, "--page", "--folder", folder)
    if sheet != made(game, words, folder):
        return "it is not what find, show and line say"
    return wrong_tags(sheet.encode())


# Lists of games and searches, whose first positions take turns on one sheet.
LISTS = [
    ("", ["dao --value win --remoteness 9 --only-move --limit 3", "hare --value win --whole-line --limit 3", "tactix-3-misere --value win --limit 3"]),
    ("--own-moves", ["krk --value win --remoteness 5 --only-fastest --limit 2", "wheel --value draw --limit 2", "countdown --value lose --limit 2"]),
    ("--no-value --title x<y", ["mutorere --value draw --limit 2", "achi --value win --remoteness 5 --limit 2"]),
    ("--sort long --arrow", ["wheel --value draw --limit 2", "krk --value win --remoteness 7..11 --limit 3", "dao --value win --remoteness 3..9 --limit 3", "countdown --value lose --limit 3"]),
    ("--arrow --own-moves", ["foxhounds --value win --remoteness 9 --limit 2", "notakto --value win --limit 2", "tictactoe --value tie --limit 2"]),
    ("--sort long --caption {number}:{moves}:{game}", ["mutorere --value draw --limit 2", "hare --value win --remoteness 3..15 --random 4", "achi --value lose --limit 3"]),
    ("--sort list --caption {number}:{side}:{value}:{moves}:{plies}:{game}<", ["krk --value win --remoteness 5 --limit 2", "wheel --value draw --limit 2", "hare --value lose --limit 2"]),
]

# Whose the men are, by the letters of the men, of which `x` are of both sides in games without `o`.
WHOSE = {
    "": "One of the numbers is the position.",
    "x": "The men belong to both sides.",
    "XO": "Crosses belong to the side to move, x; noughts to the other, o.",
    "xo": "Black men belong to the side to move, x; white men, with a ring, to the other, o.",
    "dh": "White men with a d are the hounds; the black man with an h is the hare.",
    "K": "White men with capitals belong to White; black men with small letters to Black.",
    "fh": "The white man with an f is the fox; black men with an h are the hounds.",
}


def letters(game):
    """The letters of the men of a game, by which `WHOSE` says whose they are."""
    head = HEADS[game]
    if head["sides"] == ["X", "O"]:
        return "XO"
    return "K" if head["men"][:1] == "K" else head["men"]


OUTCOMES = {"win": "wins in", "tie": "ties in", "lose": "loses in", "draw": "draws"}


def under(diagram, value, words, number, game):
    """The line under the diagram of the puzzle with this number."""
    template = words.partition("--caption ")[2]
    if not template and "--own-moves" not in words:
        return ""
    side = re.findall(">([^<>]*) to move</text>", diagram)[-1]
    word, _, count = value.partition(" in ")
    moves = str((int(count) + 1) // 2) if count else ""
    if "--own-moves" in words:
        return f"<p>{side} {OUTCOMES[word]}{' ' + moves if count else ''}</p>"
    fields = {"number": number, "side": side, "value": OUTCOMES[word].partition(" ")[0], "moves": moves or "-", "plies": count or "-", "game": HEADS[game]["title"]}
    return f"<p>{escaped(template.format(**fields))}</p>"


def length(row):
    """The number of moves to the end that a row of `find` says; more than any for a draw."""
    return int((row[1].split("\t")[1].partition(" in ")[2]) or 1 << 40)


def listed(words, rows, games, folders, title="Puzzles"):
    """The sheet of these rows, each with its game and what `find` says of it."""
    part, items, answers = constants(), "", ""
    plain = ["--no-value"] if any(word in words for word in ("--no-value", "--own-moves", "--caption")) else []
    for number, (game, row) in enumerate(sorted(rows, key=length) if "--sort long" in words else rows, 1):
        position, value, best, moves = row.split("\t")
        svg = told("show", game, position, "--svg", *plain, "--folder", folders[game])
        solved = solution(game, folders[game], position, value, best, moves)
        items += f"<li><h3>{escaped(HEADS[game]['title'])}</h3>\n{svg}{under(svg, value, words, number, game)}<details><summary>Solution</summary>"
        items += f"<p>{solved}</p>\n<p><code>{escaped(position)}</code></p></details></li>\n"
        marked = told("show", game, position, "--svg", "--no-value", "--arrow", "--folder", folders[game]) if "--arrow" in words else ""
        answers += "<li>" + (f'<div style="width:9rem">{marked}</div>' if marked else "") + f"{solved}</li>\n"
    men = {game: letters(game) for game in games}
    legends = "".join(f"<p><b>{escaped(HEADS[game]['title'])}</b>: {WHOSE[men[game]]}</p>\n" for game in games)
    front = part["LIST_FRONT"] + escaped(words.partition("--title ")[2] or title) + part["LIST_LEGENDS"] + legends + part["LIST_PUZZLES"]
    return front + items + part["LIST_SOLUTIONS"] + answers + part["LIST_BACK"]


def wrong_list(words, searches, folder):
    """Why the sheet of a list, of which each game's tables are in a folder that `folder` names, is not what it should be, if so."""
    games = [search.split()[0] for search in searches]
    folders = {game: folder(game) for game in games}
    found = [told("find", *search.split(), "--folder", folders[game]).splitlines() for game, search in zip(games, searches)]
    rows = [(game, row) for turn in itertools.zip_longest(*found) for game, row in zip(games, turn) if row]
    sheet = told("sheet", *words.split(), given="".join(f"{game}\t{row}\n" for game, row in rows))
    if sheet != listed(words, rows, games, folders):
        return "it is not what find, show and line say"
    return wrong_tags(sheet.encode())


def wrong_newspaper(empty, folder):
    """Why the page that the README makes in an empty folder is not what its list says, if so."""
    lines, sheet = newspaper(empty)
    rows = [tuple(line.split("\t", 1)) for line in lines.splitlines()]
    games = list(dict.fromkeys(game for game, _ in rows))
    if sheet != listed("--sort long --own-moves", rows, games, {game: folder(game) for game in games}):
        return "it is not what find, show and line say"
    return wrong_tags(sheet.encode())
