#!/usr/bin/env python3
"""puzzles.py [GAME..] [--number N] [--seed S]: writes a book of puzzles as a page of HTML for print, to standard output.

Each puzzle is a position in which only one move wins. Of each game (Dao, where none is named) some are taken by chance, the same for the same seed, from
quick wins to long ones. The solutions stand at the end, with the whole line of best play."""
import argparse
import html
import sys
from typing import Iterator, List

from gamesman import Game, GamesmanError, Position

HEAD = """<!doctype html>
<html lang="en"><head><meta charset="utf-8"><title>Puzzles</title><style>
body { font: 16px/1.5 serif; max-width: 46em; margin: 2em auto; padding: 0 1em }
.puzzles { display: grid; grid-template-columns: repeat(auto-fill, minmax(14em, 1fr)); gap: 2em }
figure { margin: 0; break-inside: avoid } svg { width: 100%; height: auto } h2 { break-before: page }
</style></head><body>
<h1>Puzzles</h1>
<p>In each of them the side to move wins, and only one move does it. Find the move.</p>
"""


def puzzles(game: Game, number: int, seed: int) -> List[Position]:
    """Returns some positions that only one move wins, in three moves or more, from quick to long."""
    found = game.find("win", only_move=True, remoteness=(3, 1000), min_moves=2, reached=True, random=number, seed=seed)
    return sorted(found, key=lambda it: (it.remoteness, it.text))


def figure(number: int, puzzle: Position) -> str:
    """Writes a puzzle without its solution."""
    drawing = puzzle.svg()
    drawing = drawing[drawing.index("<svg") :]
    caption = f"{number}. {puzzle.game.name}: win in {puzzle.remoteness}"
    return f"<figure>{drawing}<figcaption>{html.escape(caption)}</figcaption></figure>\n"


def solution(number: int, puzzle: Position) -> str:
    """Writes the line of best play of a puzzle."""
    first, *rest = map(html.escape, puzzle.best_line())
    return f"<li value={number}><b>{first}</b> {' '.join(rest)}</li>\n"


def book(games: List[str], number: int, seed: int) -> Iterator[str]:
    """Writes the parts of the book."""
    figures: List[str] = []
    solutions: List[str] = []
    for name in games:
        with Game(name) as game:
            found = puzzles(game, number, seed)
            if len(found) < number:
                print(f"puzzles.py: {name} has {len(found)} such puzzles, not {number}", file=sys.stderr)
            for puzzle in found:
                figures.append(figure(len(figures) + 1, puzzle))
                solutions.append(solution(len(figures), puzzle))
    yield HEAD
    yield from ["<div class=puzzles>\n", *figures, "</div>\n"]
    yield from ["<h2>Solutions</h2>\n<ol>\n", *solutions, "</ol>\n</body></html>\n"]


def main() -> int:
    options = argparse.ArgumentParser(description=__doc__)
    options.add_argument("games", nargs="*", default=["dao"], metavar="GAME")
    options.add_argument("--number", type=int, default=12, help="how many of each game (12)")
    options.add_argument("--seed", type=int, default=1, help="what chance takes (1)")
    asked = options.parse_args()
    try:
        sys.stdout.writelines(book(asked.games, asked.number, asked.seed))
    except (GamesmanError, OSError) as why:
        print(f"puzzles.py: {why}", file=sys.stderr)
        return 1
    return 0


if __name__ == "__main__":
    sys.exit(main())
