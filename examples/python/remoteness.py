#!/usr/bin/env python3
"""remoteness.py [GAME] [--folder FOLDER] [--to FILE]: how many canonical positions of a game (Dao, where none is named) have each value and remoteness.

With --to a plot is drawn by matplotlib, where that is installed. Otherwise bars of text are printed. The tables are read from a folder that `gamesman solve`
has filled, or solved into a temporary one."""
import argparse
import sys
import tempfile
from typing import Dict, Tuple

from gamesman import Folder, Game, GamesmanError

# The values in the order in which they are shown, with their colours.
COLOURS = {"lose": "#b04a3a", "tie": "#b8a13a", "win": "#3a7a4f"}
WIDTH = 60

Counts = Dict[Tuple[str, int], int]


def counts_of(game: str, folder: str) -> Counts:
    """Counts the positions of each value and remoteness, and solves the game first where the folder has no files."""
    if not Folder(folder).tiers:
        Game(game).solve(folder)
    return {(record.value, record.remoteness): many for record, many in Folder(folder, game).counts().items()}


def rows_of(counts: Counts) -> Dict[int, Dict[str, int]]:
    """Returns for each remoteness how many positions have each value. Draws have none."""
    last = max((remoteness for value, remoteness in counts if value != "draw"), default=0)
    return {remoteness: {value: counts.get((value, remoteness), 0) for value in COLOURS} for remoteness in range(last + 1)}


def text_of(game: str, counts: Counts) -> str:
    """Draws the counts with characters."""
    rows = rows_of(counts)
    most = max(sum(row.values()) for row in rows.values())
    lines = [f"{game}: {sum(counts.values()):,} canonical positions by the number of moves to the end"]
    lines.append(" " * 3 + "".join(f"{value:>10}" for value in COLOURS))
    for remoteness, row in rows.items():
        bar = "#" * -(-WIDTH * sum(row.values()) // most)
        lines.append(f"{remoteness:3}" + "".join(f"{many:>10,}" for many in row.values()) + f"  {bar}".rstrip())
    if ("draw", 0) in counts:
        lines.append(f"{counts['draw', 0]:,} more are draws")
    return "\n".join(lines)


def plot(game: str, counts: Counts, to: str) -> bool:
    """Draws the counts into a file. Returns False where matplotlib is not installed."""
    try:
        import matplotlib
    except ImportError:
        return False
    matplotlib.use("Agg")
    from matplotlib import pyplot

    rows = rows_of(counts)
    below = [0] * len(rows)
    _, axes = pyplot.subplots(figsize=(9, 5))
    for value, colour in COLOURS.items():
        heights = [row[value] for row in rows.values()]
        axes.bar(list(rows), heights, bottom=below, color=colour, label=value)
        below = [low + high for low, high in zip(below, heights)]
    draws = f"; {counts['draw', 0]:,} more are draws" if ("draw", 0) in counts else ""
    axes.set(title=f"{game}: canonical positions{draws}", xlabel="moves to the end", ylabel="positions")
    axes.legend()
    pyplot.savefig(to, dpi=150)
    return True


def main() -> int:
    options = argparse.ArgumentParser(description=__doc__)
    options.add_argument("game", nargs="?", default="dao", metavar="GAME")
    options.add_argument("--folder", help="the folder of the tables")
    options.add_argument("--to", metavar="FILE", help="the plot, as FILE.png or FILE.svg")
    asked = options.parse_args()
    try:
        with tempfile.TemporaryDirectory() as room:
            counts = counts_of(asked.game, asked.folder or room)
    except (GamesmanError, OSError) as why:
        print(f"remoteness.py: {why}", file=sys.stderr)
        return 1
    if asked.to and plot(asked.game, counts, asked.to):
        return 0
    if asked.to:
        print("remoteness.py: matplotlib is not installed, so the numbers follow", file=sys.stderr)
    print(text_of(asked.game, counts))
    return 0


if __name__ == "__main__":
    sys.exit(main())
