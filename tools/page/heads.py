"""What a page says of each game in its first line: the board, the names of its points, its men and its sides (docs/FORMATS.md). The crates of the games say it
in short in their files games.json (tools/lib/README.md)."""
from lib.games import TOLD

# The board of chess, whose squares are all alike in it, and their names from the eighth rank down.
CHESS = "\n".join(["    a b c d e f g h"] + [f"{rank}   A A A A A A A A" for rank in range(8, 0, -1)])
SQUARES = [f"{file}{rank}" for rank in range(8, 0, -1) for file in "abcdefgh"]


def square(side):
    """The board of cells without lines between them, and their names."""
    rows = ["    " + " ".join(str(column + 1) for column in range(side))]
    rows += [chr(97 + row) + "   " + " ".join(chr(65 + side * row + column) for column in range(side)) for row in range(side)]
    return "\n".join(rows), [chr(97 + row) + str(column + 1) for row in range(side) for column in range(side)]


def board(told):
    """The board of a game, and the names of its points."""
    if "numbers" in told:
        names = [str(number) for number in range(told["numbers"])]
        return " ".join(names), names
    if "square" in told:
        return square(told["square"])
    return (CHESS, SQUARES) if told["board"] == "chess" else ("\n".join(told["board"]), told["points"].split())


def head(told):
    drawn, points = board(told)
    men, swap, sides = told.get("men", ""), told.get("swap", False), told.get("sides", ["First", "Second"])
    return {"title": told["title"], "board": drawn, "points": points, "men": men, "swap": swap, "sides": sides}


HEADS = {game: head(told) for game, told in TOLD.items()}
