"""Positions, moves and tables of gamesman, which solves board games completely.

    >>> from gamesman import Game
    >>> with Game("tictactoe") as game:
    ...     position = game.position("xo.......")
    ...     print(position.value, position.remoteness, position.best_move())
    win 5 b1

`Game` asks one process of the program, `Folder` reads the files that the program writes. Only Python's standard library is needed."""
from .answers import Move, Place, Progress, Summary, value_text
from .errors import BadFile, Failed, GamesmanError, NoSuchGame, NoSuchMove, NoSuchPlace, NoSuchPosition, ProgramMissing, Stopped
from .folder import Folder, Record, Tier
from .game import Found, Game, games, positions_of
from .notebook import Page
from .position import Position, Reply

__version__ = "1.2.0"

__all__ = [
    "BadFile",
    "Failed",
    "Folder",
    "Found",
    "Game",
    "GamesmanError",
    "Move",
    "NoSuchGame",
    "NoSuchMove",
    "NoSuchPlace",
    "NoSuchPosition",
    "Page",
    "Place",
    "Position",
    "ProgramMissing",
    "Progress",
    "Record",
    "Reply",
    "Stopped",
    "Summary",
    "Tier",
    "games",
    "positions_of",
    "value_text",
]
