"""What can go wrong. Each error is a GamesmanError."""
from typing import Any, Tuple


class GamesmanError(Exception):
    """Any error of this package."""


class ProgramMissing(GamesmanError):
    """The program `gamesman` is not there, or can't be started."""


class NoSuchGame(GamesmanError, ValueError):
    """The name is that of no game."""


class NoSuchPosition(GamesmanError, ValueError):
    """The text is that of no legal position of the game."""


class NoSuchMove(GamesmanError, ValueError):
    """The text is that of no move of the position."""


class NoSuchPlace(GamesmanError, LookupError):
    """The game has no such tier, or the index is that of no canonical legal position."""


class BadFile(GamesmanError, ValueError):
    """A file is no right tier file. Its text says why, by the word of `gamesman check`."""


class Failed(GamesmanError):
    """A command of the program failed. Its text has the fault, and the reason where one is known."""

    def __init__(self, fault: str, status: int, reason: str = "") -> None:
        super().__init__(f"{fault}: {reason}" if reason else fault)
        self.fault = fault
        """What the program wrote to standard error, without its name; or how it ended, if it wrote nothing."""
        self.status = status
        """The exit status; if negative, the signal that ended the program."""
        self.reason = reason
        """Why the fault came, or what to do, as the program explains it; empty if it doesn't."""

    def __reduce__(self) -> Tuple[Any, ...]:
        return type(self), (self.fault, self.status, self.reason)


class Stopped(Failed):
    """The process that answers has ended before its answer."""
