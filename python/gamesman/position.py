"""Positions, and what can be asked of one."""
from typing import TYPE_CHECKING, List, NamedTuple, Optional, Tuple, Union

from .answers import Move, Place, moves_of, value_of, value_text
from .errors import NoSuchMove
from .notebook import position_html

if TYPE_CHECKING:
    from .game import Game


class Reply(NamedTuple):
    """A move and the best answer to it."""

    move: Move
    """The move, with its worth to the side that makes it."""
    answer: Optional[Move]
    """The best answer, with its worth to the other side, or None if the move ends the game."""
    position: "Position"
    """The position after the answer, or after the move if there is no answer."""


class Position:
    """A legal position with its true value. Two positions are equal if they are of games with one name and have one text.

    A notebook shows its board and its moves. It can be copied and pickled."""

    __slots__ = ("game", "text", "value", "remoteness", "_answer")

    game: "Game"
    text: str
    value: str
    remoteness: int

    def __init__(self, game: "Game", answer: str) -> None:
        self.game = game
        self.text, self.value, self.remoteness = value_of(answer)
        self._answer = answer

    def __repr__(self) -> str:
        return f"<{self.game.name} {self.text!r}: {value_text(self.value, self.remoteness)}>"

    def __str__(self) -> str:
        return self.text

    def __eq__(self, other: object) -> bool:
        if not isinstance(other, Position):
            return NotImplemented
        return (self.game.name, self.text) == (other.game.name, other.text)

    def __hash__(self) -> int:
        return hash((self.game.name, self.text))

    def __reduce__(self) -> Tuple[type, Tuple["Game", str]]:
        return Position, (self.game, self._answer)

    @property
    def is_over(self) -> bool:
        """Whether the game has ended: there is no move."""
        return not self.moves()

    def moves(self, distinct: bool = False) -> List[Move]:
        """Returns the moves, the best first: quick wins, then ties, draws, and losses, the slowest first.

        With `distinct`, of moves whose results are the same but for symmetry only the first."""
        return moves_of(self.game._line(self.text, "--distinct") if distinct else self._answer)

    def best_move(self) -> Optional[Move]:
        """Returns the move that the program plays, the first of `moves`, or None where the game has ended."""
        return next(iter(self.moves()), None)

    def play(self, move: Union[str, Move]) -> "Position":
        """Returns the position after a move, for the other side to move."""
        text = move.text if isinstance(move, Move) else move
        for it in self.moves():
            if it.text == text:
                return self.game.position(it.result)
        raise NoSuchMove(f"{text!r} is no move of {self.text!r} in {self.game.name}")

    def why(self) -> List[Reply]:
        """Returns each move with the best answer to it, the best move first: that shows why a lost position is lost."""
        moves = self.moves()
        after = list(self.game.positions(move.result for move in moves))
        answers = [position.best_move() for position in after]
        left = self.game.positions(answer.result for answer in answers if answer)
        return [Reply(move, answer, next(left) if answer else position) for move, answer, position in zip(moves, answers, after)]

    def best_line(self) -> List[str]:
        """Returns the moves of the line of best play: to the end of the game, or from a draw to a position that comes again."""
        found: List[str] = self.game._asked(self.text, "--values", "--with", "best")["best"]
        return found

    def line(self) -> List["Position"]:
        """Returns the positions of the line of best play, this one first. From a draw the last of them is one that was there before."""
        found, seen = [self], {self.text}
        move = self.best_move()
        while move:
            found.append(self.game.position(move.result))
            move = None if move.result in seen else found[-1].best_move()
            seen.add(found[-1].text)
        return found

    def parents(self) -> List["Position"]:
        """Returns the canonical positions from which a move leads here, or to a position that is symmetric to this one."""
        texts: List[str] = self.game._asked(self.text, "--values", "--with", "parents")["parents"]
        return list(self.game.positions(texts))

    def symmetric(self) -> int:
        """Returns how many legal positions are symmetric to this one, itself among them. Each index of the tier is looked at."""
        number: int = self.game._asked(self.text, "--values", "--with", "symmetric")["symmetric"]
        return number

    def place(self) -> Place:
        """Returns where the position stands in the tables."""
        return self.game.locate(self.text)

    def drawing(self) -> str:
        """Returns the board as text, with its rows and columns named, without the value."""
        return self.game.run("show", self.text).rpartition("\n")[0].rpartition("\n")[0]

    def svg(self, value: bool = False, figures: bool = False, arrow: bool = False) -> str:
        """Returns a diagram of the board as an SVG document: with `value` the value is under it, with `figures` chess men are figures, and with `arrow` the best
        move is marked."""
        return self._diagram("--svg", value, figures, arrow)

    def tikz(self, value: bool = False, figures: bool = False, arrow: bool = False) -> str:
        """Returns the same diagram as a TikZ picture, for LaTeX."""
        return self._diagram("--tikz", value, figures, arrow)

    def _diagram(self, form: str, value: bool, figures: bool, arrow: bool) -> str:
        words = [word for word, wanted in (("--no-value", not value), ("--figures", figures), ("--arrow", arrow)) if wanted]
        return self.game.run("show", self.text, form, *words)

    def _repr_svg_(self) -> str:
        return self.svg(value=True)

    def _repr_html_(self) -> str:
        return position_html(self.svg(), value_text(self.value, self.remoteness), self.moves())
