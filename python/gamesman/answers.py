"""What the program answers, read: values, moves, and where a position stands in the tables."""
import json
import re
from dataclasses import dataclass
from functools import partial
from typing import Any, Dict, List, NamedTuple, Tuple

# How the answer to a text that is no position begins.
ERROR = '{"error":'


def value_text(value: str, remoteness: int) -> str:
    """Writes a value as the program does: `win in 5`, or `draw`."""
    return value if value == "draw" else f"{value} in {remoteness}"


class Move(NamedTuple):
    """A move, and what it is worth to the side that makes it."""

    text: str
    """The move, as `a1-c3`."""
    value: str
    """`win`, `tie`, `draw` or `lose`, for the side that makes the move."""
    remoteness: int
    """The number of moves to the end, this one among them. 0 for a draw."""
    result: str
    """The text of the position that the move leads to, where the other side is to move."""

    def __str__(self) -> str:
        return self.text


# What follows the moves of an answer (docs/FORMATS.md).
POSITION = re.compile(r'\],"position":"([^"\\]*)","positionValue":"(\w+)","remoteness":(\d+)\}')

# Cut at its quotation marks, an answer has 3 pieces, then 20 for each move, of which 4 are read, and 10 about the position. Reading them takes half the
# time of a JSON reader, which makes a dict of each move.
HEAD, PIECES, TAIL = 3, 20, 10
TEXT, VALUE, RESULT, REMOTENESS = 5, 9, 13, 22

# Makes a move of its fields without a call of Python code.
new_move: Any = partial(tuple.__new__, Move)


class Numbers(Dict[str, int]):
    """The numbers in pieces such as `:7},{`. Each piece is read once."""

    def __missing__(self, piece: str) -> int:
        number = self[piece] = int(piece.strip(":,{}[]"))
        return number


number_in = Numbers().__getitem__


def moves_of(answer: str) -> List[Move]:
    """Reads the moves of an answer. An answer with an escape is left to the JSON reader."""
    pieces = answer.split('"')
    if "\\" in answer or len(pieces) % PIECES != HEAD + TAIL:
        members = json.loads(answer)["moves"]
        return [Move(it["move"], it["moveValue"], it["moveRemoteness"], it["position"]) for it in members]
    texts = pieces[TEXT:-TAIL:PIECES]
    numbers = map(number_in, pieces[REMOTENESS::PIECES])
    return list(map(new_move, zip(texts, pieces[VALUE::PIECES], numbers, pieces[RESULT::PIECES])))


def value_of(answer: str) -> Tuple[str, str, int]:
    """Reads the text of an answer's position, its value and its remoteness. A text with an escape is left to the JSON reader."""
    found = POSITION.match(answer, answer.rfind('],"position":'))
    if found:
        return found[1], found[2], int(found[3])
    members = json.loads(answer)
    return members["position"], members["positionValue"], members["remoteness"]


def position_in(answer: str) -> str:
    """Reads the text of the position of an answer that begins with it, as those of `ask --values` do. A text with an escape is left to the JSON reader."""
    text: str = json.loads(answer)["position"] if "\\" in answer else answer.split('"', 4)[3]
    return text


@dataclass(frozen=True)
class Place:
    """Where a position stands in the tables."""

    tier: int
    """The tier of the position."""
    index: int
    """Its index in the tier."""
    is_canonical: bool
    """Whether the position has the record, or a symmetric one has it."""
    canonical_index: int
    """The index of the canonical position, which has the record."""
    canonical: str
    """The text of the canonical position."""


class Summary(NamedTuple):
    """What `Game.solve` did, as the last line of `gamesman solve` says it."""

    solved: int
    """Tiers that were solved."""
    reused: int
    """Tiers whose files were there and right."""
    migrated: int
    """Tiers whose files were of the old version and were written again."""
    deliveries: int
    """Values that were delivered to parents."""
    by_hand: int
    """Those of them that the coordinator delivered."""


class Progress(NamedTuple):
    """How far `Game.solve` is."""

    tier: int
    """The tier that is being solved."""
    number: int
    """Its number in the order in which tiers are solved, from 1 on."""
    tiers: int
    """How many tiers there are."""
    stage: str
    """What is done with the tier, as `check` or `ties, level 4`."""
    deliveries: int
    """Values that were delivered so far."""
