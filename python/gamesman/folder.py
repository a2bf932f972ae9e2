"""Tier files, as docs/FORMATS.md states them.

A file that is not right is refused. Whether the records of a right file are the true ones is for `gamesman check` to say."""
import hashlib
import os
import re
import struct
import sys
import typing
from array import array
from collections import Counter
from typing import TYPE_CHECKING, Any, Dict, Iterator, List, NamedTuple, Optional, Tuple, Union

from .errors import BadFile

if TYPE_CHECKING:
    from .game import Game

    Numbers = array[int]
else:
    Numbers = array

MAGIC, OLD_MAGIC = b"GMTIER02", b"GMTIER01"
FRONT, DIGEST, RECORD = 40, 32, 4

# The most indexes of a tier, and the bytes of the longest file.
MOST = 2**24
LONGEST = FRONT + RECORD * MOST + DIGEST

# The values by their codes in a record, and the bits of a record below its code, which are the remoteness.
VALUES = {1: "lose", 2: "draw", 3: "tie", 4: "win"}
DRAW = 2
BITS = 20
REMOTENESS = (1 << BITS) - 1


class Record(NamedTuple):
    """What a table says of a position."""

    value: str
    """`win`, `tie`, `draw` or `lose`, for the side to move."""
    remoteness: int
    """The number of moves to the end. 0 for a draw."""


class Tier:
    """The table of one tier of a game."""

    __slots__ = ("game", "tier", "numbers")

    def __init__(self, game: str, tier: int, numbers: Numbers) -> None:
        self.game = game
        """The name of the game."""
        self.tier = tier
        """The number of the tier."""
        self.numbers = numbers
        """The number of each index, as the file has it: 0 where there is no record."""

    def __repr__(self) -> str:
        return f"<tier {self.tier} of {self.game}, {len(self.numbers)} indexes>"

    def __len__(self) -> int:
        """Returns how many indexes the tier has."""
        return len(self.numbers)

    def record(self, index: int) -> Optional[Record]:
        """Returns the record of an index, or None where the index is no canonical legal position."""
        if not 0 <= index < len(self.numbers):
            raise IndexError(f"there is no index {index} in tier {self.tier}")
        number = self.numbers[index]
        return Record(VALUES[number >> BITS], number & REMOTENESS) if number else None

    __getitem__ = record

    def __iter__(self) -> Iterator[Tuple[int, Record]]:
        """Returns each index that has a record, with the record."""
        known: Dict[int, Record] = {}
        for index, number in enumerate(self.numbers):
            if number:
                record = known.get(number)
                if record is None:
                    record = known[number] = Record(VALUES[number >> BITS], number & REMOTENESS)
                yield index, record

    def counts(self) -> "typing.Counter[Record]":
        """Returns how many positions have each record."""
        return Counter({Record(VALUES[number >> BITS], number & REMOTENESS): many for number, many in Counter(self.numbers).items() if number})

    def by_value(self) -> Dict[str, int]:
        """Returns how many positions have each value."""
        found = dict.fromkeys(VALUES.values(), 0)
        for record, many in self.counts().items():
            found[record.value] += many
        return found

    def texts(self, game: "Game") -> Iterator[Tuple[int, str]]:
        """Returns each index that has a record, with the text of its position, for which this game is asked."""
        indexes = [index for index, number in enumerate(self.numbers) if number]
        return zip(indexes, game.texts_of(self.tier, indexes))

    def frame(self, game: "Game") -> Any:
        """Returns the positions that have a record, by index: their texts, values and numbers of moves to the end, as a DataFrame of pandas, or as a list of
        tuples if pandas is not installed. This game is asked for the texts."""
        rows = [(index, text, *record) for (index, text), (_, record) in zip(self.texts(game), self)]
        try:
            import pandas
        except ImportError:
            return rows
        return pandas.DataFrame(rows, columns=["index", "text", "value", "remoteness"]).set_index("index")

    def numpy(self) -> Any:
        """Returns the numbers as an array of numpy that shares their memory. `>> 20` has the codes, `& 0xFFFFF` the remoteness."""
        import numpy  # (not needed for anything else)

        return numpy.frombuffer(self.numbers, dtype=numpy.uint32)


class Folder:
    """The tier files of a folder, all of one game: of `game`, or if none is named of the one that the file of the lowest tier names.

    How many indexes a tier has follows from the rules of the game, so here each file is believed its own size."""

    def __init__(self, path: Union[str, "os.PathLike[str]"], game: Optional[str] = None) -> None:
        self.path = os.fspath(path)
        self._files = files_in(self.path)
        self._game = game

    def __repr__(self) -> str:
        return f"Folder({self.path!r})"

    @property
    def tiers(self) -> List[int]:
        """The tiers that have a file, in ascending order."""
        return list(self._files)

    @property
    def game(self) -> Optional[str]:
        """The name of the game, or None if the folder has no tier file."""
        if self._game is None and self._files:
            name = next(iter(self._files.values()))
            self._game = self._in(name, front_of, self._text(name))[0]
        return self._game

    def tier(self, number: int) -> Tier:
        """Reads the file of a tier."""
        name = self._files[number]
        text, game = self._text(name), self.game or ""
        _, _, size = self._in(name, front_of, text)
        found: Tier = self._in(name, decode, text, game, number, size)
        return found

    __getitem__ = tier

    def __len__(self) -> int:
        """Returns how many tiers have a file."""
        return len(self._files)

    def __iter__(self) -> Iterator[Tier]:
        """Reads the tiers, in ascending order."""
        for number in self._files:
            yield self.tier(number)

    def records(self) -> Iterator[Tuple[int, int, Record]]:
        """Returns the tier, the index and the record of each position that has one."""
        for tier in self:
            for index, record in tier:
                yield tier.tier, index, record

    def counts(self) -> "typing.Counter[Record]":
        """Returns how many positions of all tiers have each record."""
        found: "typing.Counter[Record]" = Counter()
        for tier in self:
            found.update(tier.counts())
        return found

    def _text(self, name: str) -> bytes:
        with open(os.path.join(self.path, name), "rb") as file:
            return file.read(LONGEST + 1)

    @staticmethod
    def _in(name: str, read: Any, *words: Any) -> Any:
        """Reads a file, and names it in what is refused."""
        try:
            return read(*words)
        except BadFile as why:
            raise BadFile(f"{name}: {why}") from None


def files_in(path: str) -> Dict[int, str]:
    """Returns the names of the tier files of a folder by their tiers, in ascending order."""
    found = (re.fullmatch(r"tier-(0|[1-9]\d*)\.gmt", name) for name in os.listdir(path))
    return dict(sorted((int(it[1]), it[0]) for it in found if it))


def is_bad(number: int) -> bool:
    """Returns whether a number is no record: an unknown code, or a remoteness where there can be none."""
    code, remoteness = number >> BITS, number & REMOTENESS
    return code > max(VALUES) or (code in (0, DRAW) and remoteness != 0)


def numbers_of(text: bytes) -> Numbers:
    """Reads numbers of four bytes each, little-endian."""
    numbers = array("I" if array("I").itemsize == RECORD else "L")
    numbers.frombytes(text)
    if sys.byteorder == "big":
        numbers.byteswap()
    return numbers


def front_of(text: bytes) -> Tuple[str, int, int]:
    """Returns the game, the tier and the size that a file names."""
    if len(text) < FRONT:
        raise BadFile("truncated")
    name, tier, size = struct.unpack_from("<16sQQ", text, len(MAGIC))
    return name.rstrip(b"\0").decode("ascii", "replace"), tier, size


def refuse_front(text: bytes, game: str, tier: int, size: int) -> None:
    """Refuses a file that does not begin as that of this tier does."""
    if len(text) < FRONT:
        raise BadFile("truncated")
    if text[:8] != MAGIC:
        raise BadFile("old version" if text[:8] == OLD_MAGIC else "bad magic")
    if text[8:24] != game.encode().ljust(16, b"\0"):
        raise BadFile("wrong game")
    if text[24:32] != struct.pack("<Q", tier):
        raise BadFile("wrong tier")
    if text[32:40] != struct.pack("<Q", size) or size > MOST:
        raise BadFile("wrong size")


def decode(text: bytes, game: str, tier: int, size: int) -> Tier:
    """Returns the table that a file holds of a tier of a game that has so many indexes. Refuses any other file, by the first reason that applies."""
    refuse_front(text, game, tier, size)
    end = FRONT + RECORD * size
    if len(text) < end + DIGEST:
        raise BadFile("truncated")
    numbers = numbers_of(text[FRONT:end])
    bad = {number for number in set(numbers) if is_bad(number)}
    if bad:
        raise BadFile(f"bad record {next(index for index, number in enumerate(numbers) if number in bad)}")
    if len(text) > end + DIGEST:
        raise BadFile("trailing bytes")
    if hashlib.sha256(text[:end]).digest() != text[end:]:
        raise BadFile("bad digest")
    return Tier(game, tier, numbers)
