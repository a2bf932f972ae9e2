"""Games: their positions, by a running `gamesman ask`, and what other commands say of them."""
import csv
import itertools
import json
import re
import weakref
from collections import Counter
from types import TracebackType
from typing import Any, Callable, Counter as Counts, Dict, Iterable, Iterator, List, Optional, Tuple, Type, Union

from .answers import ERROR, Place, Progress, Summary, position_in
from .errors import Failed, NoSuchGame, NoSuchPlace, NoSuchPosition
from .folder import VALUES, Record
from .notebook import Page
from .position import Position
from .process import Asker, program_of, run, run_with_progress

# What can be the text of a position: visible ASCII characters and spaces, but no line that names a place, and none that may be an object. For any other text the
# program is asked a line that is none.
PLAIN = re.compile(r"(?!@\d+ \d+\Z|\{)[ -~]{0,1024}")
NOT_PLAIN = b"\xff"

# Tiers and indexes are numbers below this one.
NUMBERS = 2**64

# So many places are asked for by one line at most. With twenty digits each they have room in the longest line that is read as an object.
BATCH = 2048


def games(program: Optional[str] = None) -> List[str]:
    """Returns the names of all games."""
    return run([program_of(program), "list", "--all"]).split()


def words_of(**options: Any) -> List[str]:
    """Returns the words of a command line for options: a flag that is set, a number, or a range as a pair. What is None or False has no word."""
    words: List[str] = []
    for name, given in options.items():
        if given is None or given is False:
            continue
        words.append(f"--{name.replace('_', '-')}")
        if given is not True:
            words.append("{}..{}".format(*given) if isinstance(given, tuple) else str(given))
    return words


def bytes_of(text: str) -> bytes:
    """Returns the line that asks for a text."""
    try:
        return text.encode() if PLAIN.fullmatch(text) else NOT_PLAIN
    except TypeError:
        raise TypeError(f"the text of a position is a str, and not {type(text).__name__}") from None


def batches(indexes: Iterable[int], most: int) -> Iterator[List[int]]:
    """Cuts indexes into runs of at most so many. A number that can't be an index is a run of its own, which has one answer."""
    batch: List[int] = []
    for index in indexes:
        alone = not 0 <= index < NUMBERS
        if batch and (alone or len(batch) == most):
            yield batch
            batch = []
        batch.append(index)
        if alone:
            yield batch
            batch = []
    if batch:
        yield batch


class Game:
    """A game, by its name in `games()`. One process of `gamesman ask` answers all questions about values and moves.

    With `folder` the tables are read there (`solve` writes them), and nothing is written. Without it they are built when the first question is asked, in
    the memory of the process. `program` is the program to start, else that of the environment variable GAMESMAN, else `gamesman` on the path.

    What `Position.parents`, `best_line`, `symmetric` and `moves(distinct=True)` ask is asked of a process of its own each, from the first such call on.
    `close`, or the end of a `with`, ends the processes. A copy of a game is the game itself. A pickled one is a name, a folder and a program: in a process those
    that are read from pickles are one game, if these are the same."""

    def __init__(self, name: str, folder: Optional[str] = None, program: Optional[str] = None) -> None:
        self.name = name
        self.folder = folder
        self.program = program_of(program)
        self._askers: Dict[Tuple[str, ...], Asker] = {}
        self._start: Optional[str] = None
        weakref.finalize(self, close_all, self._askers)
        if name not in games(self.program):
            raise NoSuchGame(f"no such game: {name!r}")

    def __enter__(self) -> "Game":
        return self

    def __exit__(self, kind: Optional[Type[BaseException]], why: Optional[BaseException], trace: Optional[TracebackType]) -> None:
        self.close()

    def __repr__(self) -> str:
        return f"Game({self.name!r})"

    def __copy__(self) -> "Game":
        return self

    def __deepcopy__(self, memo: Dict[int, Any]) -> "Game":
        return self

    def __reduce__(self) -> Tuple[Any, ...]:
        return unpickled, (self.name, self.folder, self.program)

    def close(self) -> None:
        """Ends the processes. A later question starts new ones."""
        close_all(self._askers)

    def ready(self) -> None:
        """Waits until the tables are there. The first question would wait else."""
        self._asker(()).ready()

    def position(self, text: str) -> Position:
        """Returns the position with this text."""
        return next(self.positions([text]))

    def positions(self, texts: Iterable[str]) -> Iterator[Position]:
        """Returns the positions with these texts, in their order. They are asked for many at once, so this is the way to ask for a lot of them.

        The first text that is none raises NoSuchPosition."""
        for text, line in self._lines(texts, ()):
            if line.startswith(ERROR):
                raise self._none(text)
            yield Position(self, line)

    @property
    def start(self) -> Position:
        """The position in which the game begins."""
        if self._start is None:
            text: str = json.loads(self.run("moves", "--json"))["position"]
            self._start = text
        return self.position(self._start)

    def locate(self, text: str) -> Place:
        """Returns where a position stands in the tables. No table is needed for it."""
        tier, index, word, least, canonical = self._about(text, "locate", self.name)[:-1].split("\t")
        return Place(int(tier), int(index), word == "canonical", int(least), canonical)

    def text_of(self, tier: int, index: int) -> str:
        """Returns the text of the legal position with this index of this tier, canonical or not."""
        return next(self.texts_of(tier, [index]))

    def texts_of(self, tier: int, indexes: Iterable[int]) -> Iterator[str]:
        """Returns the texts of the legal positions with these indexes of a tier, in their order, by one process.

        The first index that has none raises NoSuchPlace."""
        for _, line in self._places(tier, indexes, ("--values",)):
            yield position_in(line)

    def positions_at(self, tier: int, indexes: Iterable[int]) -> Iterator[Position]:
        """Returns the legal positions with these indexes of a tier, canonical or not, in their order, by one process.

        The first index that has none raises NoSuchPlace."""
        for _, line in self._places(tier, indexes, ()):
            yield Position(self, line)

    def index_of(self, text: str) -> Tuple[int, int]:
        """Returns the tier and the index of the canonical position of this one: where its record is stored."""
        return next(self.indexes_of([text]))

    def indexes_of(self, texts: Iterable[str]) -> Iterator[Tuple[int, int]]:
        """Returns what `index_of` does for each of these texts, in their order, by one process.

        The first text that is none raises NoSuchPosition."""
        for text, line in self._lines(texts, ("--values", "--with", "canonical")):
            if line.startswith(ERROR):
                raise self._none(text)
            canonical: Dict[str, Any] = json.loads(line)["canonical"]
            yield canonical["tier"], canonical["index"]

    def at(self, tier: int, index: int) -> Position:
        """Returns the canonical position with this index of this tier."""
        if tier < 0 or index < 0:
            raise NoSuchPlace(f"there is no index {index} of tier {tier} in {self.name}")
        try:
            text = self.run("at", str(tier), str(index)).partition("\t")[0]
        except Failed as why:
            if not re.match(r"no such (tier|index) |index ", why.fault):
                raise
            raise NoSuchPlace(f"{self.name}: {why.fault}") from None
        return self.position(text)

    def find(
        self,
        value: str,
        *,
        remoteness: Union[int, Tuple[int, int], None] = None,
        tier: Optional[int] = None,
        only_move: bool = False,
        only_fastest: bool = False,
        whole_line: bool = False,
        distinct: bool = False,
        min_moves: Optional[int] = None,
        min_tries: Optional[int] = None,
        sort: Optional[str] = None,
        spread: bool = False,
        per_move: Optional[int] = None,
        orient: Optional[int] = None,
        reached: bool = False,
        limit: Optional[int] = None,
        random: Optional[int] = None,
        seed: Optional[int] = None,
    ) -> "Found":
        """Returns the canonical positions of a value, tier by tier in the order of solving, by index within a tier. They are gone through once.

        The options are those of `gamesman find`: `remoteness` is a number or a pair, as `(5, 9)`; `only_move`, `only_fastest` and `whole_line` are for puzzles;
        `random` chooses so many, the same for the same `seed`; `sort` is `index`, `long` or `hard`; with `spread` none is met along
        best play from another, at most `per_move` have one best move, and `orient` is the seed by which symmetric ones are drawn in their place."""
        if value not in VALUES.values():
            raise ValueError(f"a value is win, tie, draw or lose, and not {value!r}")
        flags = words_of(only_move=only_move, only_fastest=only_fastest, whole_line=whole_line, distinct=distinct, reached=reached, tries=sort == "hard")
        numbers = words_of(remoteness=remoteness, tier=tier, min_moves=min_moves, min_tries=min_tries, sort=sort, limit=limit, random=random, seed=seed)
        return Found(self, ["--value", value, *flags, *numbers, *words_of(spread=spread, per_move=per_move, orient=orient)])

    def longest(self, limit: Optional[int] = None, reached: bool = False) -> Iterator[Position]:
        """Returns the longest wins and then the longest losses, so many of each at most."""
        found = self.run("longest", *words_of(limit=limit, reached=reached)).splitlines()
        return self.positions(line.partition("\t")[0] for line in found)

    def counts(self, legal: bool = False, reached: bool = False) -> Counts[Record]:
        """Returns how many canonical positions have each record; with `legal` how many positions; with `reached` of those that can be reached from the start."""
        return sum(self.counts_by_tier(legal, reached).values(), Counter())

    def counts_by_tier(self, legal: bool = False, reached: bool = False) -> Dict[int, Counts[Record]]:
        """Returns what `counts` does for each tier by itself, in the order of solving."""
        found: Dict[int, Counts[Record]] = {}
        rows = csv.DictReader(self.run("counts", "--by-tier", "--csv", *words_of(legal=legal, reached=reached)).splitlines())
        for row in rows:
            of_tier = found.setdefault(int(row["tier"]), Counter())
            of_tier[Record(row["value"], int(row["remoteness"]))] = int(row["positions"])
        return found

    def explorer(self, position: Union[str, Position, None] = None, limit: Optional[int] = None, engine: Optional[str] = None) -> Page:
        """Returns a page for exploring what can be reached from a position (the start, if none is given), with at most `limit` positions.

        With `engine`, a file, the page solves the game by itself."""
        words = words_of(limit=limit, engine=engine)
        if position is None:
            return Page(self.run("page", *words))
        text = position.text if isinstance(position, Position) else position
        return Page(self._about(text, "page", self.name, *self._kept(), *words))

    def solve(self, folder: Optional[str] = None, progress: Optional[Callable[[Progress], None]] = None, workers: Optional[int] = None) -> Summary:
        """Solves the game into a folder, this game's own where none is named, and returns what was done. Files that are there and right are kept.

        `progress` is called about four times a second with how far the solver is."""
        to = folder or self.folder
        if not to:
            raise ValueError("solve needs a folder")
        words = [self.program, "solve", self.name, to]
        words += ["--workers", str(workers)] if workers else []
        if progress is None:
            text = run(words)
        else:
            call = progress
            text = run_with_progress([*words, "--progress"], lambda line: told(line, call))
        return Summary(*map(int, re.findall(r"\d+", text)))

    def run(self, command: str, *words: str) -> str:
        """Runs another command of the program about this game, over its folder, and returns what it writes: `game.run("analyse")`."""
        return run([self.program, command, self.name, *self._kept(), *words])

    def _about(self, text: str, *words: str) -> str:
        """Runs a command about a position, and returns what it writes."""
        if bytes_of(text) is NOT_PLAIN:
            raise self._none(text)
        try:
            return run([self.program, *words, "--", text])
        except Failed as why:
            if why.fault != "no such position":
                raise
            raise self._none(text) from None

    def _none(self, text: str) -> NoSuchPosition:
        return NoSuchPosition(f"{text!r} is no position of {self.name}")

    def _kept(self) -> List[str]:
        return ["--folder", self.folder, "--read-only"] if self.folder else []

    def _asker(self, words: Tuple[str, ...]) -> Asker:
        found = self._askers.get(words)
        if not found:
            found = self._askers[words] = Asker([self.program, "ask", self.name, *words, *self._kept()])
        return found

    def _lines(self, texts: Iterable[str], words: Tuple[str, ...]) -> Iterator[Tuple[str, str]]:
        """Asks for texts, and returns each with the line that answers it."""
        asked: List[str] = []

        def lines() -> Iterator[bytes]:
            for text in texts:
                asked.append(text)
                yield bytes_of(text)

        for answers in self._asker(words).ask(lines()):
            some = asked[: len(answers)]
            del asked[: len(answers)]
            yield from zip(some, b"".join(answers).decode().split("\n"))

    def _places(self, tier: int, indexes: Iterable[int], words: Tuple[str, ...]) -> Iterator[Tuple[int, str]]:
        """Asks for the places with these indexes of a tier, many by one line, and returns each index with the line that answers it. The first that is no legal
        position's raises NoSuchPlace."""
        asked: List[List[int]] = []

        def lines() -> Iterator[Tuple[bytes, int]]:
            for batch in batches(indexes, BATCH if 0 <= tier < NUMBERS else 1):
                asked.append(batch)
                yield f'{{"tier":{tier:d},"indexes":[{",".join(f"{index:d}" for index in batch)}]}}'.encode(), len(batch)

        for answers in self._asker(words).ask_batches(lines()):
            for index, line in zip(asked.pop(0), b"".join(answers).decode().split("\n")):
                if line.startswith(ERROR):
                    raise NoSuchPlace(f"{self.name} has no legal position with the index {index} of tier {tier}")
                yield index, line

    def _line(self, text: str, *words: str) -> str:
        """Asks for one position by a process with these words, and returns the line that answers it."""
        ((_, line),) = self._lines([text], words)
        if line.startswith(ERROR):
            raise self._none(text)
        return line

    def _asked(self, text: str, *words: str) -> Dict[str, Any]:
        """Asks for one position by a process with these words, and returns the members of the answer."""
        answer: Dict[str, Any] = json.loads(self._line(text, *words))
        return answer


UNPICKLED: "weakref.WeakValueDictionary[Tuple[str, Optional[str], str], Game]" = weakref.WeakValueDictionary()


def unpickled(name: str, folder: Optional[str], program: str) -> Game:
    """Returns the game that a pickle names. All positions of a game share it, and so its processes."""
    found = UNPICKLED.get((name, folder, program))
    if found is None:
        found = UNPICKLED[name, folder, program] = Game(name, folder, program)
    return found


def positions_of(questions: Iterable[Tuple[Game, Iterable[str]]]) -> Iterator[List[Position]]:
    """Returns, for each game with texts of its positions, these positions: all by one process, which goes on from game to game. Its tables are built in memory, those
    of one game at a time, by the program of the first game. The first text that is none raises NoSuchPosition."""
    asked: List[Tuple[Game, List[str]]] = [(game, list(texts)) for game, texts in questions]
    if not asked:
        return
    first = asked[0][0]
    asker = Asker([first.program, "ask", first.name])
    try:
        lines = asker.ask(it for number, (game, texts) in enumerate(asked) for it in lines_about(game, texts, number == 0))
        answers = (line for some in lines for line in b"".join(some).decode().split("\n")[:-1])
        for number, (game, texts) in enumerate(asked):
            if number:
                next(answers)
            found = list(zip(texts, itertools.islice(answers, len(texts))))
            for text, line in found:
                if line.startswith(ERROR):
                    raise game._none(text)
            yield [Position(game, line) for _, line in found]
    finally:
        asker.close()


def lines_about(game: Game, texts: List[str], begun: bool) -> Iterator[bytes]:
    """Returns the lines that ask for these positions of a game, the first of which names it unless the process has begun with it."""
    if not begun:
        yield json.dumps({"game": game.name}).encode()
    yield from map(bytes_of, texts)


class Found(Iterator[Position]):
    """The positions that `Game.find` finds."""

    def __init__(self, game: Game, words: List[str]) -> None:
        self._game, self._words = game, words
        lines = game.run("find", *words, "--json").splitlines()
        self._positions = game.positions(json.loads(line)["position"] for line in lines)

    def __next__(self) -> Position:
        return next(self._positions)

    def sheet(self) -> Page:
        """Returns a page of all of them, with a diagram of each and its solution to unfold."""
        return Page(self._game.run("find", *self._words, "--page"))


def close_all(askers: Dict[Tuple[str, ...], Asker]) -> None:
    """Ends processes."""
    for asker in askers.values():
        asker.close()


def told(line: str, call: Callable[[Progress], None]) -> None:
    """Calls with what a line of `gamesman solve --progress` says."""
    found = re.fullmatch(r"tier (\d+) \((\d+) of (\d+)\): (.*), (\d+) delivered", line)
    if found:
        call(Progress(int(found[1]), int(found[2]), int(found[3]), found[4], int(found[5])))
