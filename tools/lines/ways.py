"""Games on points that ways join, solved from the words of their rules alone (docs/GAMES.md; the ways are those of games.json in their crates), and what the
program says of every text beside that."""
import json
from itertools import product

from lib.games import TOLD
from lib.programs import told

SEEN_BY_THE_OTHER = str.maketrans("xo", "ox")


class Game:
    """A game: its name, the names of its points, the ways, each as the points along it, its lines, the pieces of each side, and how many boards are legal."""

    def __init__(self, name, told):
        self.name, self.points, self.pieces, self.legal = name, told["points"].split(), told["pieces"], told["legal"]
        self.lines = [[self.points.index(point) for point in line] for line in told["lines"]]
        ways = [[self.points.index(point) for point in pair] for way in told["ways"] for pair in zip(way, way[1:])]
        self.beside = {one: [other for pair in ways if one in pair for other in pair if other != one] for one in range(len(self.points))}

    def has_line(self, board, piece):
        return any(all(board[point] == piece for point in line) for line in self.lines)

    def is_legal(self, board):
        return board.count("x") == board.count("o") == self.pieces and not self.has_line(board, "x")

    def moves(self, board):
        """The boards after the moves of a board, as the other side sees them, by the texts of the moves."""
        found = {}
        if not self.has_line(board, "o"):
            for one, other in ((one, other) for one in self.beside for other in self.beside[one] if (board[one], board[other]) == ("x", ".")):
                after = list(board)
                after[one], after[other] = ".", "x"
                found[f"{self.points[one]}-{self.points[other]}"] = "".join(after).translate(SEEN_BY_THE_OTHER)
        return found

    def settled(self, boards):
        """The boards that are won or lost, with the number of moves that this takes: the rest are draws, whose remoteness is said as 0."""
        moves, found, number = {board: self.moves(board).values() for board in boards}, {}, 0
        while True:
            new = {}
            for board in boards - set(found):
                after = [found.get(it) for it in moves[board]]
                if ("lose", number - 1) in after:
                    new[board] = ("win", number)
                elif all(it and it[0] == "win" for it in after) and max((it[1] for it in after), default=-1) == number - 1:
                    new[board] = ("lose", number)
            if not new and number:
                return found
            found.update(new)
            number += 1


def answers_to(game, texts):
    """What the program answers to each of these texts."""
    return [json.loads(line) for line in told("ask", game, given="".join(f"{it}\n" for it in texts)).splitlines()]


def wrong(game):
    """What the program says otherwise of a text: that it is no position, its value, or its moves and the boards that they lead to."""
    texts = ["".join(letters) for letters in product("xo.", repeat=len(game.points))]
    boards = {text for text in texts if game.is_legal(text)}
    found, answers = game.settled(boards), answers_to(game.name, texts)
    if len(boards) != game.legal or len(answers) != len(texts):
        return f"{len(boards)} boards, {len(answers)} answers"
    for text, answer in zip(texts, answers):
        wanted = (*found.get(text, ("draw", 0)), game.moves(text)) if text in boards else None
        said = None if "error" in answer else (answer["positionValue"], answer["remoteness"], {it["move"]: it["position"] for it in answer["moves"]})
        if wanted != said:
            return f"{text} is {wanted}, and not {said}"
    return None


class Ways:
    """A game on points and ways as a part of the lines."""

    def __init__(self, game):
        self.name, self.game = f"{game}_is_solved", game

    def run(self, _room):
        why = wrong(Game(self.game, TOLD[self.game]))
        return [f"{self.name}: {why}"] if why else []


GAMES_ON_WAYS = [game for game, told in TOLD.items() if "ways" in told]
