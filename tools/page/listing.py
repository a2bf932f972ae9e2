"""The data of a page once more, from what `gamesman ask`, `line` and `show` say: which positions it has, in which order, and what it says of each."""
import json
import subprocess

from lib.paths import GAMESMAN
from lib.programs import SECONDS, told
from page.heads import HEADS


class Asker:
    """`gamesman ask GAME`, a line in and a line out."""

    def __init__(self, game, folder):
        words = [GAMESMAN, "ask", game, "--folder", folder]
        self.run = subprocess.Popen(words, stdin=subprocess.PIPE, stdout=subprocess.PIPE, text=True)

    def ask(self, text):
        self.run.stdin.write(text + "\n")
        self.run.stdin.flush()
        return json.loads(self.run.stdout.readline())

    def close(self):
        self.run.stdin.close()
        self.run.stdout.close()
        return self.run.wait(SECONDS)


def best_line(asker, start, limit):
    """The positions of best play from the start, up to the first that comes again."""
    order = [start]
    while len(order) < limit:
        moves = asker.ask(order[-1])["moves"]
        if not moves or moves[0]["position"] in order:
            break
        order.append(moves[0]["position"])
    return order


def positions(asker, start, limit):
    """What is said of each listed position, the place of each, and whether every result of a move is listed."""
    order = best_line(asker, start, limit)
    places, answers, whole = {text: k for k, text in enumerate(order)}, [], True
    # (the list grows while it is gone through)
    for text in order:
        answers.append(asker.ask(text))
        for result in (move["position"] for move in answers[-1]["moves"]):
            if result not in places and len(order) < limit:
                places[result] = len(order)
                order.append(result)
            whole = whole and result in places
    return answers, places, whole


def value_text(value, remoteness):
    return "draw" if value == "draw" else f"{value} in {remoteness}"


def worth(move):
    """What a move is worth to the side that makes it, counted from before the move."""
    return value_text(move["moveValue"], move["remoteness"] + 1)


def row(answer, places):
    """A position's text, its value, and its moves by their worth; after a move stands the place of its result, where it has one."""
    found = [answer["position"], value_text(answer["positionValue"], answer["remoteness"])]
    for move in answer["moves"]:
        if len(found) == 2 or found[-1][0] != worth(move):
            found.append([worth(move)])
        found[-1].append(move["move"])
        if move["position"] in places:
            found[-1].append(places[move["position"]])
    return found


def line(tree):
    """Compact JSON in which no byte opens a tag."""
    return json.dumps(tree, separators=(",", ":"), sort_keys=True).replace("<", "\\u003c") + "\n"


def naming(game):
    """How positions and moves are written, as `show` explains it."""
    return told("show", game).partition("\n\n")[2].partition("This position: ")[0]


def start_of(game, folder):
    return json.loads(told("line", game, "--limit", "1", "--json", "--folder", folder).splitlines()[0])["position"]


def data_of(game, folder, start, limit):
    """All lines of a page's data, and what is said of each position."""
    asker = Asker(game, folder)
    answers, places, whole = positions(asker, start, limit)
    asker.close()
    first = {**HEADS[game], "game": game, "naming": naming(game), "start": start, "whole": whole}
    return "".join([line(first)] + [line(row(answer, places)) for answer in answers]), answers, places
