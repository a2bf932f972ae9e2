"""Positions of a release by which a reader of tier files is checked without the program: vectors/GAME.tsv (docs/FORMATS.md)."""
import concurrent.futures
import hashlib
import itertools
import json
import os
import subprocess
import tempfile

from lib.games import LARGE

# How many rows a game has at most, and how many canonical positions are taken first; the others are what play from these leads to.
ROWS, CANONICAL = 1000, 500

COLUMNS = ("position", "tier", "index", "value", "remoteness")


def told(program, *words, given=""):
    """What a command writes, as lines; anything but success is an error."""
    return subprocess.run([program, *words], input=given, capture_output=True, text=True, check=True).stdout.splitlines()


def mixed(texts):
    """Distinct texts in an order that is the same for each run, and looks like chance."""
    return sorted(set(texts), key=lambda text: hashlib.sha256(text.encode()).digest())


def chosen(program, game, kept):
    """The positions of a game: as many of each value as there are, and then what play from them leads to."""
    by_value = []
    for value in ("win", "lose", "tie", "draw"):
        lines = told(program, "find", game, "--value", value, "--random", str(CANONICAL), "--json", *kept)
        by_value.append(mixed(json.loads(line)["position"] for line in lines))
    new = [text for row in itertools.zip_longest(*by_value) for text in row if text is not None][:CANONICAL]
    found = dict.fromkeys(new)
    while new and len(found) < ROWS:
        answers = told(program, "ask", game, *kept, given="".join(f"{text}\n" for text in new))
        new = [text for text in mixed(move["position"] for line in answers for move in json.loads(line)["moves"]) if text not in found]
        found.update(dict.fromkeys(new))
    return list(found)[:ROWS]


def rows(program, game):
    """The rows of a game, in the order of tiers and indexes. Tier and index are where the record is: those of the canonical position."""
    with tempfile.TemporaryDirectory(prefix="vectors-") as folder:
        told(program, "solve", game, folder)
        kept = ("--folder", folder, "--read-only")
        texts = chosen(program, game, kept)
        answers = told(program, "ask", game, "--values", "--with", "canonical", *kept, given="".join(f"{text}\n" for text in texts))
    found = []
    for text, answer in zip(texts, map(json.loads, answers)):
        place = answer["canonical"]
        found.append((text, place["tier"], place["index"], answer["positionValue"], answer["remoteness"]))
    return sorted(found, key=lambda row: (row[1], row[2], row[0]))


def text_of(rows_of_game):
    return "".join("\t".join(map(str, row)) + "\n" for row in (COLUMNS, *rows_of_game)).encode()


def files(program):
    """The file of each game that is solved in seconds, by its path."""
    games = [game for game in told(program, "list", "--all") if game not in LARGE]
    with concurrent.futures.ThreadPoolExecutor(len(os.sched_getaffinity(0))) as pool:
        texts = pool.map(lambda game: text_of(rows(program, game)), games)
        return {f"vectors/{game}.tsv": text for game, text in zip(games, texts)}
