"""Solved games beside looking ahead by the definitions, which knows no table (`drill ahead`)."""
import csv
import os
import re
import subprocess
from collections import Counter

from lib.paths import GAMESMAN
from lib.programs import SECONDS, drill

# Five of the 25 counters of Tac Tix on 5 by 5, in a row.
ROW = "xxxxx" + 20 * "."


def told(*words):
    ran = subprocess.run(words, capture_output=True, text=True, timeout=SECONDS, check=False)
    return ran.stdout if (ran.returncode, ran.stderr) == (0, "") else f"status {ran.returncode}: {ran.stderr}"


def tiers(program, game, folder, moves):
    """For each tier, by the drill, its number, its positions, those whose value looking ahead finds, and those for which it finds another."""
    lines = told(program, "ahead", game, str(moves), folder)
    return [tuple(map(int, re.findall(r"^tier (\d+): (\d+) positions, (\d+) known, (\d+) wrong$", line)[0])) for line in lines.splitlines()]


def decided(game, folder, moves):
    """For each tier how many canonical positions are won or lost within so many moves: looking ahead has to find at least these."""
    text = told(GAMESMAN, "counts", game, "--by-tier", "--csv", "--folder", folder, "--read-only")
    found = Counter()
    for row in csv.DictReader(text.splitlines()):
        if row["value"] in ("win", "lose") and int(row["remoteness"]) <= moves:
            found[int(row["tier"])] += int(row["positions"])
    return found


def agrees(room, game, moves):
    """Why the values of a game's canonical positions differ from looking so many moves ahead, if they do."""
    program, folder = drill(), room.fresh()
    told(GAMESMAN, "solve", game, folder)
    found, least = tiers(program, game, folder, moves), decided(game, folder, moves)
    if len(found) != len(os.listdir(folder)) or not any(least.values()):
        return f"not all tiers are compared: {found}"
    few = [f"tier {tier}: {known} positions are known, and {least[tier]} are decided" for tier, _, known, _ in found if known < least[tier]]
    return next((f"tier {tier}: {wrong} positions differ" for tier, _, _, wrong in found if wrong), few[0] if few else None)


def within_on_tictactoe(room):
    """No game is longer than nine moves, so looking nine moves ahead decides each position, the start (a tie in 9) among them."""
    why = agrees(room, "tictactoe", 9)
    return why or (None if told(GAMESMAN, "query", "tictactoe", 9 * ".") == "tie in 9\n" else "the start is no tie in 9")


def threemens_agrees_with_looking_ahead(room):
    return agrees(room, "threemens", 4)


def achi_agrees_with_looking_ahead(room):
    return agrees(room, "achi", 4)


def mutorere_agrees_with_looking_ahead(room):
    return agrees(room, "mutorere", 4)


def hare_agrees_with_looking_ahead(room):
    return agrees(room, "hare", 4)


def dao_agrees_with_looking_ahead(room):
    return agrees(room, "dao", 2)


def low_tiers(room, game, value):
    """Why the tiers that a row of five reaches differ from what they must be, if they do: each position of up to four counters is decided within four moves."""
    program, folder = drill(), room.fresh()
    found = told(GAMESMAN, "query", game, ROW, "--folder", folder)
    if found != f"{value}\n":
        return f"the row: {found!r}"
    compared = tiers(program, game, folder, 4)
    if len(compared) != 6 or any(wrong for *_, wrong in compared) or any(known != positions for _, positions, known, _ in compared[:5]):
        return f"{compared}"
    return None


def tactix_of_five(room):
    return low_tiers(room, "tactix-5", "win in 1")


def misere_tactix_of_five(room):
    # Four are taken, and the other side has to take the last.
    return low_tiers(room, "tactix-5-misere", "win in 2")


AHEAD = (
    within_on_tictactoe,
    threemens_agrees_with_looking_ahead,
    achi_agrees_with_looking_ahead,
    mutorere_agrees_with_looking_ahead,
    hare_agrees_with_looking_ahead,
    dao_agrees_with_looking_ahead,
    tactix_of_five,
    misere_tactix_of_five,
)
