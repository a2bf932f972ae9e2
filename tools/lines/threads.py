"""How many threads a solve starts, as strace counts them, compared with the number that follows from the counts of the game.

At each level of a tier that is solved level by level there are as many workers as the line allows, and no more than pieces; the first runs in the calling
thread. A level has the positions of the tier and its child tiers that win or lose, or that tie, with one remoteness. For a large tier other threads prepare and
finish the work; they don't depend on `--piece`."""
import collections
import csv
import functools
import os
import shutil
import subprocess

from lib.paths import GAMESMAN
from lib.programs import SECONDS, LeftOut, told

STRACE = "strace"


@functools.lru_cache(None)
def can_trace():
    """Returns whether strace is here, and may follow a process on this machine."""
    words = [STRACE, "-f", "-qq", "-o", os.devnull, "true"]
    return bool(shutil.which(STRACE)) and subprocess.run(words, capture_output=True, timeout=SECONDS, check=False).returncode == 0


def started(room, game, workers, piece):
    """Counts the threads that a solve starts."""
    folder = room.fresh()
    log = os.path.join(folder, "calls")
    words = [STRACE, "-f", "-qq", "-e", "trace=clone,clone3", "-o", log, GAMESMAN, "solve", game, folder, "--quiet"]
    words += ["--workers", str(workers), "--piece", str(piece)]
    subprocess.run(words, capture_output=True, timeout=SECONDS, check=True)
    with open(log, encoding="utf-8") as it:
        return sum("clone(" in line or "clone3(" in line for line in it)


def levels(game):
    """Counts the positions of each level of each tier: by the phase and the remoteness."""
    text = told("counts", game, "--by-tier", "--csv")
    found = collections.defaultdict(collections.Counter)
    for row in csv.DictReader(text.splitlines()):
        if row["value"] != "draw":
            found[int(row["tier"])][row["value"] == "tie", int(row["remoteness"])] += int(row["positions"])
    return found


def wanted(game, tiers, workers, piece):
    """Counts the threads of the workers of these tiers, each with its child tiers."""
    of_tier = levels(game)
    sums = [sum((of_tier[tier] for tier in (tier, *children)), collections.Counter()) for tier, children in tiers.items()]
    return sum(min(workers, -(-number // piece)) - 1 for level in sums for number in level.values())


# The tiers of more than 512 indexes in which a move can stay, with their child tiers (docs/GAMES.md).
TIERS = {"dao": {0: ()}, "achi": {8: ()}, "hare": {tier: (tier + 1,) for tier in range(2, 10)}}


def wrong(room, game, workers, piece):
    """Returns what is wrong with the number of threads, if anything."""
    found, right = started(room, game, workers, piece), wanted(game, TIERS[game], workers, piece) if workers > 1 else 0
    return None if found == right else f"{game} by {workers} workers and pieces of {piece}: {found} threads, not {right}"


def first_wrong(room, *cases):
    """What is wrong with the first of these cases that is not right. If nothing can be traced, the part is left out, and says so."""
    if not can_trace():
        raise LeftOut("strace is not here, or may not follow a process")
    return next((why for case in cases if (why := wrong(room, *case))), None)


def workers_of_hare(room):
    return first_wrong(room, ("hare", 4, 1), ("hare", 4, 64), ("hare", 3, 2), ("hare", 1, 1))


def workers_of_achi(room):
    return first_wrong(room, ("achi", 4, 1), ("achi", 2, 3), ("achi", 1, 1))


def workers_of_dao(room):
    why = first_wrong(room, ("dao", 1, 64))
    if why:
        return why
    few, many = (started(room, "dao", 4, piece) for piece in (4096, 64))
    more = wanted("dao", TIERS["dao"], 4, 64) - wanted("dao", TIERS["dao"], 4, 4096)
    return None if many - few == more > 0 else f"dao by 4 workers: {many} threads by pieces of 64 and {few} by pieces of 4096, not {more} more"


THREADS = (workers_of_hare, workers_of_achi, workers_of_dao)
