"""Runs stopped at a random moment: no wrong file stands at any time, and the next run goes on."""
import random
import subprocess
import time

from lib.figures import Figures
from lib.files import files_of, wrong_file
from lib.paths import GAMESMAN
from lib.room import right_files

# How many times each game is stopped.
STOPS = {"tactix-3": 200, "achi": 200, "dao": 200}


def stop_game(room, game, stops, seed):
    """Stops solves of a game so many times, over one folder until it is done and then over a new one."""
    figures, chance, right = Figures(game), random.Random(f"{seed} {game}"), right_files(room, game)
    started = time.monotonic()
    room.run([GAMESMAN, "solve", game, room.fresh()])
    whole = time.monotonic() - started
    folder, done = room.fresh(), False
    while figures.runs < stops or not done:
        solve = subprocess.Popen([GAMESMAN, "solve", game, folder], stdout=subprocess.PIPE, stderr=subprocess.PIPE, stdin=subprocess.DEVNULL)
        try:
            # (most stops fall into the run; after the last one it may end)
            _, err = solve.communicate(timeout=chance.uniform(0, 1.1 * whole) if figures.runs < stops else 120)
            done = True
        except subprocess.TimeoutExpired:
            solve.kill()
            _, err = solve.communicate()
            done = False
        why = wrong_file(folder, right) or (f"solve said {err!r}" if err else None)
        if done and not why and files_of(folder) != right:
            # (what a stopped run was writing may stay, but of no tier that is done)
            why = "the folder is not done" if {k: v for k, v in files_of(folder).items() if k.endswith(".gmt")} != right else None
        figures.add(not done, f"{game}, seed {seed}: {why}" if why else None)
        if done:
            folder = room.fresh()
    return figures


def stops(room, options):
    """SIGKILL at a random moment of `solve`."""
    figures = Figures(f"stops (seed {options.seed})")
    for game, number in STOPS.items():
        figures.take(stop_game(room, game, number, options.seed))
    return figures
