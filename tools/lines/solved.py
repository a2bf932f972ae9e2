"""All legal positions of the toys, the games up to Achi, Mu Torere, Hare and Hounds, the chess endings and each crate with rules for it beside an independent
solver (tools/solver), a process for each game."""
import glob
import json
import os
import subprocess
import sys

from lib.paths import ROOT, TOOLS

RUN = os.path.join(TOOLS, "solver/run")
SECONDS = 900


def games_of_crates():
    """The games whose rules are in their crates, in rules.py."""
    for path in sorted(glob.glob(os.path.join(ROOT, "crates/*/rules.py"))):
        with open(os.path.join(os.path.dirname(path), "games.json"), encoding="utf-8") as it:
            yield from json.load(it)


GAMES_BESIDE = (
    "countdown wheel takeaway tactix-1 tactix-2 tactix-3 tactix-4 tactix-1-misere tactix-2-misere tactix-3-misere tactix-4-misere"
    " tictactoe threemens achi mutorere hare krk kqk"
).split()
GAMES_BESIDE += games_of_crates()


class Beside:
    """One game beside the solver."""

    def __init__(self, game):
        self.name, self.game = f"{game.replace('-', '_')}_beside_a_solver", game

    def run(self, _room):
        ran = subprocess.run([sys.executable, RUN, self.game], capture_output=True, text=True, timeout=SECONDS, check=False)
        right = (ran.returncode, ran.stdout, ran.stderr) == (0, f"{self.game}: agrees\nsolver: 1 games agree, 0 differ\n", "")
        return [] if right else [f"{self.name}: {ran.stdout}{ran.stderr}"]
