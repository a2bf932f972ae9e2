"""What the crates of games tell tools of each game: their files games.json (README.md)."""
import glob
import json
import os
from typing import Any

from lib.paths import ROOT


def told_of_games() -> dict[str, dict[str, Any]]:
    """Reads these files. Returns what they have of each game, by its name."""
    found: dict[str, dict[str, Any]] = {}
    for path in sorted(glob.glob(os.path.join(ROOT, "crates/*/games.json"))):
        with open(path, encoding="utf-8") as it:
            found.update(json.load(it))
    return found


TOLD = told_of_games()

# The games of ten million indexes or more. Parts that solve each game leave them out.
LARGE = frozenset("tactix-5 tactix-5-misere tictactoe-4 hex-4 clobber kono domineering-5 cram-5 connect4-4x6 connect4-5x5 connect4-6x4".split())
