"""All positions of king and pawn against king beside an independent solver in C (tools/solver/kpk.c), and the published numbers."""
import os
import subprocess

from lib.paths import TOOLS
from lib.programs import SECONDS, told
from lines.foxhounds import differing

SOURCE = os.path.join(TOOLS, "solver/kpk.c")

# Legal positions with the pawn, those that White wins, and the most moves of both sides that a win takes.
PUBLISHED = ("P w: 163328 legal, 124960 won, 0 lost, ", "P b: 168024 legal, 0 won, 97604 lost, ", "; the longest win takes 55")


def is_published(counts):
    white, black = (next(line for line in counts if line.startswith(it[:4])) for it in PUBLISHED[:2])
    return white.startswith(PUBLISHED[0]) and black.startswith(PUBLISHED[1]) and all(it.endswith(PUBLISHED[2]) for it in (white, black))


def kpk_beside_a_solver(room):
    """The text, the value, the best move and the number of moves of each position with the white king on the left half."""
    place, folder = room.fresh(), room.fresh()
    solver = os.path.join(place, "solver")
    subprocess.run(["cc", "-O2", "-o", solver, SOURCE], check=True)
    ran = subprocess.run([solver], check=True, capture_output=True, text=True, timeout=SECONDS)
    if not is_published(ran.stderr.splitlines()):
        return f"the solver's counts are not the published ones: {ran.stderr}"
    rows = sorted(ran.stdout.splitlines())
    told("solve", "kpk", folder)
    found = [row for value in ("win", "lose", "tie", "draw") for row in told("find", "kpk", "--value", value, "--folder", folder, "--read-only").splitlines()]
    why = differing("\n".join(sorted(found)), "\n".join(rows))
    return f"find: {why}" if why else None


KPK = (kpk_beside_a_solver,)
