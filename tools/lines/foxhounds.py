"""All positions of Fox and Hounds beside an independent solver in C (tools/solver/foxhounds.c)."""
import os
import subprocess

from lib.files import content
from lib.paths import TOOLS
from lib.programs import SECONDS, told

SOURCE = os.path.join(TOOLS, "solver/foxhounds.c")


def differing(written, wanted):
    """The first line that differs, if the two texts do."""
    if written == wanted:
        return None
    pairs = zip(written.splitlines(), wanted.splitlines())
    return next((f"{one!r}, not {other!r}" for one, other in pairs if one != other), f"{len(written)} bytes, not {len(wanted)}")


def foxhounds_beside_a_solver(room):
    """The text, the value, the best move and the number of moves of each position, by index."""
    place, folder = room.fresh(), room.fresh()
    solver, *files = (os.path.join(place, name) for name in ("solver", "win", "lose"))
    subprocess.run(["cc", "-O2", "-o", solver, SOURCE], check=True)
    subprocess.run([solver, *files], check=True, timeout=SECONDS)
    told("solve", "foxhounds", folder)
    for value, path in zip(("win", "lose"), files):
        found = told("find", "foxhounds", "--value", value, "--folder", folder, "--read-only")
        why = differing(found.encode(), content(path))
        if why:
            return f"find --value {value}: {why}"
    return None


FOXHOUNDS = (foxhounds_beside_a_solver,)
