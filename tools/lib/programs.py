"""Runs of the program, and what is run only if a program is there."""
import atexit
import functools
import os
import shutil
import subprocess
import tempfile
from typing import Optional

from lib.paths import DRILL, GAMESMAN, IS_ANOTHER, built

# A run that takes longer than this hangs.
SECONDS = 120


class Refused(ValueError):
    """A run that ended with another status than 0, or wrote to standard error."""


class LeftOut(Exception):
    """Why a part is not run here."""


def missing(program: str) -> Optional[str]:
    """Returns why a program can't be tried, if it is not there."""
    if os.path.isfile(program):
        return None
    is_built = program in (built("gamesman"), built("drill"))
    return f"{program} is not built: run rt ci, or rt run in its crate" if is_built else f"{program} is no program"


# Whether parts may be left out for want of the drill: another program is tried than the built one, and no drill is named.
MAY_LACK_DRILL = IS_ANOTHER and DRILL == built("drill")


def drill() -> str:
    """Returns the path of the drill. If it is missing, raises LeftOut, or SystemExit if no part may be left out for want of it."""
    why = missing(DRILL)
    if why and MAY_LACK_DRILL:
        raise LeftOut("it needs the drill, which is not here")
    if why:
        raise SystemExit(why)
    return DRILL


def told(*words: str, given: str = "", seconds: float = SECONDS) -> str:
    """Runs the program with these words, and returns what it writes. Raises Refused if it fails, and TimeoutExpired if it takes longer than `seconds`."""
    ran = subprocess.run([GAMESMAN, *words], input=given.encode(), capture_output=True, timeout=seconds, check=False)
    if ran.returncode or ran.stderr:
        raise Refused(f"{' '.join(words)}: status {ran.returncode}, {ran.stderr.decode()!r}")
    return ran.stdout.decode()


@functools.lru_cache(maxsize=None)
def folder_of_program() -> str:
    """Returns a folder for a search path in which the program is called `gamesman`: its own, or one with a link to it."""
    if os.path.basename(GAMESMAN) == "gamesman":
        return os.path.dirname(GAMESMAN)
    folder = tempfile.mkdtemp(prefix="gamesman-")
    atexit.register(lambda: shutil.rmtree(folder, ignore_errors=True))
    os.symlink(GAMESMAN, os.path.join(folder, "gamesman"))
    return folder
