"""The wheel of a release, tried as a user of Python would: installed by pip in a fresh environment without a network, asked, and removed again."""
import glob
import os
import re
import shutil
import subprocess
import sys

from release import parts

SECONDS = 300

# What every Linux has of which a wheel for manylinux may say that it is there, as far as the program could need it.
ALLOWED = {"libc.so.6", "libm.so.6", "libgcc_s.so.1", "libpthread.so.0", "libdl.so.2", "librt.so.1", "ld-linux-x86-64.so.2"}

# The package finds the program that came with it: no other one is on the path.
ASKED = 'from gamesman import Game\nwith Game("countdown") as game:\n    print(game.program, game.position("10").value, game.start._repr_svg_()[:5])\n'

PLACES = ("share/man/man1/gamesman.1", "share/bash-completion/completions/gamesman")


def ran(words, room):
    """Runs a command with nothing of the user's settings, and returns its status and what it wrote."""
    env = {"PATH": "/usr/bin:/bin", "HOME": room, "LC_ALL": "C.UTF-8", "PIP_CONFIG_FILE": os.devnull, "PYTHONDONTWRITEBYTECODE": "1"}
    how = {"stdin": subprocess.DEVNULL, "stdout": subprocess.PIPE, "stderr": subprocess.STDOUT, "text": True, "timeout": SECONDS, "check": False}
    done = subprocess.run(words, env=env, cwd=room, **how)
    return done.returncode, done.stdout


def everything(folder):
    """The paths of all files and folders, but for what Python compiles."""
    found = {os.path.join(here, name) for here, names, files in os.walk(folder) for name in names + files}
    return {path for path in found if "__pycache__" not in path}


def needed():
    """The libraries that the program needs, or None if objdump is not here."""
    if not shutil.which("objdump"):
        return None
    return set(re.findall(r"(?m)^\s*NEEDED\s+(\S+)$", parts.told("objdump", "-p", parts.PROGRAM).decode()))


def tries(place, file):
    """What is tried in an environment, in order: the words, and what they have to write (None: anything)."""
    pip = [f"{place}/bin/python", "-m", "pip", "--disable-pip-version-check", "--quiet"]
    yield [*pip, "install", "--no-index", "--no-deps", "--no-compile", file], None
    yield [f"{place}/bin/gamesman", "query", "countdown", "10"], "win in 7\n"
    yield [f"{place}/bin/python", "-c", ASKED], f"{place}/bin/gamesman win <svg \n"
    yield ["/bin/sh", "-c", " && ".join(f"test -s {place}/{path}" for path in PLACES)], ""
    yield [*pip, "check"], None
    yield [*pip, "uninstall", "--yes", "gamesman"], None


def faults(folder, room, left_out):
    """What is wrong with the wheel in the folder of a release."""
    found, others = glob.glob(f"{folder}/*.whl"), needed()
    if others is None:
        left_out.append("the libraries that the program needs: no objdump here")
    elif others - ALLOWED:
        yield f"the program needs {sorted(others - ALLOWED)}, which a wheel can't count on"
    if len(found) != 1:
        yield f"{len(found)} wheels"
        return
    name = os.path.basename(found[0])
    yield from (f"{page} does not name {name}" for page in ("README.md", "python/README.md") if name.encode() not in parts.read(page))
    place = os.path.join(room, "environment")
    status, said = ran([sys.executable, "-m", "venv", place], room)
    if status:
        left_out.append("the wheel: no venv here")
        return
    before = everything(place)
    for words, wanted in tries(place, found[0]):
        status, said = ran(words, room)
        if status or wanted not in (None, said):
            yield f"the wheel: {' '.join(words)}: status {status}, {said!r}"
    # (pip leaves folders that it has made)
    left = [path for path in sorted(everything(place) - before) if not os.path.isdir(path)]
    if left:
        yield f"the wheel leaves {left}"
