"""Folders that are none, or hold what is no plain file: a documented fault or the right files, and no hang; nothing outside is touched."""
import os
import re
import subprocess

from lib.figures import Figures
from lib.files import put
from lib.paths import GAMESMAN
from lib.room import right_files

GAME = "countdown"
SECONDS = 20

# The faults of docs/PROGRAM.md.
FAULT = re.compile(
    rb"gamesman: (no such game|no such position|out of memory|too far in tier \d+|store failed at tier \d+|too many tiers"
    rb"|tier \d+ too large|tier \d+ is another game's|input failed|output failed|too much input)\n"
)


class Case:
    """A folder made in some way, and whether the game can be solved in it."""

    def __init__(self, name, make, solves, as_nobody=False, read_solves=None):
        self.name, self.make, self.solves, self.as_nobody = name, make, solves, as_nobody


def in_folder(make):
    """A folder in the room, made and then changed."""

    def made(room):
        folder = os.path.join(room.fresh(), "F")
        os.mkdir(folder)
        make(folder)
        return folder

    return made


def a_file(room):
    path = os.path.join(room.fresh(), "F")
    put(path, b"a file")
    return path


def not_there(room):
    return os.path.join(room.fresh(), "F")


def no_permission(folder):
    os.chmod(folder, 0o000)


def read_only(folder):
    os.chmod(folder, 0o555)


def a_link_to(name, target, text=None):
    """A link in the folder to something outside it."""

    def make(folder):
        path = os.path.join(os.path.dirname(folder), target)
        if text is not None:
            put(path, text)
        os.symlink(path, os.path.join(folder, name))

    return make


def cases():
    """Each case with whether `solve` ends well in it; the faults are those of docs/PROGRAM.md."""
    yield Case("a file in its place", a_file, False)
    yield Case("not there", not_there, False)
    yield Case("an empty word", lambda room: "", False)
    yield Case("no permission", in_folder(no_permission), False, as_nobody=True)
    yield Case("no permission to write", in_folder(read_only), False, as_nobody=True)
    for ending in ("gmt", "tmp"):
        name = f"tier-0.{ending}"
        yield Case(f"a folder {name}", in_folder(lambda folder, name=name: os.mkdir(os.path.join(folder, name))), False)
        yield Case(f"a FIFO {name}", in_folder(lambda folder, name=name: os.mkfifo(os.path.join(folder, name))), None)
        yield Case(f"a link {name} to a file", in_folder(a_link_to(name, "outside", b"kept")), None)
        yield Case(f"a link {name} to nothing", in_folder(a_link_to(name, "nothing")), None)
        yield Case(f"a long {name}", in_folder(lambda folder, name=name: put(os.path.join(folder, name), b"x" * 100_000)), True)


def drop():
    os.setgroups([])
    os.setgid(65534)
    os.setuid(65534)


def run(case, words):
    """Runs a line. Gives its status (None: it hung) and what it wrote."""
    as_nobody = {"preexec_fn": drop} if case.as_nobody and os.geteuid() == 0 else {}
    try:
        ran = subprocess.run([GAMESMAN, *words], capture_output=True, stdin=subprocess.DEVNULL, timeout=SECONDS, cwd="/", **as_nobody)
        return ran.returncode, ran.stdout, ran.stderr
    except subprocess.TimeoutExpired:
        return None, b"", b""


def outside(folder):
    """What stands beside the folder."""
    beside = os.path.dirname(folder) if folder else "/"
    return {name: open(path, "rb").read() for name in os.listdir(beside) if os.path.isfile(path := os.path.join(beside, name)) and name != "F"}


def judge(room, case, line, right):
    """Why a line over a case's folder is wrong, if it is."""
    folder = case.make(room)
    before = outside(folder)
    status, out, err = run(case, [word if word != "@" else folder for word in line])
    if status is None:
        return "it hangs"
    if status not in (0, 1) or (err and not FAULT.fullmatch(err)):
        return f"status {status}, errors {err!r}"
    if outside(folder) != before:
        return "something outside the folder has changed"
    if line[0] != "solve":
        return None if status == 0 or err or line[0] == "check" else f"status {status} and no word"
    if case.solves is not None and case.solves != (status == 0):
        return f"status {status}, errors {err!r}"
    if status == 0 and open(os.path.join(folder, "tier-0.gmt"), "rb").read() != right["tier-0.gmt"]:
        return "solved, and the file is not right"
    return None


LINES = (["solve", GAME, "@"], ["check", GAME, "@"], ["query", GAME, "10", "--folder", "@"], ["analyse", GAME, "--folder", "@"])


def folders(room, _options):
    """Every case with four lines."""
    figures, right = Figures("folders"), right_files(room, GAME)
    for case in cases():
        for line in LINES:
            why = judge(room, case, line, right)
            figures.add(case.solves is False, f"{case.name}: {' '.join(line)}: {why}" if why else None)
    return figures
