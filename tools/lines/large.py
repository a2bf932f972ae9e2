"""All files of the largest games, Tac Tix on 5 by 5, normal and misère, beside an independent solver in C (tools/solver/tactix.c)."""
import hashlib
import os
import re
import struct
import subprocess
from math import comb

from lib.files import files_of
from lib.paths import GAMESMAN, TOOLS
from lines.agreement import wrong_entry

HERE = os.path.dirname(os.path.abspath(__file__))
SOURCE = os.path.join(TOOLS, "solver/tactix.c")
SECONDS, CELLS, MAGIC = 600, 25, b"GMTIER02"

# The numbers of pairs that the solver delivers, of the normal game.
DELIVERIES = 116_723_536


def right_digests():
    """The SHA-256 of each file of the normal game that independent solvers made, as tactix-5.txt has it."""
    with open(os.path.join(HERE, "tactix-5.txt"), encoding="utf-8") as it:
        return dict(line.split() for line in it if not line.startswith("#"))


def solved_digests(room, game, end):
    """The SHA-256 of each file of a game, as docs/FORMATS.md has it, with the records of the solver in C."""
    solver, name, digests = os.path.join(room.fresh(), "solver"), game.encode().ljust(16, b"\0"), {}
    subprocess.run(["cc", "-O2", "-o", solver, SOURCE], check=True)
    with subprocess.Popen([solver, end], stdout=subprocess.PIPE) as solving:
        for tier in range(CELLS + 1):
            size = comb(CELLS, tier)
            front = MAGIC + name + struct.pack("<QQ", tier, size) + solving.stdout.read(4 * size)
            digests[f"tier-{tier}"] = hashlib.sha256(front + hashlib.sha256(front).digest()).hexdigest()
        if solving.stdout.read() or solving.wait(SECONDS):
            raise ValueError(f"{game}: the solver ended with {solving.returncode}")
    return digests


def found_digests(folder):
    """The SHA-256 of each tier file of a folder."""
    return {name.removesuffix(".gmt"): hashlib.sha256(text).hexdigest() for name, text in files_of(folder).items()}


def digests_of_tactix_of_five(room):
    """All files of the normal game beside those that independent solvers made."""
    folder, right = room.fresh(), right_digests()
    if solved_digests(room, "tactix-5", "normal") != right:
        return "the solver in C has other files than tactix-5.txt"
    ran = room.run([GAMESMAN, "solve", "tactix-5", folder], seconds=SECONDS)
    if (ran.status, ran.out, ran.err) != (0, b"solved 26 reused 0 migrated 0 deliveries %d by hand 0\n" % DELIVERIES, b""):
        return str(ran)
    return differs(folder, right) or wrong_entry("tactix-5", "--folder", folder, "--read-only") or two_tiers_anew(room, folder, right)


def digests_of_misere_tactix_of_five(room):
    """All files of the misère game."""
    folder = room.fresh()
    ran = room.run([GAMESMAN, "solve", "tactix-5-misere", folder], seconds=SECONDS)
    if ran.status or ran.err or not re.fullmatch(rb"solved 26 reused 0 migrated 0 deliveries [0-9]+ by hand 0\n", ran.out):
        return str(ran)
    return differs(folder, solved_digests(room, "tactix-5-misere", "misere")) or wrong_entry("tactix-5-misere", "--folder", folder, "--read-only")


def differs(folder, right):
    """What is not right with the files of a whole game."""
    found = found_digests(folder)
    if len(right) != CELLS + 1 or found.keys() != right.keys():
        return f"the folder has {sorted(found)}"
    return next((f"{name} differs" for name in right if found[name] != right[name]), None)


def two_tiers_anew(room, folder, right):
    """Two files are gone, one after the other. While the text of a tier is made, the next one is solved: its table is used at the first of them, and dropped
    at the second, since the file of the tier after it is right."""
    for tier in 12, 13:
        os.remove(f"{folder}/tier-{tier}.gmt")
    before = {name: os.stat(f"{folder}/{name}").st_mtime_ns for name in os.listdir(folder)}
    ran = room.run([GAMESMAN, "solve", "tactix-5", folder], seconds=SECONDS)
    if ran.status or ran.err or not re.fullmatch(rb"solved 2 reused 24 migrated 0 deliveries [0-9]+ by hand 0\n", ran.out):
        return str(ran)
    written = [name for name, time in before.items() if os.stat(f"{folder}/{name}").st_mtime_ns != time]
    return f"{written} written again" if written else differs(folder, right)


LARGE = (digests_of_tactix_of_five, digests_of_misere_tactix_of_five)
