"""Connect Four on boards of up to twenty cells beside an independent solver in C (tools/solver/connectfour.c): all positions on 4 by 4, and how many positions
of each value and remoteness the larger boards have."""
import csv
import json
import os
import re
import subprocess
from collections import Counter

from lib.paths import TOOLS
from lib.programs import SECONDS, told

SOURCE = os.path.join(TOOLS, "solver/connectfour.c")

# The columns and rows, the game whose positions are compared one by one first.
SIZES = ("4x4", "5x4", "4x5")

# The published numbers of the positions that play reaches.
REACHED = {"4x4": 161_029, "5x4": 3_945_711, "4x5": 1_706_255}


def row_of(answer):
    """The row of a position that an answer is about, as the solver writes it; or the answer, if it is refused."""
    if "error" in answer:
        return answer["error"]
    moves = answer["moves"]
    return "\t".join([answer["position"], f"{answer['positionValue']} in {answer['remoteness']}", moves[0]["move"] if moves else "", str(len(moves))])


def wrong_row(rows):
    """What the program says otherwise of a position on 4 by 4, if it does."""
    answers = told("ask", "connect4-4x4", given="".join(row.partition("\t")[0] + "\n" for row in rows)).splitlines()
    for row, answer in zip(rows, map(json.loads, answers)):
        if row_of(answer) != row:
            return f"{row!r}, and not {row_of(answer)!r}"
    return None if len(answers) == len(rows) else f"{len(answers)} answers to {len(rows)} lines"


def counted(size, *words):
    """How many positions of each value and remoteness the program counts."""
    rows = csv.DictReader(told("counts", f"connect4-{size}", *words, "--csv").splitlines())
    return Counter({(row["value"], int(row["remoteness"])): int(row["positions"]) for row in rows})


def wrong_counts(size, rows, counts):
    """What the program counts otherwise on a board, if it does."""
    wanted = Counter((value, int(number)) for _, (value, _, number) in ((row, row.split("\t")[1].split()) for row in rows))
    found = counted(size, "--legal")
    if found != wanted:
        return f"{sorted(wanted.items())}, and not {sorted(found.items())}"
    by_value = Counter()
    for (value, _), number in counted(size, "--legal", "--reached").items():
        by_value[value] += number
    reached = {value: int(number) for value, number in re.findall(r"(lose|tie|win) (\d+)", counts.splitlines()[2])}
    if by_value != reached or sum(reached.values()) != REACHED[size]:
        return f"play reaches {reached}, published {REACHED[size]}, and not {dict(by_value)}"
    return None


def connect_four_beside_a_solver(room):
    """Each position on 4 by 4, and the counts of three boards."""
    solver = os.path.join(room.fresh(), "solver")
    subprocess.run(["cc", "-O2", "-o", solver, SOURCE], check=True)
    for size in SIZES:
        ran = subprocess.run([solver, *size.split("x")], capture_output=True, text=True, check=True, timeout=SECONDS)
        rows = ran.stdout.splitlines()
        why = (wrong_row(rows) if size == "4x4" else None) or wrong_counts(size, rows, ran.stderr)
        if why:
            return f"{size}: {why}"
    return None


CONNECT = (connect_four_beside_a_solver,)
