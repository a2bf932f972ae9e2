"""All positions of the small games of patterns beside an independent solver in C++ (tools/solver/patterns.cpp)."""
import json
import os
import re
import subprocess
from collections import Counter

from lib.paths import TOOLS
from lib.programs import SECONDS, told

SOURCE = os.path.join(TOOLS, "solver/patterns.cpp")
GAMES = "tictactoe-misere notakto hex-3 hexapawn nineholes picaria toads domineering-4 cram-4 kayles".split()


def said(answer):
    """What an answer says of a position: its value, its remoteness and the names of its moves; or the answer, if it is refused."""
    if "error" in answer:
        return answer["error"]
    return answer["positionValue"], answer["remoteness"], sorted(it["move"] for it in answer["moves"])


def wrong(game, rows):
    """What the program says otherwise of a legal position, or how many more it has, if it does."""
    wanted = {text: (value, int(number), sorted(moves)) for text, value, number, *moves in map(str.split, rows)}
    answers = told("ask", game, given="".join(f"{text}\n" for text in wanted)).splitlines()
    for (text, row), answer in zip(wanted.items(), map(json.loads, answers)):
        if said(answer) != row:
            return f"{game}: {text} is {row}, and not {said(answer)}"
    legal = sum(json.loads(line)["legal"] for line in told("analyse", game).splitlines())
    return None if legal == len(answers) == len(wanted) else f"{game}: {len(wanted)} positions, {len(answers)} answers, {legal} legal"


def wrong_counts(game, line):
    """What the program says otherwise of how many positions of each value play reaches, if it does. All symmetries keep these games' starts."""
    wanted = {value: int(number) for number, value in re.findall(r"(\d+) (lose|tie|win|draw)", line) if number != "0"}
    found = Counter()
    for row in told("counts", game, "--legal", "--reached", "--csv").splitlines()[1:]:
        value, _, positions = row.split(",")
        found[value] += int(positions)
    return None if found == wanted else f"{game}: play reaches {wanted}, and not {dict(found)}"


def lines_of(*words):
    return subprocess.run(words, capture_output=True, text=True, check=True, timeout=SECONDS).stdout.splitlines()


def patterns_beside_a_solver(room):
    """The value, the remoteness and the moves of each legal position of the tiers that play reaches, and how many of each value play reaches."""
    solver = os.path.join(room.fresh(), "solver")
    subprocess.run(["c++", "-O2", "-std=c++20", "-o", solver, SOURCE], check=True, timeout=SECONDS)
    for game in GAMES:
        solved = lines_of(solver, game, "print")
        why = wrong(game, solved) or wrong_counts(game, *lines_of(solver, game))
        if why:
            return why
    return None


PATTERNS = (patterns_beside_a_solver,)
