"""The reader of examples/c, compiled with all warnings and with sanitizers: it says of random boards what the program says, and it refuses each bad file."""
import json
import os
import random
import subprocess

from lib.files import put
from lib.paths import GAMESMAN, ROOT
from lib.programs import SECONDS, told
from lines.mended import RIGHT, WORDS
from release import vectors

HEADER, SOURCE = (os.path.join(ROOT, f"examples/c/{name}") for name in ("gamesman.h", "lookup.c"))
FLAGS = "-std=gnu99 -O1 -g -Wall -Wextra -Wpedantic -Wconversion -Wshadow -Werror -fsanitize=address,undefined -fno-sanitize-recover=all".split()

# The most lines of the header, and how many boards there are of each game.
LINES = 200
BOARDS = {"dao": 60_000, "tactix-1": 100, "tactix-2": 100, "tactix-3": 10_000, "tactix-4": 20_000, "tactix-4-misere": 10_000}


def compiled(room):
    program = os.path.join(room.fresh(), "lookup")
    subprocess.run(["cc", *FLAGS, "-o", program, SOURCE], check=True, timeout=SECONDS)
    return program


def boards(game, number):
    """Texts by chance, most of which are boards."""
    chance = random.Random(number)
    cells = 16 if game == "dao" else int(game[7]) ** 2
    for _ in range(number):
        men = list("xxxxoooo........") if game == "dao" and chance.random() < 0.98 else chance.choices("x." if chance.random() < 0.98 else "xo.", k=cells)
        chance.shuffle(men)
        yield "".join(men + chance.choices(["", "x", "."], [98, 1, 1]))


def said(answer):
    if "error" in answer:
        return answer["error"]
    value = answer["positionValue"]
    return value if value == "draw" else f"{value} in {answer['remoteness']}"


def read(reader, game, folder, texts):
    """What the reader in C says of texts."""
    given = "".join(f"{text}\n" for text in texts)
    ran = subprocess.run([reader, game, folder], input=given, capture_output=True, text=True, timeout=SECONDS, check=False)
    if ran.returncode or ran.stderr:
        raise ValueError(f"{game}: status {ran.returncode}, {ran.stderr[-500:]!r}")
    return ran.stdout.splitlines()


def differing(texts, found, wanted):
    if len(found) != len(wanted):
        return f"{len(found)} answers, not {len(wanted)}"
    return next((f"{text}: {it}, not {right}" for text, it, right in zip(texts, found, wanted) if it != right), None)


def the_reader_in_c_agrees(room):
    """On random boards with the program, and on the positions that a release has for this."""
    with open(HEADER, encoding="utf-8") as file:
        if len(file.readlines()) > LINES:
            return f"the header has more than {LINES} lines"
    reader = compiled(room)
    for game, number in BOARDS.items():
        folder, texts = room.fresh(), list(boards(game, number))
        told("solve", game, folder)
        answers = told("ask", game, "--values", "--folder", folder, "--read-only", given="".join(f"{text}\n" for text in texts)).splitlines()
        why = differing(texts, read(reader, game, folder, texts), [said(json.loads(line)) for line in answers])
        rows = vectors.rows(GAMESMAN, game)
        texts, wanted = [row[0] for row in rows], [said({"positionValue": row[3], "remoteness": row[4]}) for row in rows]
        why = why or differing(texts, read(reader, game, folder, texts), wanted)
        if why:
            return f"{game}: {why}"
    return None


def the_reader_in_c_refuses_each_bad_file(room):
    """By the word of `check`; that a record is not the true one is no matter of the reader's."""
    reader, path = compiled(room), os.path.join(room.fresh(), "tier")
    cases = [(word.partition(" record")[0], text) for word, texts in WORDS for text in texts if not word.startswith("wrong record")]
    cases += [("truncated", RIGHT[:length]) for length in range(len(RIGHT))] + [("ok", RIGHT)]
    for word, text in cases:
        put(path, text)
        ran = subprocess.run([reader, "countdown", "0", "11", path], capture_output=True, text=True, timeout=SECONDS, check=False)
        if (ran.returncode, ran.stdout.partition(" record")[0].strip(), ran.stderr) != (int(word != "ok"), word, ""):
            return f"{word}: status {ran.returncode}, {ran.stdout!r}, {ran.stderr[-300:]!r}"
    return None


IN_C = (the_reader_in_c_agrees, the_reader_in_c_refuses_each_bad_file)
