"""The Python package and the programs of examples: over all positions of two games the package reads what an independent solver (tools/solver) says, and
it refuses what it must. Its own tests are run by python/run."""
import os
import re
import subprocess
import sys
from collections import Counter

import gamesman
from gamesman.folder import decode
from lib.files import put
from lib.paths import GAMESMAN, PYTHON, ROOT
from lib.programs import SECONDS, folder_of_program, told
from lines.mended import RIGHT, WORDS, file_of
from lines.samples import blocks, wrong_in, wrong_typed
from release import vectors
from solver.games import games
from solver.values import Solved

GAMES = ("tictactoe", "mutorere")
EXAMPLES = os.path.join(ROOT, "examples/python")
PAGES = ("python/README.md", "examples/python/README.md", "examples/c/README.md")


def ran(*words):
    env = {"PATH": f"{folder_of_program()}:/usr/bin:/bin", "LANG": "C.UTF-8", "PYTHONPATH": PYTHON}
    done = subprocess.run([sys.executable, "-B", *words], cwd=EXAMPLES, env=env, capture_output=True, text=True, timeout=SECONDS, check=False)
    return done.returncode, done.stdout, done.stderr


def solved(room, game):
    """A folder with the game's tables, by the program."""
    folder = room.fresh()
    told("solve", game, folder)
    return folder


def wrong_record(folder, right):
    """The first index of a folder's files where the reader answers another record than the solver, if there is one."""
    tables = {table.tier: table for table in gamesman.Folder(folder, right.game.name)}
    if set(tables) != set(right.game.tiers):
        return f"the tiers {sorted(tables)}"
    for tier, positions in right.canonical().items():
        table, values = tables[tier], {index: right.values[position] for index, position in positions}
        if len(table.numbers) != right.game.size(tier):
            return f"tier {tier} has {len(table.numbers)} indexes"
        counts = Counter(value for value, _ in values.values())
        if table.by_value() != {value: counts[value] for value in ("lose", "draw", "tie", "win")}:
            return f"tier {tier}: {table.by_value()}"
        for index in range(right.game.size(tier)):
            if table.record(index) != values.get(index):
                return f"tier {tier}, index {index}: {table.record(index)}, not {values.get(index)}"
    return None


def the_reader_reads_each_record(room):
    for game in GAMES:
        why = wrong_record(solved(room, game), Solved(games()[game]))
        if why:
            return f"{game}: {why}"
    return None


def wrong_answer(game, right):
    """The first text of a game that is answered otherwise than the solver says, if there is one."""
    for text in right.game.texts:
        try:
            said = game.position(text)
        except gamesman.NoSuchPosition:
            said = None
        if (said is None) == right.game.is_legal(text):
            return f"{text!r}: {said}"
        if said and (text, right.values[text]) != (said.text, (said.value, said.remoteness)):
            return f"{text!r}: {said!r}"
        if said and [(move.text, move.result) for move in said.moves()] != [(name, child) for _, name, child in right.ranked(text)]:
            return f"{text!r}: the moves {said.moves()}"
    return None


def the_client_asks_each_position(room):
    """Each text of nine cells and some more, by one process for each game."""
    for name in GAMES:
        with gamesman.Game(name, solved(room, name), GAMESMAN) as game:
            why = wrong_answer(game, Solved(games()[name]))
        if why:
            return f"{name}: {why}"
    return None


def the_vectors_are_true(room):
    """The positions of a release by which readers are checked."""
    for name in GAMES:
        right, rows = Solved(games()[name]), vectors.rows(GAMESMAN, name)
        for text, *row in rows:
            least = right.least[text]
            if row != [right.game.tier(text), right.game.index(least), *right.values[text]]:
                return f"{name}: {text!r}: {row}"
        taken = {text for text, *_ in rows}
        number = sum(right.least[text] == text for text in taken)
        if len(taken) != len(rows) or len(rows) > vectors.ROWS or number < min(vectors.CANONICAL, len(set(right.least.values()))) or number == len(rows):
            return f"{name}: {len(rows)} rows, {number} of canonical positions"
    return None


def refusal(text):
    """The word by which the reader refuses a file that is to be Countdown's from 10, if it does."""
    try:
        decode(text, "countdown", 0, 11)
    except gamesman.BadFile as why:
        return str(why)
    return None


# The numbers of the least and of the greatest remoteness of each value, with their records.
GREATEST = {
    0x100000: ("lose", 0),
    0x1FFFFF: ("lose", 1_048_575),
    0x200000: ("draw", 0),
    0x300080: ("tie", 128),
    0x3FFFFF: ("tie", 1_048_575),
    0x4FFFFF: ("win", 1_048_575),
}


def the_reader_refuses_each_bad_file(room):
    """As `check` does; that a record is not the true one is no matter of the reader's."""
    for word, texts in WORDS:
        for text in texts:
            wanted = None if word.startswith("wrong record") else word
            if refusal(text) != wanted:
                return f"{word}: {refusal(text)}"
    cut = {refusal(RIGHT[:length]) for length in range(len(RIGHT))}
    if cut != {"truncated"} or refusal(RIGHT):
        return f"cut to each length: {cut}"
    table = decode(file_of(list(GREATEST) + [0] * 5), "countdown", 0, 11)
    if [table.record(index) for index in range(11)] != [*GREATEST.values()] + [None] * 5:
        return f"the greatest records: {table}"
    kept = [at for at in range(len(RIGHT)) if not refusal(RIGHT[:at] + bytes([RIGHT[at] ^ 1]) + RIGHT[at + 1 :])]
    return f"bytes that may be changed: {kept}" if kept else None


# The positions of each remoteness of Tac Tix on 2 by 2, canonical ones, by hand: only the square's diagonal loses with two counters.
COUNTED = """tactix-2: 6 canonical positions by the number of moves to the end
         lose       tie       win
  0         1         0         0  ##############################
  1         0         0         2  ############################################################
  2         1         0         0  ##############################
  3         0         0         1  ##############################
  4         1         0         0  ##############################
"""


def the_examples_are_run(room):
    """As a user runs them: what they print, and what they say of what is not there."""
    folder, empty, mixed = solved(room, "tactix-2"), room.fresh(), solved(room, "wheel")
    put(f"{mixed}/tier-1.gmt", RIGHT)
    wanted = (
        (("remoteness.py", "tactix-2"), (0, COUNTED, "")),
        (("remoteness.py", "tactix-2", "--folder", folder), (0, COUNTED, "")),
        (("remoteness.py", "wheel", "--folder", mixed), (1, "", "remoteness.py: tier-1.gmt: wrong game\n")),
        (("remoteness.py", "chess"), (1, "", "remoteness.py: no such game: 'chess'\n")),
        (("remoteness.py", "wheel", "--folder", f"{empty}/none"), (1, "", f"remoteness.py: [Errno 2] No such file or directory: '{empty}/none'\n")),
        (("puzzles.py", "chess"), (1, "", "puzzles.py: no such game: 'chess'\n")),
    )
    why = next((f"{' '.join(words)}: {ran(*words)}" for words, outcome in wanted if ran(*words) != outcome), None)
    return why or wrong_book()


def wrong_book():
    """Why a book of the puzzles of Countdown is another than it must be: a win from 4 in three moves, 5, 7, 8 and 10 are the ones of three and more."""
    status, out, err = ran("puzzles.py", "countdown", "--number", "99")
    found = re.findall(r"<figcaption>(\d+)\. countdown: win in (\d+)</figcaption>", out)
    solutions = re.findall(r"<li value=(\d+)><b>(\d)</b>((?: \d)*)</li>", out)
    right = [(str(k), str(n)) for k, n in enumerate((3, 3, 5, 5, 7), 1)]
    # Of each win the first move leaves a multiple of three, and the answers are long ones, of one.
    long_enough = [len(first + rest.replace(" ", "")) for _, first, rest in solutions] == [3, 3, 5, 5, 7]
    if (status, err, found) != (0, "puzzles.py: countdown has 5 such puzzles, not 99\n", right) or not long_enough or out.count("<svg ") != 5:
        return f"puzzles.py: {status}, {err!r}, {found}, {solutions}"
    return None


def wrong_program(block, folder):
    """Why a program of the page prints something else than its comment says, if it does."""
    env = {"PATH": f"{folder_of_program()}:/usr/bin:/bin", "PYTHONPATH": PYTHON}
    done = subprocess.run([sys.executable, "-B", "-c", block], cwd=folder, env=env, capture_output=True, text=True, timeout=SECONDS, check=False)
    wanted = (0, f"{block.rpartition('  # ')[2].strip()}\n", "")
    return None if (done.returncode, done.stdout, done.stderr) == wanted else f"{done}"


def wrong_sample(language, block, folder):
    """Why a sample of a page does not do what the page shows, if so. What is not Python is what a shell reads; pip is run by python/run."""
    if language == "python":
        return wrong_program(block, folder)
    typed = [line for line in block.splitlines() if language == "sh" and not line.startswith("pip ")]
    return wrong_in(block, folder) if not language else next(filter(None, (wrong_typed(line, folder) for line in typed)), None)


def the_page_of_examples_is_true(room):
    """The samples and the programs of the pages, one after the other in one folder."""
    folder = room.fresh()
    os.symlink(os.path.join(ROOT, "examples"), f"{folder}/examples")
    os.mkdir(f"{folder}/tables")
    found = [wrong_sample(*block, folder) for page in PAGES for block in blocks(page)]
    return next(filter(None, found), None) if len(found) == 7 else f"{len(found)} samples"


READERS = (
    the_reader_reads_each_record,
    the_client_asks_each_position,
    the_vectors_are_true,
    the_reader_refuses_each_bad_file,
    the_examples_are_run,
    the_page_of_examples_is_true,
)
