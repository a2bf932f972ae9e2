"""The samples of README.md and docs/PROGRAM.md: each command line that a page shows is run as it stands there, and prints what the page shows below it."""
import os
import re
import subprocess
import sys

from lib.paths import PYTHON, ROOT
from lib.programs import SECONDS, folder_of_program

# What takes long: tools/measure --large runs it.
LONG = "tactix-5"

# A comment that is what the program writes.
WRITTEN = r"solved \d.*|(win|lose|tie) in \d+|draw|tier \d+ .*"


def blocks(page):
    """The blocks of code of a page, each with its language."""
    with open(os.path.join(ROOT, page), encoding="utf-8") as it:
        return re.findall(r"(?ms)^```(\w*)\n(.*?)^```$", it.read())


def run_line(line, folder):
    """Runs a line of the shell in a folder, which is its user's home too. Its program is the built one, and Python has the package."""
    env = {"PATH": f"{folder_of_program()}:{os.path.dirname(sys.executable)}:/usr/bin:/bin", "LANG": "C.UTF-8", "HOME": folder}
    env |= {"PYTHONPATH": PYTHON, "PYTHONDONTWRITEBYTECODE": "1"}
    return subprocess.run(["bash", "-c", line], cwd=folder, env=env, capture_output=True, stdin=subprocess.DEVNULL, timeout=SECONDS, check=False)


def told(line, folder):
    """What a line of the shell writes: its lines, or why it failed."""
    ran = run_line(line, folder)
    if ran.returncode or ran.stderr:
        return [], f"'{line}': status {ran.returncode}, {ran.stderr!r}"
    return ran.stdout.decode().splitlines(), None


def wrong_typed(line, folder):
    """Why a line that says what a user types fails, or writes something else than its comment, where that is what the program writes."""
    written, why = told(line, folder)
    comment = re.search(r"\s# (.*)$", line)
    if why or not comment or not re.fullmatch(WRITTEN, comment[1]) or written == [comment[1]]:
        return why
    return f"'{line}' writes {written!r}"


def plain(line):
    """A line without its comment, and with one space for each gap: pages show tabs as spaces."""
    return " ".join(re.sub(r"\s+# .*$", "", line).split())


def differs(line, shown, written):
    """Why what was written isn't what the page shows: all of it, unless the last line has a comment; of a session what comes before the first answer."""
    shown, goes_on = [plain(it) for it in shown], bool(shown) and "  # " in shown[-1]
    written = [plain(it) for it in written]
    if line.startswith("gamesman play "):
        shown, goes_on = shown[: shown.index("your move?") + 1], True
    wanted = written[: len(shown)] if goes_on else written
    return None if shown == wanted else f"'{line}' writes {written!r}"


def wrong_in(block, folder):
    """What a block of samples shows otherwise than the program writes it."""
    _, *samples = re.split(r"(?m)^\$ ", block)
    for sample in samples:
        line, *shown = sample.rstrip("\n").split("\n")
        if LONG in line:
            continue
        written, why = told(line, folder)
        why = why or differs(line, shown, written)
        if why:
            return why
    return None


def wrong_of(page, room):
    """What is wrong with a page's samples, if anything: blocks with '$ ' before each line, and lists of lines alone that say what a user types."""
    found = 0
    for language, block in blocks(page):
        lines = [it for it in block.splitlines() if it.startswith("$ ")]
        typed = [it for it in block.splitlines() if language == "sh" and re.match(r"mkdir|gamesman", it)]
        folder = room.fresh()
        whys = [wrong_in(block, folder)] if lines else [wrong_typed(it, folder) for it in typed]
        found += len(lines) + len(typed)
        for why in whys:
            if why:
                return f"{page}: {why}"
    return None if found else f"{page} has no sample"


def samples_of_the_readme(room):
    return wrong_of("README.md", room)


def samples_of_the_program_page(room):
    return wrong_of("docs/PROGRAM.md", room)


SAMPLES = (samples_of_the_readme, samples_of_the_program_page)
