"""The lines of README.md that make a page of puzzles for a newspaper."""
import os
import re
import subprocess

from lib.paths import ROOT
from lib.programs import SECONDS, Refused, folder_of_program

# The command of these lines that makes the page of a list.
SHEET = "gamesman sheet"


def lines_of_the_page() -> str:
    """Returns these lines of the shell, as README.md has them."""
    with open(os.path.join(ROOT, "README.md"), encoding="utf-8") as it:
        blocks = re.findall(r"(?ms)^```sh\n(.*?)^```$", it.read())
    found = [block for block in blocks if SHEET in block]
    if len(found) != 1:
        raise ValueError(f"README.md makes {len(found)} pages of lists")
    return str(found[0])


def newspaper(folder: str) -> tuple[str, str]:
    """Runs these lines in a folder. Returns the list of puzzles and the page that they make."""
    block = lines_of_the_page()
    if block.count(SHEET) != 1 or "> page.html" not in block:
        raise ValueError(f"README.md makes a page by {block!r}")
    env = {"PATH": f"{folder_of_program()}:/usr/bin:/bin", "LANG": "C.UTF-8", "HOME": folder}
    kept = block.replace(SHEET, f"tee list.txt | {SHEET}")
    ran = subprocess.run(["bash", "-c", kept], cwd=folder, env=env, capture_output=True, stdin=subprocess.DEVNULL, timeout=SECONDS, check=False)
    if ran.returncode or ran.stdout or ran.stderr:
        raise Refused(f"{block!r}: status {ran.returncode}, {ran.stdout!r}, {ran.stderr!r}")
    texts = []
    for name in ("list.txt", "page.html"):
        with open(os.path.join(folder, name), encoding="utf-8") as it:
            texts.append(it.read())
    return texts[0], texts[1]
