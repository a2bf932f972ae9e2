"""Where a word of the specs is defined shows in the import: a façade (`Lower.antt`) hands on words of other files, so it is in specs/ only of crates of games, and
in proofs/ it hands on only names that several files use. `cd tools && python3 -m lib.imports` prints what is otherwise."""
import os
import re
from collections.abc import Iterator
from functools import lru_cache
from glob import glob

from lib.paths import ROOT

# The crates of games that have a façade in specs/; the number of files from which on a façade of proofs may hand on a name.
GAMES = {"gm_dao", "gm_toys"}
FEWEST = 3

USE = re.compile(r"\buse (Rattle\.[^\s{};]+)\.\{([^}]*)\}")


@lru_cache(None)
def imports(path: str) -> list[tuple[str, str]]:
    """The names that a file imports, each with its module."""
    with open(path, encoding="utf-8") as it:
        found = USE.findall(it.read())
    return [(module, name.split(" as ")[0].strip()) for module, names in found for name in names.split(",") if name.strip()]


def users() -> dict[tuple[str, str], int]:
    """How many files import each name of a façade."""
    found: dict[tuple[str, str], int] = {}
    for path in sorted(glob(f"{ROOT}/crates/*/[sp]*/**/*.antt", recursive=True) + glob(f"{ROOT}/crates/*/src/**/*.rt", recursive=True)):
        for it in dict.fromkeys(imports(path)):
            if it[0].endswith(".Lower"):
                found[it] = found.get(it, 0) + 1
    return found


def faults() -> Iterator[str]:
    """Façades in specs/ of other crates, and names that too few files take from a façade of proofs."""
    used = users()
    for path in sorted(glob(f"{ROOT}/crates/*/*/**/Lower.antt", recursive=True)):
        crate, part, *_ = os.path.relpath(path, f"{ROOT}/crates").split(os.sep)
        if part == "specs" and crate not in GAMES:
            yield f"crates/{crate}/specs has a façade: what it hands on is imported from where it is defined"
        few = [name for _, name in imports(path) if used.get((f"Rattle.{crate}.{part}.Lower", name), 0) < FEWEST] if part == "proofs" else []
        if few:
            yield f"{os.path.relpath(path, ROOT)} hands on what fewer than {FEWEST} files use: {', '.join(few)}"


if __name__ == "__main__":
    print("\n".join(faults()))
