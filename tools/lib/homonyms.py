"""Words of the specs with two meanings: names that are defined in two crates of which one uses the other, directly or through others. A reader of the upper one
meets both. `cd tools && python3 -m lib.homonyms` prints them."""
import os
import re
from collections.abc import Iterator
from glob import glob

from lib.paths import ROOT

# Names that may be defined twice, each with the reason; at most ten.
ALLOWED = {
    "is_same": "gm_play and gm_page have the same test of equal positions in the words of their own lemmas",
}

# The first line of a definition: what comes before, and the name of a record or of data, or a name with its type.
HEAD = re.compile(r"( *)(?:(?:abbrev|unfoldable|opaque) )*(?:pub )?(?:(?:record|data) ([^\s:(){}]+)|([^\s:(){}]+) :(?= |$))")


def read(path: str) -> str:
    with open(path, encoding="utf-8") as it:
        return it.read()


def uses() -> dict[str, set[str]]:
    """Each crate with those that it uses, directly or through others."""
    lines = [line.split(":", 1) for line in read(os.path.join(ROOT, "crates.txt")).splitlines() if ":" in line and not line.startswith("#")]
    direct = {head.split()[0]: set(tail.split()) for head, tail in lines}

    def below(crate: str) -> set[str]:
        found = direct[crate] & set(direct)
        return found.union(*(below(it) for it in found))

    return {crate: below(crate) for crate in direct}


def defined(text: str) -> Iterator[str]:
    """The names that a file defines: not fields of records, nor variants of data."""
    inside: int | None = None
    for line in text.splitlines():
        found = HEAD.match(line)
        depth = len(line) - len(line.lstrip())
        if inside is not None and line.strip() and depth <= inside:
            inside = None
        if found and inside is None and not line.lstrip().startswith("--"):
            inside = depth if found[2] else None
            yield found[2] or found[3]


def names() -> dict[str, dict[str, str]]:
    """The names that specs define, lemmas left out, each with its crates and a file of each."""
    found: dict[str, dict[str, str]] = {}
    for crate in uses():
        folder = os.path.join(ROOT, "crates", crate, "specs")
        for path in sorted(glob(f"{folder}/**/*.antt", recursive=True)):
            if not os.path.relpath(path, folder).startswith("laws"):
                for name in defined(read(path)):
                    found.setdefault(name, {}).setdefault(crate, os.path.relpath(path, ROOT))
    return found


def faults() -> Iterator[str]:
    """Names with two definitions along one chain of crates, and exceptions that are none."""
    below = uses()
    twice: set[str] = set()
    for name, files in sorted(names().items()):
        for upper in files:
            lower = sorted(below[upper] & set(files))
            if lower:
                twice.add(name)
                if name not in ALLOWED:
                    yield f"{files[upper]} defines {name}, as {files[lower[0]]} does"
    yield from (f"{name} need not be an exception (tools/lib/homonyms.py)" for name in sorted(set(ALLOWED) - twice))


if __name__ == "__main__":
    print("\n".join(faults()))
