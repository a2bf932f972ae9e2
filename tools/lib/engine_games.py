"""The games of the engine. Their list is `reply_of` in gm_engine; the names in `engine.js` are made of it, and the page of all games has each of them."""
import os
import re
from collections.abc import Iterator

from lib.paths import ROOT

LIST = "crates/gm_engine/src/games.rt"
SCRIPT = "tools/web/page/engine.js"
PAGE, PAGE_SPEC = "crates/gamesman/src/every_game.rt", "crates/gamesman/specs/Engines.antt"
LIST_SPEC = "crates/gm_engine/specs/Games.antt"
NAMES = re.compile(r"(?s)const NAMES = \[.*?\];")

# The greatest length of a line of the script.
WIDE = 160


def read(path: str) -> str:
    with open(os.path.join(ROOT, path), encoding="utf-8") as it:
        return it.read()


def types() -> list[str]:
    """The types of the games, by their numbers."""
    return re.findall(r"\n        \d+ => reply::<(.*)>\(Width::", read(LIST))


def name_of(kind: str) -> str:
    """The name of the game of this type."""
    rows = re.findall(r'"([\w-]+)" => \w+: ([\w:<>, ]+),\n', read("crates/gm_command/src/names.rt"))
    found = [name for name, path in rows if re.sub(r"\w+::", "", path) == kind]
    if len(found) != 1:
        raise ValueError(f"{LIST}: {kind} is the type of {len(found)} games of the program")
    return str(found[0])


def names_text() -> str:
    """The names of the games, as the script has them."""
    lines = ["const NAMES = ["]
    for kind in types():
        word = f'"{name_of(kind)}", '
        if len(lines[-1] + word.rstrip()) > WIDE:
            lines.append("  ")
        lines[-1] += word
    return "\n".join(line.rstrip() for line in lines).rstrip(",") + "];"


def write_script() -> None:
    """Makes the names of the script anew."""
    text = read(SCRIPT)
    with open(os.path.join(ROOT, SCRIPT), "w", encoding="utf-8") as it:
        it.write(NAMES.sub(lambda _: names_text(), text))


def faults() -> Iterator[str]:
    """What the lists of the engine's games lack."""
    if names_text() not in read(SCRIPT):
        yield f"{SCRIPT} has other names than {LIST} has games: tools/docs --write"
    pushed = re.findall(r"push_game::<(.*)>\(alloc, page\)", read(PAGE))
    for kind in types():
        if pushed.count(kind) != 1:
            yield f"{PAGE} has {pushed.count(kind)} lines of {kind}, which {LIST} has"
    for path, pattern in ((LIST_SPEC, r"(?s)\ngames =\n(.*?)∷ \[\]"), (PAGE_SPEC, r"(?m)^\w+_games =(.*(?:\n    .*)*?)∷ \[\]")):
        count = sum(part.count("∷") + 1 for part in re.findall(pattern, read(path)))
        if count != len(types()):
            yield f"{path} has {count} games, and {LIST} {len(types())}"
