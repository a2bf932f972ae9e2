"""Pages with the engine, as the program makes them: that of all games, that of one game, and what is refused."""
import json
import os
import re
import subprocess

from page import parts
from page.heads import HEADS

HERE = os.path.dirname(os.path.abspath(__file__))
# One more than the longest text of an engine.
LONG = 4_194_305
MEMBERS = ("title", "board", "points", "men", "swap", "sides")


def said(program, *words):
    """The status of a line, and what it writes to both streams."""
    done = subprocess.run([program, *words], capture_output=True, timeout=120, check=False)
    return done.returncode, done.stdout, done.stderr


def solved_names():
    """The names of the games that the engine knows and the program too."""
    with open(os.path.join(HERE, "page/engine.js"), encoding="ascii") as it:
        return re.findall(r'"([a-z0-9-]+)"', re.search(r"(?s)NAMES = \[(.*?)\]", it.read())[1])


def words_of(name):
    """A table of words about the games in the page's script."""
    found = re.search(rb"(?s)const " + name + rb" = \{\n(.*?)\};\n", parts.VIEWER)[1].decode()
    return json.loads("{" + re.sub(r'" \+\n\s*"', "", found).rstrip().rstrip(",") + "}")


def legal_of(program, name):
    counted = map(json.loads, said(program, "analyse", name)[1].decode().strip().split("\n"))
    return sum(tier["legal"] for tier in counted if "tier" in tier)


def wrong_lines(program, lines):
    """What is wrong with the lines of the page of all games."""
    heads = [json.loads(line) for line in lines.decode().splitlines()]
    names, rules, legal, worths = [head["game"] for head in heads], words_of(b"RULES"), words_of(b"LEGAL"), words_of(b"WORTHS")
    if sorted(names) != sorted(solved_names()) or not set(names) <= set(legal):
        yield f"its games are {names}, and not those of the engine, {solved_names()}, or not among those of its words, {list(legal)}"
    for head in heads:
        name, found = head["game"], HEADS[head["game"]]
        first = json.loads(parts.data_in(said(program, "page", name, "--limit", "1")[1]).splitlines()[1])
        if any(head[key] != found[key] for key in MEMBERS) or head["start"] != first[0] or head["whole"]:
            yield f"the line of {name} is {head}"
        if legal.get(name) != legal_of(program, name):
            yield f"{name} has {legal_of(program, name)} legal positions, and not {legal.get(name)}"
        if worths.get(name) != first[1]:
            yield f"the start of {name} is worth {first[1]}, and not {worths.get(name)}"
        if not (rules.get(name) or rules.get(re.sub(r"-\d(x\d)?", "", name))):
            yield f"{name} has no rules"


def wrong_page_of_all(program, engine, page):
    status, out, errors = said(program, "page", "--all", "--engine", engine)
    if status or errors:
        return [f"page --all: status {status}, {errors[:200]}"]
    with open(page, "wb") as it:
        it.write(out)
    with open(engine, "rb") as it:
        why = parts.wrong(out, it.read())
    return [f"page --all: {why}"] if why else [f"page --all: {why}" for why in wrong_lines(program, parts.data_in(out))]


def wrong_page_of_one(program, engine, page):
    """The lines of a page with the engine are those of the page without."""
    words = ("page", "dao", "--limit", "50")
    status, out, errors = said(program, *words, "--engine", engine)
    if status or errors:
        return [f"page dao --engine: status {status}, {errors[:200]}"]
    with open(page, "wb") as it:
        it.write(out)
    with open(engine, "rb") as it:
        why = parts.wrong(out, it.read())
    if why:
        return [f"page dao --engine: {why}"]
    return [] if parts.data_in(out) == parts.data_in(said(program, *words)[1]) else ["page dao --engine: its lines are not those of the page without"]


def refusals(engine, room):
    """Lines that are refused: the words, the status, and what is written to standard error."""

    def file(name, text):
        with open(os.path.join(room, name), "wb") as it:
            it.write(text)
        return it.name

    bad, unread, line = b"gamesman: file is no engine\n", b"gamesman: engine not read\n", b"gamesman: bad line\n"
    for name, text in (("empty", b""), ("end", b"\n"), ("ends", b"QUJD\n\n"), ("space", b"QUJD QUJD\n"), ("tag", b"QUJD</script>"), ("long", b"Q" * LONG)):
        yield ("page", "dao", "--engine", file(name, text)), 1, bad
        yield ("page", "--all", "--engine", file(name, text)), 1, bad
    for name in ("missing", "."):
        yield ("page", "--all", "--engine", os.path.join(room, name)), 1, unread
        yield ("page", "dao", "--engine", os.path.join(room, name)), 1, unread
    yield ("page", "dao", "nothing", "--engine", os.path.join(room, "missing")), 1, b"gamesman: no such position\n"
    yield ("page", "chess", "--engine", engine), 1, b"gamesman: no such game\n"
    for words in ("page", "page --all", "page --all dao", "page dao --all", "page --all --limit 5", "page --all --folder .", "page --all --quiet", "page --engine"):
        yield (*words.split(), *([] if words in ("page", "page --all", "page --engine") else ["--engine", engine])), 2, line
    for words in ("show dao", "ask dao", "find dao --value win --page"):
        yield (*words.split(), "--engine", engine), 2, line


def wrong(program, engine, page, one, room):
    """Makes both pages, and gives what is wrong with them and with what is refused."""
    found = wrong_page_of_all(program, engine, page) + wrong_page_of_one(program, engine, one)
    for words, status, errors in refusals(engine, room):
        got = said(program, *words)
        if got != (status, b"", errors):
            found.append(f"{' '.join(words)[:200]}: status {got[0]}, {got[1][:80]!r}, {got[2][:80]!r}")
    return found
