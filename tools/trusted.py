"""What is to be believed: the definitions of `specs/` on which each promise of docs/PROMISES.md rests, each command's answer, and each game's rules. tools/docs puts
them into docs/TRUSTED.md and README.

The clauses of a contract name definitions, and these name others. All that is reached so is to be believed; no lemma and no proof is. It goes by names: those that
a file imports, followed through the files that hand them on, and its own. A variable that has the name of a definition counts as that, so a list may have too many
and never too few. Lines count if they are of a definition, and are neither empty nor comments."""
import glob
import hashlib
import os
import re
import sys
import textwrap
from functools import lru_cache
from types import SimpleNamespace

ROOT = os.path.dirname(os.path.dirname(os.path.abspath(__file__)))
CRATES = f"{ROOT}/crates"
WIDTH = {"README": 120, "docs": 160}

# The greatest number of lines for the headline.
MOST = 90

# The promises of PROMISES.md to which README refers, by their first words.
HEADLINE, LAWS, ANSWER, PROGRAM = "A finished tier", "A game here keeps", "Each value and remoteness", "That request is answered"

# Definitions that many of the items share: true values, refusals, and what makes the rules of games on a layer.
SHARED = (
    ("gm_game.specs.Values", "IsTrueValue"),
    ("gamesman.specs.Refusals", "IsUnbuilt"),
    ("gm_pieces.specs.MoveGames", "move_rules"),
    ("gm_pieces.specs.Small", "small_rules"),
    ("gm_patterns.specs.PatternGames", "pattern_rules"),
)

# Files of specs/ that no promise rests on, and that are not in specs/inner, with the reason.
BESIDE = {
    "gm_patterns.specs.PatternTables": "tests that a new game has to pass",
    "gm_pieces.specs.SmallTables": "tests that a new game has to pass",
    "gm_solver.specs.Boards": "what callers with workers of their own see",
    "gm_testing.specs.ByHand": "the words of tests",
}

# An import: the module and the names. The first line of a definition: a record or a data type, or a name with its type. A word of a
# definition, or a name with its path; what comes after a dot is a field.
USE = re.compile(r"(?s)\buse Rattle\.([\w.«»]+)\.\{(.*?)\}")
OPENS = re.compile(r"(?:(?:abbrev|unfoldable|opaque) )*(?:pub )?(?:(record|data) ([^\s:(){}]+)|([^\s:(){}]+) :(?= |$))")
WORD = re.compile(r"Rattle(?:\.[\w«»◌]+)+|(?<![\w.])[^\s(){}\[\];,.λ→×:]+")


@lru_cache(None)
def read(path):
    with open(path, encoding="utf-8") as it:
        return it.read()


def imports(text):
    """The names that a file imports, each with the module and the name there."""
    found = {}
    for where, names in USE.findall(text):
        for name in filter(None, (it.strip() for it in names.split(","))):
            there, _, here = name.partition(" as ")
            found[here or there] = (where, there)
    return found


def definitions(text):
    """The definitions of a file, each with its lines and their numbers and the heads of the modules around it; and its variants, each with its data type."""
    name, found, variants, around = None, {}, {}, []
    for number, line in enumerate(text.splitlines(), 1):
        depth = len(line) - len(line.lstrip())
        if not line.strip() or re.match(r"\s*--|\s*unfolding\b", line):
            continue
        while around and depth <= around[-1][0]:
            around.pop()
        line = line[min(depth, 2 * len(around)) :]
        opened = OPENS.match(line)
        if re.match(r"(?:abbrev )?(?:module|mutual)\b|(?:pub )?(?:use|mod)\b", line):
            name = None
            around += [(depth, line)] if "mod " not in line and "use " not in line else []
        elif opened:
            name = opened[2] or opened[3]
            found[name] = SimpleNamespace(lines=[], around="\n".join(head for _, head in around), is_data=opened[1] == "data")
        elif name and found[name].is_data and " : " in line:
            variants[line.split()[0]] = name
        if name:
            found[name].lines.append((number, line))
    return found, variants


@lru_cache(None)
def module(name):
    """A file of this repository's `specs/`; `None` for other modules."""
    crate, _, path = name.partition(".")
    path = f"{CRATES}/{crate}/{path.replace('.', '/')}.antt"
    if ".specs." not in name or not os.path.isfile(path):
        return None
    found, variants = definitions(read(path))
    return SimpleNamespace(path=path, imports=imports(read(path)), definitions=found, variants=variants)


def resolved(name, word):
    """The module and the name of what this word of a module means: a definition of `specs/`, or something beyond. For a variant it is its data type."""
    found = module(name)
    if found is None:
        above, _, kind = name.rpartition(".")
        return (above, kind) if module(above) and kind in module(above).definitions else (name, word)
    word = found.variants.get(word, word)
    return (name, word) if word in found.definitions else resolved(*found.imports.get(word, (f"beyond.{name}", word)))


def is_ours(key):
    return module(key[0]) is not None


def named(text, known, own=None):
    """What a text names: words that are imported, and in a file of definitions its own."""
    found = []
    for word in dict.fromkeys(WORD.findall(text)):
        if word.startswith("Rattle."):
            path, _, word = word.removeprefix("Rattle.").rpartition(".")
            found.append(resolved(path, word))
        elif own and word in {**module(own).definitions, **module(own).variants}:
            found.append(resolved(own, word))
        elif word in known:
            found.append(resolved(*known[word]))
    return found


def counted(key, only):
    """The lines of a definition that count: all, or its type and the equations that begin as `only` has it."""
    lines, kept, keeps = module(key[0]).definitions[key[1]].lines, [], True
    for number, line in lines if key[1] in only else []:
        if re.match(rf"{re.escape(key[1])} (?!:)", line):
            keeps = line.startswith(only[key[1]])
        kept += [(number, line)] if keeps else []
    return kept or lines


def closure(starts, only=None):
    """All that these rest on, themselves included: the definitions, each with its lines, and the names of what is beyond them."""
    found, beyond, todo = {}, set(), list(starts)
    while todo:
        key = todo.pop()
        if not is_ours(key):
            beyond.add(key)
        elif key not in found:
            found[key] = counted(key, only or {})
            text = "\n".join([module(key[0]).definitions[key[1]].around, *(re.sub(r" --.*", "", line) for _, line in found[key])])
            todo += named(text, module(key[0]).imports, key[0])
    return SimpleNamespace(definitions=found, beyond=beyond)


@lru_cache(None)
def order():
    """The files of `specs/`, each after those that it imports."""
    placed = {}

    def place(name):
        if name not in placed and module(name):
            placed[name] = None
            for below in dict.fromkeys(it for it, _ in module(name).imports.values()):
                place(below)
            placed[name] = sum(it is not None for it in placed.values())

    for path in sorted(glob.glob(f"{CRATES}/*/specs/**/*.antt", recursive=True)):
        place(os.path.relpath(path, CRATES).removesuffix(".antt").replace("/", "."))
    return placed


def by_file(found, keys):
    """Definitions so that each comes after those that it names: by file, and as they come in it."""
    files = {}
    for key in sorted(keys, key=lambda key: (order()[key[0]], found.definitions[key][0][0])):
        files.setdefault(module(key[0]).path, []).append(key)
    return files


def head_of(path, function):
    """The contract of a function of a file of code."""
    owner, _, name = function.rpartition("::")
    text = re.sub(r"(?m)^\s*//.*\n", "", read(path))
    blocks = [text] if not owner else re.findall(rf"(?ms)^(?:unsafe )?(?:impl|pub trait)\b[^{{]*\b{owner}\b.*?^}}", text)
    lines = next((block[found.start() :].splitlines() for block in blocks for found in [re.search(rf"\bfn {name}\b", block)] if found), [])
    end = next((at for at, line in enumerate(lines) if line.strip() in ("{", "{}") or line.endswith(";")), len(lines))
    return "\n".join(lines[: end + 1])


def starts_of(path, function, cited=()):
    """What a function's conditions name, and its clauses of the cited names or with the cited definitions; all clauses, if nothing is cited. Of a clause that
    names no cited definition, those of its definitions' equations."""
    known, found = imports(read(f"{CRATES}/{path}")), []
    for kind, name, text in re.findall(r"(?ms)\b(requires|ensures)\b(?: (\w+))? \{(.*?)\}\s*?$", head_of(f"{CRATES}/{path}", function)):
        if kind == "requires" or not cited or name in cited or set(cited) & set(WORD.findall(text)):
            found += named(text, known)
        else:
            found += [key for key in equations_of(named(text, known)) if key[1] in cited]
    return found


def equations_of(keys):
    """What the equations of these definitions name."""
    text = {key: "\n".join(line for _, line in module(key[0]).definitions[key[1]].lines) for key in keys if is_ours(key)}
    return [it for key, lines in text.items() for it in named(lines, module(key[0]).imports, key[0])]


def promises():
    """The promises of PROMISES.md: each 'By' with the first words in bold before it, and its functions with what is cited of each."""
    found, title = [], None
    for part in read(f"{ROOT}/docs/PROMISES.md").split("\n\n"):
        whole = re.sub(r"\s+", " ", part)
        if part.startswith("By "):
            functions = re.findall(r"\[`([\w:]+)`\]\(\.\./crates/([\w/]+\.rt)\)([^\[]*)", whole)
            cited = [re.findall(r"`(\w+)`", tail) for *_, tail in functions]
            cited = [cited[0] if "the same clauses" in tail else words for words, (*_, tail) in zip(cited, functions)]
            found.append((title, [(path, name, words) for words, (name, path, _) in zip(cited, functions)]))
        bold = re.search(r"\*\*(.*?)\*\*", whole)
        title = None if part.startswith(("#", "By ")) else title or (bold and bold[1].rstrip("."))
    return found


def commands():
    """The commands, each with the definition of its answer, and how the equations begin that are its own."""
    questions = {"query": "(Value false)", "query --json": "(Value true)", "moves": "(Moves", "moves --replies": "(Replies", "why": "(Why false)", "why --json": "(Why true)", "line": "(Line",
                 "show": "(Show", "show --json": "Board"}
    diagrams = {"show --svg": "Svg", "show --tikz": "Tikz"}
    from_tables = {"query -` and `moves -": "(Filter", "solve": "(Solve", "at": "(At", "find": "(Find", "counts": "(Counts", "longest": "(Longest",
                   "analyse": "Analyse", "play": "(Play"}
    pages = {"page": "None", "page --engine": "(Some"}
    others = {"ask": "(Ask", "check": "(Check", "locate": "(Locate"}
    table = "IsAnsweredFromTables"
    explored = {name: (table, {table: f"{table} g (Explore ", "IsTextFor": f"IsTextFor g {of} "}) for name, of in questions.items()}
    drawn = {name: (table, {table: f"{table} g (Explore ", "IsTextFor": "IsTextFor g (Diagram ", "IsDiagramIn": f"IsDiagramIn {of} "}) for name, of in diagrams.items()}
    paged = {name: (table, {table: f"{table} g (Page ", "IsPagedWith": f"IsPagedWith {of} "}) for name, of in pages.items()}
    about_games = {name: (table, {table: f"{table} g {of} "}) for name, of in from_tables.items()}
    beside = {name: ("IsAnswered", {"IsAnswered": f"IsAnswered g {of} "}) for name, of in others.items()}
    lists = {"list": ("IsDone", {"IsDone": "IsDone (Names "}), "page --all": ("IsDone", {"IsDone": "IsDone (AllGames "}),
             "sheet": ("IsDone", {"IsDone": "IsDone (Sheet "})}
    return {**lists, **explored, **drawn, **paged, **about_games, **beside}


@lru_cache(None)
def believed():
    """What promises, answers of commands and rules of games rest on: for each of the three a heading, and the items with their titles."""
    told = [(title, closure([it for path, name, cited in of for it in starts_of(path, name, cited)])) for title, of in promises()]
    answered = [(f"`{name}`", closure([("gamesman.specs.Answers", start)], only)) for name, (start, only) in commands().items()]
    played = []
    for path in (os.path.relpath(it, CRATES) for it in sorted(glob.glob(f"{CRATES}/gm_*/src/**/*.rt", recursive=True))):
        names = re.findall(r"(?m)^pub fn (\w+)_is\b", read(f"{CRATES}/{path}"))
        played += [(f"`{name}` of {path.split('/')[0]}", closure(starts_of(path, f"{name}_is"))) for name in names]
    shared = [(f"`{name}` of {where.split('.')[0]}", closure([(where, name)])) for where, name in SHARED]
    return ("Promise", told), ("Answer of", answered), ("Rules of", played), ("Shared by several", shared)


def promise(begun):
    found = [found for title, found in believed()[0][1] if title.startswith(begun)]
    return found[0] if found else sys.exit(f"docs: PROMISES.md has no promise that begins with '{begun}'")


def count(found):
    """How many definitions, and how many lines they have."""
    return len(found.definitions), sum(len(lines) for lines in found.definitions.values())


def digest(found):
    """The beginning of the SHA-256 of the definitions, so that a change of one shows."""
    text = "\n".join(f"{key}\n" + "\n".join(line for _, line in lines) for key, lines in sorted(found.definitions.items()))
    return hashlib.sha256(text.encode()).hexdigest()[:8]


def summary():
    """README's lines: how much is to be believed."""
    number, lines = count(promise(HEADLINE))
    games = sorted(count(found)[1] for _, found in believed()[2][1])
    told = {"the headline": promise(HEADLINE), "the laws of a game": promise(LAWS), "the value of a position": promise(ANSWER),
            "what `query` prints, and its refusals": dict(believed()[1][1])["`query`"], "everything that the program prints, with all its games": promise(PROGRAM)}
    text = f"**To believe the headline, read [these {lines} lines](docs/TRUSTED.md#the-headline)**: {number} definitions, with no algorithm, lock or thread in them."
    rows = [f"| {title} | {count(found)[0]:,} | {count(found)[1]:,} |" for title, found in told.items()]
    rows.insert(4, f"| the rules of one game, in addition | | {games[0]} to {games[-1]} |")
    return [*textwrap.wrap(text, WIDTH["README"], break_on_hyphens=False), "", "| To believe | Definitions | Lines |", "|---|---|---|", *rows]


@lru_cache(None)
def numbered():
    """All items in a row."""
    return [it for _, items in believed() for it in items]


def table():
    """A table for each of the three lists; an item's number is its place in all of them."""
    out, number = [], 0
    for head, items in believed():
        out += ["", f"| | {head} | Definitions | Lines | SHA-256 |", "|---|---|---|---|---|"]
        for title, found in items:
            number += 1
            out.append(f"| {number} | {title} | " + " | ".join(f"{it:,}" for it in count(found)) + f" | {digest(found)} |")
    return [*out, ""]


def short(path):
    """A file's path without the folder."""
    return os.path.relpath(path, CRATES).replace("/specs/", "/").removesuffix(".antt")


def with_comments(path, lines):
    """A definition with the comments in it and above it."""
    every, first, above = read(path).splitlines(), lines[0][0] - 1, lines[0][0] - 1
    while re.match(r"\s*--|abbrev mutual\b", every[above - 1]):
        above -= 1
    deep = len(every[first]) - len(every[first].lstrip())
    return [it for it in every[above:first] if it.lstrip().startswith("--")] + [it[deep:] for it in every[first : lines[-1][0]] if it.strip()]


def beyond(found):
    """The types of the code and the words of libraries that definitions name."""
    code = sorted({re.sub(r".*\.(\w+)\.TheVariants$|.*\.(\w+)$", r"\1\2", where) if "TheConstants" not in where else word for where, word in found.beyond if ".declared." in where})
    words = {}
    for where, word in sorted(found.beyond):
        if ".declared." not in where and ".specs." in where:
            words.setdefault(where.split(".")[0], []).append(f"`{word}`")
    told = ["the code's types and constants " + ", ".join(f"`{it}`" for it in code), *(f"of {crate} " + ", ".join(names) for crate, names in words.items())]
    return textwrap.wrap("Beyond these definitions they name: " + "; ".join(told) + ".", WIDTH["docs"], break_long_words=False, break_on_hyphens=False)


def headline():
    """The definitions of the headline, in their order, each file's under its name."""
    found, out = promise(HEADLINE), []
    for path, keys in by_file(found, found.definitions).items():
        texts = ["\n".join(with_comments(path, found.definitions[key])) for key in keys]
        out += [f"[{short(path)}](../{os.path.relpath(path, ROOT)})", "", "```", *"\n\n".join(texts).splitlines(), "```", ""]
    return ["", *out, *beyond(found), ""]


def item(number, title, found):
    """The lines of an item: numbers of smaller ones that are wholly in it, and then the definitions that none of these has."""
    left, parts = set(found.definitions), []
    others = sorted(enumerate(numbered(), 1), key=lambda it: -len(it[1][1].definitions))
    for other, (_, it) in others:
        keys = set(it.definitions)
        if (keys < set(found.definitions) or keys == set(found.definitions) and other < number) and len(keys & left) > 9:
            left -= keys
            parts.append(str(other))
    parts = [f"list{'s' if len(parts) > 1 else ''} {', '.join(parts)}"] if parts else []
    for path, keys in by_file(found, left).items():
        places = [(key[1], found.definitions[key][0][0], found.definitions[key][-1][0]) for key in keys]
        parts.append(f"{short(path)} " + ", ".join(f"`{name}` {first}" + (f"-{last}" if last > first else "") for name, first, last in places))
    text = f"**{number}. {title}**: " + "; ".join(parts)
    return textwrap.wrap(text, WIDTH["docs"], initial_indent="- ", subsequent_indent="  ", break_long_words=False, break_on_hyphens=False)


@lru_cache(None)
def lists():
    """For each item its definitions in order."""
    return [line for number, (title, found) in enumerate(numbered(), 1) for line in item(number, title, found)]


def misplaced():
    """Files of `specs/` that no promise rests on, and files of `specs/inner` that one does; exceptions that are none."""
    reached = {name for _, items in believed() for _, found in items for name, _ in found.definitions}
    every = {os.path.relpath(path, CRATES).removesuffix(".antt").replace("/", ".") for path in glob.glob(f"{CRATES}/*/specs/**/*.antt", recursive=True)}
    for name in sorted(it for it in every if ".laws." not in it and module(it) and module(it).definitions):
        if ".inner." in name and name in reached:
            yield f"{short(module(name).path)} is in specs/inner, and a promise rests on it"
        if ".inner." not in name and (name in reached) == (name in BESIDE):
            yield f"{short(module(name).path)} " + ("need not be an exception (trusted.py)" if name in BESIDE else "belongs into specs/inner: no promise rests on it")
    yield from (f"{name} is an exception, and is not there (trusted.py)" for name in sorted(set(BESIDE) - every))


FIGURES = {"trusted": summary, "believed": table, "headline": headline, "definitions": lists}


def faults():
    """A headline that rests on too many lines; commands whose equations are not there, and equations that are no command's; files of specs/ in the wrong folder."""
    lines = count(promise(HEADLINE))[1]
    yield from [f"the headline rests on {lines} lines of definitions, more than {MOST}"] if lines > MOST else []
    beside = ["IsDone (Game ", "IsDone _ ", "IsAnswered g _ ", "IsAnswered g (FromTables "]
    begun = {(word, it) for _, only in commands().values() for word, it in only.items()} | {(it.split()[0], it) for it in beside}
    for where, word in (("gamesman.specs.Answers", "IsDone"), ("gamesman.specs.Answers", "IsAnswered"), ("gamesman.specs.Answers", "IsAnsweredFromTables"),
                        ("gamesman.specs.Answers", "IsPagedWith"), ("gamesman.specs.Texts", "IsTextFor")):
        equations = [line for _, line in module(where).definitions[word].lines if re.match(rf"{word} (?!:)", line)]
        expected = [it for name, it in begun if name == word]
        yield from (f"no equation of {where} begins with '{it}'" for it in expected if not any(line.startswith(it) for line in equations))
        yield from (f"the equation '{line}' is no command's (trusted.py)" for line in equations if not line.startswith(tuple(expected)))
    yield from misplaced()


if __name__ == "__main__":
    print("\n".join([*summary(), *table(), *headline(), *lists()]))
