"""What is written of a table of a game (tables.py): its definition, its tests, and its code."""
import re

from lib.tables import PATTERNS, Table

WIDTH = 160


def camel(name: str) -> str:
    digits = dict(zip("0123456789", "Zero One Two Three Four Five Six Seven Eight Nine".split()))
    words = re.findall(r"[a-z]+|[0-9]", name)
    return "".join(digits.get(word, word.capitalize()) for word in words)


def snake(name: str) -> str:
    return "_".join(it.lower() for it in re.findall(r"[A-Z][a-z]*", camel(name)))


def kind_of(table: Table) -> str:
    """The kind of tiers, as both languages name it."""
    return table.tiers.capitalize()


def filled(items: list[str], joint: str, before: str, indent: str, width: int) -> str:
    """Joins items to lines of at most a width, the later ones indented."""
    lines, line = [], before
    for at, item in enumerate(items):
        piece = item + (joint if at + 1 < len(items) else "")
        if len(line) + len(piece.rstrip()) >= width and line.strip():
            lines.append(line.rstrip())
            line = indent
        line += piece
    return "\n".join([*lines, line.rstrip()])


def listed(items: list[str], field: str) -> str:
    """A field of a record that is a list."""
    return filled([*items, "[]"], " ∷ ", f"  {field} = ", "    ", WIDTH - 1) + ";"


def cells_text(cells: list[int]) -> str:
    return " ∷ ".join([*map(str, cells), "[]"])


def pattern_text(parts: list[tuple[str, list[int]]]) -> str:
    texts = [f"{kind} ({cells_text(cells)})" for kind, cells in parts]
    return texts[0] if len(texts) == 1 else f"both ({texts[0]}) ({pattern_text(parts[1:])})"


def numbers_text(table: Table, code: bool) -> str:
    """Which numbers of pieces there can be, as a definition or as code."""
    def at_most(a: str, b: object) -> str:
        return f"{a} <= {b}" if code else f"nat_le {a if ' ' not in a else f'({a})'} {b}"

    if table.limits:
        low, high, other_low, other_high = table.limits
        least = [f"{low} <= mine" if code else f"nat_le {low} mine", f"{other_low} <= theirs" if code else f"nat_le {other_low} theirs"]
        return f"({least[0]} && {at_most('mine', high)}) && ({least[1]} && {at_most('theirs', other_high)})"
    return {
        "sides": f"{at_most('mine', table.bound)} && {at_most('theirs', table.bound)}",
        "placed": f"(mine == theirs || mine + 1 == theirs) && {at_most('mine + theirs', table.bound)}",
        "single": f"mine == {table.bound} && theirs == {table.bound}",
        "common": "theirs == 0",
    }[table.tiers]


def phases_text(table: Table) -> str:
    lists = [filled([" ".join([kind, *map(str, cells)]) for kind, cells in steps] + ["[]"], " ∷ ", "", "      ", WIDTH - 10) for steps in table.phases]
    return "  phases =\n      " + "\n      ∷ ".join(f"({it})" for it in lists) + "\n      ∷ [];"


def names_text(table: Table) -> str:
    if table.side:
        return f"  names = square_points {table.side};"
    return listed([f'codes "{it}"' for it in table.cells], "names")


def definition(table: Table, crate: str) -> str:
    """The file `specs/NAMERules.antt`."""
    cells = {"x": "Mine", "o": "Theirs", ".": "Empty"}
    end = table.stuck.capitalize()
    over = f"if nat_lt mine {table.over[0]} then Some {table.over[1].capitalize()} else None" if table.over else "None"
    tiers = f"{kind_of(table)} {table.bound}" if table.tiers == "single" else kind_of(table)
    usual = {"over = λ mine theirs. None", "tiers = Placed", "adds = true", "phase = λ pieces. 0", "swapped = true", "turn = None", "stuck = Lose",
             *(f"{meaning} = []" for meaning in table.patterns)}
    body = [
        f'  name = codes "{table.name}" ++ replicate {16 - len(table.name)} 0;',
        listed([cells[it] for it in table.start], "start"),
        names_text(table),
        f"  numbers = λ mine theirs. {numbers_text(table, False)};",
        f"  over = λ mine theirs. {over};",
        f"  tiers = {tiers};",
        f"  adds = {str(table.adds).lower()};",
        f"  phase = λ pieces. {f'if nat_lt pieces {table.change} then 0 else 1' if len(table.phases) > 1 else '0'};",
        phases_text(table),
        f"  swapped = {str(not table.is_common).lower()};",
        f"  turn = {f'Some ({cells_text(table.turn)})' if table.turn else 'None'};",
        *(listed([pattern_text(it) for it in found], meaning) for meaning, found in table.patterns.items()),
        f"  stuck = {end};",
        f"  symmetries = square_symmetries {table.side};" if table.is_whole_square else listed([f"({cells_text(it)})" for it in table.symmetries], "symmetries"),
    ]
    kept = [line for line in body if line.strip().rstrip(";") not in usual]
    text = "\n".join([f"abbrev pub {snake(table.name)} : PatternGame", f"{snake(table.name)} = record (usual {len(table.cells)}) {{", *kept, "}", ""])
    head = f"-- The rules of {table.title}, made of tables/{table.name}.game by tools/new_game.\n"
    return head + imports_of(text) + "\n" + text


# Names of the definition: the module that has them, and the names of which those are imported that the text has.
SPEC_NAMES = [
    ("Rattle.std.specs.Prelude", ["◌+◌", "◌==◌", "◌&&◌", "◌||◌", "nat_le", "nat_lt", "true", "false", "[]", "◌∷◌", "◌++◌", "replicate", "codes", "if◌then◌else◌", "None", "Some"]),
    ("Rattle.gm_board.specs.Squares", ["square_symmetries"]),
    ("Rattle.gm_board.specs.declared.cell.Cell.TheVariants", ["Empty", "Mine", "Theirs"]),
    ("Rattle.gm_draw.specs.Points", ["square_points"]),
    ("Rattle.gm_game.specs.declared.position.End.TheVariants", ["Lose", "Tie", "Win"]),
    ("Rattle.gm_patterns.specs.Patterns", [*PATTERNS, "both"]),
    ("Rattle.gm_patterns.specs.Steps", ["place", "stack", "cover", "take", "slide", "capture", "jump", "hop", "vault"]),
    ("Rattle.gm_patterns.specs.PatternGames", ["PatternGame", "usual"]),
    ("Rattle.gm_patterns.specs.declared.rules.Tiers.TheVariants", ["Sides", "Placed", "Common", "Single"]),
]


def has_name(text: str, name: str) -> bool:
    """Whether a text has a name, as a word or between spaces."""
    signs = "if" if name.startswith("if") else name.replace("◌", "")
    return bool(re.search(rf"(?<![\w-]){re.escape(signs)}(?![\w-])", text)) if signs[0].isalpha() else f" {signs} " in text or f" {signs};" in text


def imports_of(text: str) -> str:
    code = re.sub(r'"[^"]*"', '""', text)
    lines = []
    for module, names in SPEC_NAMES:
        found = [name for name in names if has_name(code, name)]
        if found:
            lines.append(f"use {module}.{{{', '.join(found)}}}\n")
    return "".join(lines)
