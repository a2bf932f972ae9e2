"""What is written of a table of a game (tables.py) and is not its definition: the tests of it, its code and its look."""
from lib.tables import PATTERNS, Table
from lib.written import camel, filled, kind_of, numbers_text, snake

WIDE = 100
SQUARE_NAMING = "A cell is its row and its column, as a1.\nA position is its cells, row by row: x for the\nside to move, o for the other, . where it is empty\n"
COMMON_NAMING = "A cell is its row and its column, as a1.\nA position is its cells, row by row: x where it is\ntaken, . where it is empty.\n"


def naming_of(table: Table) -> str:
    """The lines that explain positions and moves: those of the table, or else those of a square."""
    if table.naming:
        return table.naming
    kinds = {kind for steps in table.phases for kind, _ in steps}
    moves = "A move is the cell that is taken.\n" if kinds == {"place"} else "A move is from one cell to another.\n"
    return (COMMON_NAMING if table.is_common else SQUARE_NAMING) + moves


def is_plain_square(table: Table) -> bool:
    return not table.board


def quoted(text: str) -> str:
    return '"' + text.replace("\\", "\\\\").replace('"', '\\"').replace("\n", "\\n") + '"'


def pictured_file(table: Table, crate: str) -> str:
    """The file `specs/NAMEPicture.antt`."""
    it, n = snake(table.name), len(table.cells)
    mover, style = "player" if table.is_common else "x", table.style.capitalize()
    title, naming = f"codes {quoted(table.title)}", f"codes {quoted(naming_of(table))}"
    if is_plain_square(table):
        picture = f'on_square {table.side} {style} ({title}) (codes "{mover}") ({naming})\n'
    else:
        picture = f'on_board {style} ({title}) (codes {quoted(table.board)})\n    {it}.names (codes "{mover}") ({naming})\n'
    form = "on_square" if is_plain_square(table) else "on_board"
    return (
        f"-- What {table.title} looks like, made of tables/{table.name}.game by tools/new_game.\n"
        "use Rattle.std.specs.Prelude.{codes}\n"
        f"use Rattle.gm_draw.specs.declared.pictured.Style.TheVariants.{{{style}}}\n"
        "use Rattle.gm_draw.specs.Pictures.{PictureSpec}\n"
        "use Rattle.gm_draw.specs.GameSpecs.{GameSpec}\n"
        f"use Rattle.gm_patterns.specs.PatternPictures.{{pattern_spec, {form}}}\n"
        f"use Rattle.{crate}.specs.{camel(table.name)}Rules.{{{it}}}\n\n"
        f"unfoldable pub {it}_picture : PictureSpec\n{it}_picture = {picture}\n"
        f"abbrev pub {it}_spec : GameSpec\n{it}_spec = pattern_spec {n} {it} {it}_picture\n"
    )


def tested_file(table: Table, crate: str) -> str:
    """The file `specs/laws/NAMETables.antt`."""
    it, n = snake(table.name), len(table.cells)
    points, symmetries = (" square_points" if table.side else ""), (" square_symmetries" if table.is_whole_square else "")
    board = " square_board" if is_plain_square(table) else ""
    uses = [
        "use Rattle.std.proofs.Common.{refl}\n",
        "use Rattle.gm_board.specs.Squares.{square_symmetries}\n" if symmetries else "",
        "use Rattle.gm_draw.specs.Points.{square_points}\n" if points else "",
        "use Rattle.gm_patterns.specs.PatternTables.{faults}\n",
        "use Rattle.gm_patterns.specs.PatternPictures.{square_board}\n" if board else "",
        "use Rattle.gm_patterns.specs.laws.PatternPictured.{IsRight, right}\n",
        f"use Rattle.{crate}.specs.{camel(table.name)}Rules.{{{it}}}\n",
        f"use Rattle.{crate}.specs.{camel(table.name)}Picture.{{{it}_picture}}\n",
    ]
    return (
        f"-- The tables and the picture of {table.title} are right: a computation finds nothing wrong with them. Made of tables/{table.name}.game by tools/new_game.\n"
        + "".join(uses)
        + f"\npub {it}_right : IsRight {n} {it} {it}_picture\nunfolding faults{points}{symmetries} {it}_picture{board}\n"
        + f"{it}_right = right{' refl' * 13} (λ ps t w. w)\n"
    )


# ---- code
def mask(cells: list[int], digits: int) -> str:
    return f"0x{sum(1 << k for k in cells):0{digits}x}"


def digits_of(table: Table) -> int:
    return (len(table.cells) + 3) // 4


def array(name: str, kind: str, items: list[str], sign: str = "") -> str:
    """A constant array, in the form that the formatter gives it."""
    flat = f"const {name}: {kind} = {sign}[{', '.join(items)}];"
    # (the formatter breaks a list of more than 60 columns of texts)
    if len(flat) <= WIDE and not (sign and len(", ".join(items)) > 60):
        return flat + "\n"
    return f"const {name}: {kind} = {sign}[\n{filled(items, ', ', '    ', '    ', WIDE - 1)},\n];\n"


def steps_code(table: Table, at: int) -> str:
    """The steps of a phase, as a table."""
    steps = table.phases[at]
    groups: list[tuple[str, list[str]]] = []
    for kind, cells in steps:
        if not groups or groups[-1][0] != kind:
            groups.append((kind, []))
        groups[-1][1].append(" ".join(map(str, cells)))
    rows = ";\n".join(f"    {kind}\n" + filled(items, ", ", "    ", "    ", WIDE - 1) for kind, items in groups)
    return f"const {phase_name(table, at)}: [Step; {len(steps)}] = table![\n{rows}\n];\n"


def phase_name(table: Table, at: int) -> str:
    return "STEPS" if len(table.phases) == 1 else ("FIRST_STEPS", "LATER_STEPS")[at]


def patterns_code(table: Table, meaning: str) -> str:
    """The patterns of a meaning, as a table."""
    groups: list[tuple[str, list[str]]] = []
    digits = digits_of(table)
    for parts in table.patterns[meaning]:
        if len(parts) == 1:
            kind, row = parts[0][0], mask(parts[0][1], digits)
        else:
            masks = [0, 0, 0]
            for name, cells in parts:
                for k, is_out in enumerate(PATTERNS[name]):
                    masks[k] |= sum(1 << cell for cell in cells) if is_out else 0
            kind, row = "masks", " ".join(f"0x{it:0{digits}x}" for it in masks)
        if not groups or groups[-1][0] != kind:
            groups.append((kind, []))
        groups[-1][1].append(row)
    rows = ";\n".join(f"    {kind}\n" + filled(items, ", ", "    ", "    ", WIDE - 1) for kind, items in groups)
    return f"const {meaning.upper()}: [Pattern; {len(table.patterns[meaning])}] = table![\n{rows}\n];\n"


def constants(table: Table) -> list[str]:
    """The tables of the code, each with its comment."""
    n, made = len(table.cells), []
    for at in range(len(table.phases)):
        when = "" if len(table.phases) == 1 else (f" with fewer than {table.change} pieces on the board", f" from {table.change} pieces on")[at]
        made.append(f"/// The steps{when}.\n" + steps_code(table, at))
    words = {"forbidden": "Patterns that no board has", "lost": "Those with which the mover has lost", "won": "Those with which he has won", "tied": "Those with which the game is tied"}
    made += [f"/// {words[meaning]}.\n" + patterns_code(table, meaning) for meaning in table.patterns if table.patterns[meaning]]
    if table.turn:
        made.append("/// The board as the other player sees it: for each cell, the cell whose piece comes there.\n" + array("TURNED", f"[u8; {n}]", [str(k) for k in table.turn]))
    if not table.is_whole_square:
        rows = ["[" + ", ".join(map(str, it)) + "]" for it in table.symmetries]
        flat = f"const SYMMETRIES: [[u8; {n}]; {len(rows)}] = [{', '.join(rows)}];"
        text = flat + "\n" if len(flat) <= WIDE else f"const SYMMETRIES: [[u8; {n}]; {len(rows)}] = [\n" + "".join(f"    {row},\n" for row in rows) + "];\n"
        made.append("/// The symmetries: for each cell, the cell whose piece comes there.\n" + text)
    if not table.side:
        made.append("/// The names of the cells.\n" + array("NAMES", "&[&[u8]]", [f'b"{it}"' for it in table.cells], "&"))
    return made


def basics_code(table: Table) -> str:
    n, digits = len(table.cells), digits_of(table)
    mine, theirs = (mask([k for k in range(n) if table.start[k] == it], digits) for it in "xo")
    tiers = f"{kind_of(table)}({table.bound})" if table.tiers == "single" else kind_of(table)
    points = ", gm_draw::specs::Points::square_points" if table.side else ""
    name = table.name + "\\0" * (16 - len(table.name))
    return f"""    #[tactic(auto, unfolding(gm_board::specs::Images::board_of{points}))]
    fn basics() -> Basics<{n}> {{
        Basics {{
            name: *b"{name}",
            start: Board {{
                mine: {mine},
                theirs: {theirs},
            }},
            names: {f"square_cells({table.side})" if table.side else "NAMES"},
            tiers: Tiers::{tiers},
            adds: {str(table.adds).lower()},
            swapped: {str(not table.is_common).lower()},
            ends: {ends_code(table)},
        }}
    }}
"""


def ends_code(table: Table) -> str:
    """What rules out boards and ends the game, where it is not what is usual."""
    own = [f"{it}: &{it.upper()}" for it in table.patterns if table.patterns[it]]
    own += [f"over: Some(({table.over[0]}, End::{table.over[1].capitalize()}))"] if table.over else []
    own += [] if table.stuck == "lose" else [f"stuck: End::{table.stuck.capitalize()}"]
    return "Ends {\n" + "".join(f"                {it},\n" for it in own) + "                ..USUAL_ENDS\n            }" if own else "USUAL_ENDS"


def methods(table: Table) -> list[str]:
    n = len(table.cells)
    numbers = numbers_text(table, True)
    used = ["mine" if "mine" in numbers else "_mine", "theirs"]
    steps = "&STEPS" if len(table.phases) == 1 else f"if pieces < {table.change} {{\n            &FIRST_STEPS\n        }} else {{\n            &LATER_STEPS\n        }}"
    least = f"board.least_index({table.side})" if table.is_whole_square else "least_index_under(&SYMMETRIES, board)"
    return [
        basics_code(table),
        f"    fn can_have({used[0]}: u32, {used[1]}: u32) -> bool {{\n        {numbers}\n    }}\n",
        f"    fn steps({'pieces' if len(table.phases) > 1 else '_pieces'}: u32) -> &'static [Step] {{\n        {steps}\n    }}\n",
        f"    fn turned(mask: u32) -> u32 {{\n        {'image(&TURNED, mask)' if table.turn else 'mask'}\n    }}\n",
        f"    fn least_index(board: &Board<{n}>) -> u64 {{\n        {least}\n    }}\n",
        look_code(table),
    ]


def look_code(table: Table) -> str:
    it, name = snake(table.name), camel(table.name)
    mover, style = "player" if table.is_common else "x", table.style.capitalize()
    title, naming = "b" + quoted(table.title), "b" + quoted(naming_of(table))
    if is_plain_square(table):
        body = f"        on_square!(\n            {table.side},\n            Style::{style},\n            {title},\n            b\"{mover}\",\n            {naming},\n        )\n"
    else:
        points = f"square_cells({table.side})" if table.side else "NAMES"
        body = (
            f"        Picture {{\n            title: {title},\n            style: Style::{style},\n            board: b{quoted(table.board)},\n            rows: &[],\n"
            f"            points: {points},\n            mover: Mover::Same(b\"{mover}\"),\n            naming: {naming},\n        }}\n"
        )
    return f"""    ghost picture = {{ {it}_picture }};

    ghost right = {{ {it}_right }};

    #[tactic(auto, unfolding(crate::specs::{name}Picture::{it}_picture))]
    fn picture() -> Picture {{
{body}    }}
"""


def uses(table: Table, crate: str) -> str:
    it, name = snake(table.name), camel(table.name)
    lines = [
        "ghost use Rattle.std.specs.Prelude.{◌≡◌};",
        "ghost use Rattle.gm_patterns.specs.PatternGames.{pattern_rules};",
        "ghost use Rattle.gm_patterns.specs.PatternTexts.{pattern_text, pattern_move_text};",
        f"ghost use Rattle.{crate}.specs.{name}Rules.{{{it} as {it}_game}};",
        f"ghost use Rattle.{crate}.specs.{name}Picture.{{{it}_picture}};",
        f"ghost use Rattle.{crate}.specs.laws.{name}Tables.{{{it}_right}};",
        "",
        "use gm_patterns::prelude::*;",
        f"use gm_patterns::{'{on_square, table}' if is_plain_square(table) else 'table'};",
    ]
    return "\n".join(lines) + "\n"


def code_file(table: Table, crate: str) -> str:
    """The file `src/NAME.rt`."""
    it, n, name = snake(table.name), len(table.cells), camel(table.name)
    about = table.about[:1].lower() + table.about[1:]
    return "\n".join([
        f"//! {table.title}, made of tables/{table.name}.game by tools/new_game.\n" + uses(table, crate),
        *constants(table),
        f"/// The tables of {table.title}.\n#[derive(Drop)]\npub struct {name}Rules;\n",
        f"/// {table.title}: {about} (docs/GAMES.md).\npub type {name} = OnPatterns<{n}, {name}Rules>;\n",
        f"impl PatternRules<{n}> for {name}Rules {{\n    ghost game = {{ {it}_game }};\n\n" + "\n".join(methods(table)) + "}\n",
        f"""/// The rules, texts and look of {table.title} are those that `specs/` states.
pub fn {it}_is()
    ensures rules {{ ⟦<{name} as Game>⟧.rules ≡ pattern_rules {n} {it}_game }}
    ensures shown {{ ⟦<{name} as Shown>⟧.shown ≡ pattern_text {n} {it}_game }}
    ensures move_shown {{ ⟦<{name} as Shown>⟧.move_shown ≡ pattern_move_text {n} {it}_game }}
    ensures picture {{ ⟦<{name} as Pictured>⟧.picture ≡ {it}_picture }}
{{}}
""",
    ])
