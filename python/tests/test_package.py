"""The package as such: its syntax, what it imports, its wheel, its version."""
import ast
import glob
import os
import subprocess
import sys
import unittest
import zipfile
from typing import Any, Iterator, Tuple

import gamesman
from common import WithRoom, backend
from gamesman import BadFile, Folder, Game, Move
from gamesman.answers import moves_of, value_of
from lib.paths import GAMESMAN, ROOT

FILES = sorted(glob.glob(f"{ROOT}/python/**/*.py", recursive=True) + glob.glob(f"{ROOT}/examples/python/*.py"))

# The board of README.md.
BOARD = """\
    1   2   3
a   x | o | .
   ---+---+---
b   . | . | .
   ---+---+---
c   . | . | ."""

# What need not be there.
MAY_BE_MISSING = {"numpy", "pandas", "matplotlib"}


def imports(tree: ast.AST, within: str = "") -> Iterator[Tuple[str, str]]:
    """Returns the modules that a file imports, each with the function in which it does so."""
    for node in ast.iter_child_nodes(tree):
        if isinstance(node, ast.Import):
            yield from ((it.name.partition(".")[0], within) for it in node.names)
        elif isinstance(node, ast.ImportFrom) and not node.level:
            yield (node.module or "").partition(".")[0], within
        yield from imports(node, node.name if isinstance(node, ast.FunctionDef) else within)


# An answer with escapes in its texts, as no game of the program has them.
ESCAPED = (
    r'{"moves":[{"move":"a\"b","moveValue":"win","position":"\u0041","positionValue":"lose","remoteness":0,"moveRemoteness":1}],'
    r'"position":"],\"position\":\"\\","positionValue":"win","remoteness":1}'
)


class Package(WithRoom):
    def test_texts_with_escapes(self) -> None:
        self.assertEqual(moves_of(ESCAPED), [Move('a"b', "win", 1, "A")])
        self.assertEqual(value_of(ESCAPED), ('],"position":"\\', "win", 1))

    def test_syntax_of_python_3_8(self) -> None:
        self.assertGreater(len(FILES), 8)
        for path in FILES:
            with open(path, encoding="utf-8") as file:
                ast.parse(file.read(), path, feature_version=(3, 8))
        with self.assertRaises(SyntaxError):
            ast.parse("match 1:\n    case 1:\n        pass\n", feature_version=(3, 8))

    def test_only_the_standard_library(self) -> None:
        known = getattr(sys, "stdlib_module_names", None)
        if known is None:
            self.skipTest("this Python does not name its modules")
        for path in glob.glob(f"{ROOT}/python/gamesman/*.py") + glob.glob(f"{ROOT}/examples/python/*.py"):
            with open(path, encoding="utf-8") as file:
                found = set(imports(ast.parse(file.read())))
            for name, function in found:
                self.assertTrue(name in known or name == "gamesman" or (name in MAY_BE_MISSING and function), f"{path}: {name}")

    def test_one_source_makes_one_wheel(self) -> None:
        builder = backend()
        texts = []
        for folder in self.folder("one"), self.folder("two"):
            with open(os.path.join(folder, builder.build_wheel(folder)), "rb") as file:
                texts.append(file.read())
            wheel = zipfile.ZipFile(os.path.join(folder, f"gamesman-{gamesman.__version__}-py3-none-any.whl"))
            names = {f"gamesman/{os.path.basename(path)}" for path in FILES if os.path.dirname(path).endswith("python/gamesman")}
            self.assertEqual({name for name in wheel.namelist() if ".dist-info/" not in name}, names | {"gamesman/py.typed"})
            self.assertIsNone(wheel.testzip())
        self.assertEqual(texts[0], texts[1])

    def test_the_version_is_that_of_the_program(self) -> None:
        said = subprocess.run([GAMESMAN, "--version"], capture_output=True, text=True, check=True).stdout
        self.assertEqual(said, f"gamesman {gamesman.__version__}\n")

    def test_a_view_by_numpy(self) -> None:
        to = self.folder("tables")
        with Game("mutorere", program=GAMESMAN) as game:
            game.solve(to)
        tier: Any = Folder(to)[0]
        try:
            view = tier.numpy()
        except ImportError:
            self.skipTest("numpy is not here")
        self.assertEqual(view.tolist(), list(tier.numbers))
        self.assertEqual(int((view != 0).sum()), sum(tier.by_value().values()))

    def test_boards(self) -> None:
        with Game("tictactoe", program=GAMESMAN) as game:
            position = game.position("xo.......")
            self.assertEqual(position.drawing(), BOARD)
            drawing = position.svg()
        self.assertTrue(drawing.startswith("<svg ") and drawing.endswith("</svg>\n"))
        self.assertNotIn("win in", drawing)

    def test_diagrams_with_figures_and_marks(self) -> None:
        with Game("krk", program=GAMESMAN) as game:
            position = game.position("Kb3 Rh2 ka1 w")
            drawing, picture = position.svg(figures=True, arrow=True), position.tikz(value=True)
        self.assertIn('d="M400 320L400 360"', drawing)
        self.assertNotIn("<circle", drawing)
        self.assertTrue(picture.startswith("\\begin{tikzpicture}") and picture.endswith("\\end{tikzpicture}\n"))
        self.assertIn("win in 1", picture.replace("~", " "))

    def test_a_damaged_file_is_named(self) -> None:
        to = self.folder("tables")
        with Game("wheel", program=GAMESMAN) as game:
            game.solve(to)
        with open(f"{to}/tier-0.gmt", "r+b") as file:
            file.seek(-1, os.SEEK_END)
            last = file.read(1)
            file.seek(-1, os.SEEK_END)
            file.write(bytes([last[0] ^ 1]))
        with self.assertRaisesRegex(BadFile, "^tier-0.gmt: bad digest$"):
            list(Folder(to))
        with self.assertRaisesRegex(BadFile, "^tier-0.gmt: wrong game$"):
            list(Folder(to, game="dao"))


if __name__ == "__main__":
    unittest.main()
