"""What the tests share: a folder for each, and the independent solver of tools/solver. python/run puts the tools on the path."""
import importlib.util
import os
import tempfile
import unittest
from functools import lru_cache
from types import ModuleType
from typing import Any

from lib.paths import PYTHON
from solver.games import games
from solver.values import Solved


def backend() -> ModuleType:
    """Returns the module that builds the package, which is not a part of it."""
    spec = importlib.util.spec_from_file_location("backend", os.path.join(PYTHON, "backend.py"))
    assert spec and spec.loader
    found = importlib.util.module_from_spec(spec)
    spec.loader.exec_module(found)
    return found


@lru_cache(maxsize=None)
def solved(game: str) -> Any:
    """Returns a game with the values that the independent solver finds."""
    return Solved(games()[game])


class WithRoom(unittest.TestCase):
    """A test with a folder of its own."""

    def setUp(self) -> None:
        room = tempfile.TemporaryDirectory(prefix="gamesman-python-")
        self.addCleanup(room.cleanup)
        self.room = room.name

    def folder(self, name: str) -> str:
        """Makes an empty folder."""
        path = os.path.join(self.room, name)
        os.mkdir(path)
        return path

    def program(self, script: str) -> str:
        """Makes a program of the shell that stands in for gamesman."""
        path = os.path.join(self.room, "program")
        with open(path, "w", encoding="utf-8") as file:
            file.write(f"#!/bin/bash\n{script}\n")
        os.chmod(path, 0o755)
        return path
