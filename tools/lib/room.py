"""A room: a folder for all that a tool makes, and runs in it of which calls are refused."""
import concurrent.futures
import os
import shutil
import struct
import subprocess
import tempfile
from types import TracebackType
from typing import Callable, Iterable, Optional, TypeVar

from lib.files import Files, files_of
from lib.paths import GAMESMAN, TOOLS
from lib.programs import SECONDS

Item = TypeVar("Item")
Answer = TypeVar("Answer")


class Ran:
    """How a run ended: its status (None: it was stopped for its time), what it wrote, and how many calls were counted and refused."""

    def __init__(self, status: Optional[int], out: bytes, err: bytes, calls: int, refused: int) -> None:
        self.status, self.out, self.err, self.calls, self.refused = status, out, err, calls, refused

    def __str__(self) -> str:
        return f"status {self.status}, output {self.out[-200:]!r}, errors {self.err[-200:]!r}"


class Room:
    """A folder for everything that the parts of a tool make, with the library that refuses calls. It is removed at the end of `with`."""

    def __init__(self) -> None:
        self.folder = tempfile.mkdtemp(prefix="hostile-")
        # (what runs as nobody goes through it)
        os.chmod(self.folder, 0o755)
        self.library = os.path.join(self.folder, "refuse.so")
        source = os.path.join(TOOLS, "hostile/refuse.c")
        subprocess.run(["cc", "-O2", "-shared", "-fPIC", "-o", self.library, source, "-ldl"], check=True)
        self.workers = len(os.sched_getaffinity(0))

    def __enter__(self) -> "Room":
        return self

    def __exit__(self, kind: Optional[type[BaseException]], why: Optional[BaseException], trace: Optional[TracebackType]) -> None:
        shutil.rmtree(self.folder, ignore_errors=True)

    def fresh(self) -> str:
        """Makes an empty folder."""
        return tempfile.mkdtemp(dir=self.folder)

    def run(
        self,
        words: list[str],
        kind: Optional[str] = None,
        at: int = 0,
        on: bool = False,
        marks: bool = False,
        short: bool = False,
        lies: bool = False,
        given: bytes = b"",
        errors: int = subprocess.PIPE,
        cwd: Optional[str] = None,
        seconds: float = SECONDS,
    ) -> Ran:
        """Runs a program, with its call number `at` of a kind refused (0: none), and every later one too if `on`; with one byte a call if `short`. With `marks`
        only calls between the marks of the drill are counted; with `lies` a refused call that changes a file reports that it was made."""
        place = self.fresh()
        seen = os.path.join(place, "seen")
        env = {"PATH": "/usr/bin:/bin", "LANG": "C.UTF-8"}
        if kind:
            env |= {"LD_PRELOAD": self.library, "REFUSE_KIND": kind, "REFUSE_AT": str(at), "REFUSE_SEEN": seen}
            ways = {"REFUSE_ON": on, "REFUSE_MARKS": marks, "REFUSE_SHORT": short, "REFUSE_LIES": lies}
            env |= {name: "1" for name, is_set in ways.items() if is_set}
        try:
            ran = subprocess.run(words, input=given, stdout=subprocess.PIPE, stderr=errors, env=env, cwd=cwd or place, timeout=seconds, check=False)
            found = Ran(ran.returncode, ran.stdout, ran.stderr or b"", *counted(seen))
        except subprocess.TimeoutExpired as late:
            found = Ran(None, late.stdout or b"", late.stderr or b"", *counted(seen))
        shutil.rmtree(place, ignore_errors=True)
        return found

    def in_lanes(self, work: Callable[[Item], Answer], items: Iterable[Item]) -> list[Answer]:
        """Returns the results of many pieces of work, in order, as many side by side as there are processors."""
        with concurrent.futures.ThreadPoolExecutor(self.workers) as pool:
            return list(pool.map(work, items))


def counted(seen: str) -> tuple[int, int]:
    """Returns how many calls the library counted and how many it refused, by the file that it leaves."""
    if not os.path.exists(seen):
        return 0, 0
    with open(seen, "rb") as it:
        calls, refused = struct.unpack("<qq", it.read(16))
    return calls, refused


def right_files(room: Room, game: str) -> Files:
    """Returns the files of a game that was solved without any hindrance."""
    folder = room.fresh()
    ran = room.run([GAMESMAN, "solve", game, folder])
    if ran.status != 0:
        raise SystemExit(f"hostile: solve {game} without hindrance: {ran}")
    return files_of(folder)
