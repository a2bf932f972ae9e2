"""Command lines of the program with what they must write, read from the texts beside this file (README.md says how they look)."""
import os
import re
import shlex
import shutil
import struct
import subprocess

from lib.files import as_version_1, content, put
from lib.paths import GAMESMAN
from lib.programs import SECONDS

# The end of a pipe that nobody reads. It is made before there are threads, so that no child of another thread holds the other end for a while.
NOBODY_READS, CLOSED = os.pipe()
os.close(NOBODY_READS)


class Line:
    """A command line: its words, what it reads, and what has to come of it. What is None is not looked at."""

    def __init__(self, words):
        self.words, self.given = words, b""
        self.status, self.out, self.parts, self.err, self.each = 0, [], [], [], None
        self.closed_out = False

    def read(self, mark, text):
        """Takes a further line of a text about this command line."""
        if mark == "<":
            self.given += text.replace("\\r", "\r").encode() + b"\n"
        elif mark == "<.":
            self.given += text.encode()
        elif mark == "<*":
            times, what = text.split()
            self.given += int(times) * what.encode()
        elif mark == "?":
            self.status = int(text)
        elif mark == ">":
            self.out.append(text)
        elif mark == "~":
            self.parts.append(text.replace("\\n", "\n"))
        elif mark == "!":
            self.err.append(text)
        elif mark == "!~":
            self.each = text
        elif mark == ">closed":
            self.closed_out = True
        else:
            raise SystemExit(f"lines: no such mark: {mark} {text}")

    def run(self, folder):
        """Why the program does something else, if it does."""
        out = CLOSED if self.closed_out else subprocess.PIPE
        ran = subprocess.run([GAMESMAN, *self.words], input=self.given, stdout=out, stderr=subprocess.PIPE, cwd=folder, timeout=SECONDS)
        return self.wrong(ran.returncode, (ran.stdout or b"").decode(), ran.stderr.decode())

    def wrong(self, status, out, err):
        """Why this outcome is not the one that has to come, if it is not."""
        if status != self.status:
            return f"status {status}, not {self.status}; it says {err!r}"
        if self.parts:
            missing = [part for part in self.parts if part not in out]
            if missing:
                return f"it does not write {missing[0]!r}"
        elif out != "".join(f"{line}\n" for line in self.out):
            return f"it writes {out!r}"
        if self.each:
            bad = [line for line in err.splitlines() if not re.fullmatch(self.each, line)] if err else ["nothing"]
            return f"it says {bad[0]!r}" if bad else None
        return None if err == "".join(f"{line}\n" for line in self.err) else f"it says {err!r}"

    def __str__(self):
        return shlex.join(["gamesman", *self.words])


class Deed:
    """What is done to the folder between two command lines."""

    def __init__(self, words):
        self.verb, self.words = words[0], words[1:]

    def run(self, folder):
        if self.verb == "write":
            return put(os.path.join(folder, self.words[0]), self.words[1].encode())
        return DEEDS[self.verb](*(os.path.join(folder, word) for word in self.words))

    def __str__(self):
        return " ".join([self.verb, *self.words])


def flip(path):
    """Changes the last byte of a file."""
    text = content(path)
    put(path, text[:-1] + bytes([text[-1] ^ 1]))


def gone(path):
    return "it is there" if os.path.lexists(path) else None


def same(one, other):
    """Why two folders differ, if they do."""
    names = sorted(os.listdir(one))
    if names != sorted(os.listdir(other)) or not names:
        return "they have other files"
    return next((f"{name} differs" for name in names if content(f"{one}/{name}") != content(f"{other}/{name}")), None)


def old(new, to):
    """Writes the tier files of a folder, as files of version 1, into another one."""
    for name in os.listdir(new):
        put(f"{to}/{name}", as_version_1(content(f"{new}/{name}")))


def mix(folder, game, right):
    """Mixes all records of a game's folder, tier by tier in the order of `check`, each with its index, and compares with the mix of right ones."""
    ran = subprocess.run([GAMESMAN, "check", os.path.basename(game), folder], capture_output=True, timeout=SECONDS)
    found = 0
    for line in ran.stdout.decode().splitlines():
        file = content(f"{folder}/tier-{line.split()[1]}.gmt")
        (size,) = struct.unpack_from("<Q", file, 32)
        for index, number in enumerate(struct.unpack_from(f"<{size}I", file, 40)):
            # (a value and a remoteness below 4,096, as the independent solver mixes them)
            record = (number >> 20) << 12 | number & 0xFFFFF
            found = (found * 0x10000000_1B3 + (record ^ index)) % 2**64
    return None if found == int(os.path.basename(right), 16) else f"the records differ: {found:x}"


DEEDS = {"mkdir": os.mkdir, "remove": os.remove, "flip": flip, "gone": gone, "same": same, "old": old, "mix": mix}


class Part:
    """Command lines that are run in turn, in an empty folder of their own."""

    def __init__(self, name):
        self.name, self.steps = name, []

    def run(self, room):
        """What is wrong, if anything; after the first wrong step no more are run."""
        folder = room.fresh()
        try:
            for step in self.steps:
                why = step.run(folder)
                if why:
                    return [f"{self.name}: {step}: {why}"]
        except subprocess.TimeoutExpired as late:
            return [f"{self.name}: {' '.join(late.cmd[1:])}: it hangs"]
        finally:
            shutil.rmtree(folder)
        return []


def parts_of(path):
    """The parts of a text."""
    found = []
    with open(path, encoding="utf-8") as it:
        for line in it.read().splitlines():
            mark, _, text = line.partition(" ")
            if not line or mark == "#":
                continue
            if mark == "==":
                found.append(Part(text))
            elif mark == "$":
                found[-1].steps.append(Line(shlex.split(text)[1:]))
            elif mark == "%":
                found[-1].steps.append(Deed(shlex.split(text)))
            else:
                found[-1].steps[-1].read(mark, text)
    return found
