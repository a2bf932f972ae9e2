"""What tools/install puts under a prefix, and that it leaves nothing where it can't put everything."""
import os
import shutil
import subprocess
import sys

from lib.files import content, put
from lib.paths import GAMESMAN, IS_ANOTHER, TOOLS
from lib.programs import SECONDS, LeftOut

INSTALL = os.path.join(TOOLS, "install")

# What the program prints for each place but its own.
PRINTED = {
    "share/man/man1/gamesman.1": ["man"],
    "share/bash-completion/completions/gamesman": ["completions", "bash"],
    "share/zsh/site-functions/_gamesman": ["completions", "zsh"],
    "share/fish/vendor_completions.d/gamesman.fish": ["completions", "fish"],
}
PLACES = ["bin/gamesman", *PRINTED]


def ran(*words, cwd=None, by=INSTALL):
    done = subprocess.run([sys.executable, "-B", by, *words], cwd=cwd, capture_output=True, text=True, timeout=SECONDS, check=False)
    return done.returncode, done.stdout, done.stderr


def told(program, *words):
    return subprocess.run([program, *words], capture_output=True, timeout=SECONDS, check=True).stdout


def files_under(prefix):
    return {os.path.relpath(os.path.join(folder, name), prefix) for folder, _, names in os.walk(prefix) for name in names}


def wrong_under(prefix):
    """What is under a prefix otherwise than it must be after an installation."""
    if files_under(prefix) != set(PLACES):
        return f"the files {sorted(files_under(prefix))}"
    modes = {place: os.stat(f"{prefix}/{place}").st_mode & 0o777 for place in PLACES}
    if modes != {place: 0o644 if place in PRINTED else 0o755 for place in PLACES}:
        return f"the modes {modes}"
    program = f"{prefix}/bin/gamesman"
    if content(program) != content(GAMESMAN) or told(program, "query", "countdown", "10") != b"win in 7\n":
        return "another program"
    return next((f"another {place}" for place, words in PRINTED.items() if content(f"{prefix}/{place}") != told(program, *words)), None)


def leave_out_another():
    """Leaves a part out if another program is tried than the one that is installed."""
    if IS_ANOTHER:
        raise LeftOut("tools/install installs the built program, and another one is tried")


def the_program_is_installed(room):
    """Into a prefix that is not there, by its name from where one stands; then over it, with a file in the way of the manual page."""
    leave_out_another()
    place = room.fresh()
    prefix = f"{place}/new/prefix"
    for way in "new/prefix", prefix:
        outcome = ran(way, cwd=place)
        if outcome != (0, "".join(f"{prefix}/{name}\n" for name in PLACES), ""):
            return f"{outcome}"
        why = wrong_under(prefix)
        if why:
            return why
        put(f"{prefix}/share/man/man1/gamesman.1", b"old")
    return None


def what_cannot_be_installed(room):
    """A file where a folder has to be, and a folder where a file has to be: a word on it, and nothing more or less than before is there."""
    leave_out_another()
    for name, is_folder, fault in (("share/zsh", False, ": File exists"), ("share/fish/vendor_completions.d/gamesman.fish", True, " is a folder")):
        prefix = room.fresh()
        os.makedirs(f"{prefix}/{name}" if is_folder else os.path.dirname(f"{prefix}/{name}"))
        if not is_folder:
            put(f"{prefix}/{name}", b"mine")
        before = sorted(os.walk(prefix))
        outcome = ran(prefix)
        if outcome != (1, "", f"install: {prefix}/{name}{fault}\n") or sorted(os.walk(prefix)) != before:
            return f"{name}: {outcome}, {sorted(os.walk(prefix))}"
    return None


def another_tree(room, program):
    """A tree with the installer and this text as its program, where there is one."""
    tree = room.fresh()
    os.makedirs(f"{tree}/tools")
    shutil.copy(INSTALL, f"{tree}/tools/install")
    if program:
        os.makedirs(f"{tree}/crates/gamesman/out")
        put(f"{tree}/crates/gamesman/out/gamesman", program)
        os.chmod(f"{tree}/crates/gamesman/out/gamesman", 0o755)
    return f"{tree}/tools/install"


def nothing_is_installed_by_halves(room):
    """Where the program is not built, where it fails at one of its texts, and for lines that are none."""
    fails = b'#!/bin/sh\necho text\n[ "$2" != fish ]\n'
    for program, status, word in ((None, 1, "is not built"), (fails, 1, "completions fish failed with status 1")):
        prefix = room.fresh()
        outcome = ran(prefix, by=another_tree(room, program))
        if outcome[:2] != (status, "") or word not in outcome[2] or os.listdir(prefix):
            return f"{outcome}, {os.listdir(prefix)}"
    for words in (["--prefix"], ["one", "two"], [""]):
        place = room.fresh()
        outcome = ran(*words, cwd=place)
        if outcome[:2] != (2, "") or not outcome[2].startswith("install: bad line") or os.listdir(place):
            return f"{words}: {outcome}"
    status, out, err = ran("--help")
    return None if (status, err) == (0, "") and all(name in out for name in PLACES) else f"--help: {status}, {out!r}, {err!r}"


INSTALLED = (the_program_is_installed, what_cannot_be_installed, nothing_is_installed_by_halves)
