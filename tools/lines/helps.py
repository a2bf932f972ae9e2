"""The samples of every help, as a reader would run them: one after the other in one folder."""
import os
import re
import shutil

from lib.programs import told
from lines.samples import run_line

# What the samples write to: folders for tables, and where the shells of a user read completions.
FOLDERS = ("tables", "dao-tables", ".local/share/bash-completion/completions", ".config/fish/completions")

# A text that the program takes for an engine: it looks only at its digits.
ENGINE = "engine.txt", "H4sIAAAA+/8=\n"

# A list of positions of two games.
LIST = "list.txt", "countdown\t10\nwheel\t2\n"


def helped(*words):
    return told(*words, "--help")


def section(text, head):
    """The first words of the lines below a head of a help, up to an empty line."""
    found = re.search(rf"(?ms)^{head}:\n(.*?)(?:\n\n|\Z)", text)
    return [line.split()[0] for line in found[1].splitlines() if re.match(r"  \S", line)] if found else []


def commands():
    return [name for name in section(helped(), "Commands") if name != "help"]


def samples():
    """The samples of each command, in the order of the help."""
    return {name: [line.strip() for line in helped(name).partition("\nExamples:\n")[2].splitlines() if line] for name in commands()}


def home(folder):
    """A folder, with what the samples take as given."""
    for name in FOLDERS:
        os.makedirs(f"{folder}/{name}")
    for name, text in (ENGINE, LIST):
        with open(f"{folder}/{name}", "w", encoding="ascii") as file:
            file.write(text)
    return folder


def outcome(sample, folder):
    """The status of a sample, the last line that it writes (to its file, where it names one), and what it says beside its progress."""
    man = shutil.which("man", path="/usr/bin:/bin")
    ran = run_line(sample if man else sample.replace("man -l -", "cat"), folder)
    out, err = ran.stdout.decode(), ran.stderr.decode().splitlines()
    to = re.search(r" > (\S+)$", sample)
    if to:
        with open(os.path.join(folder, to[1].replace("~", folder)), encoding="utf-8") as file:
            out += file.read()
    said = [line for line in err if "--progress" not in sample or not re.match(r"tier \d+ \(", line)]
    return ran.returncode, (said or out.splitlines() or [""])[-1], said


def wrong(sample, folder):
    """Why a sample ends otherwise than it must: with something written and nothing said."""
    status, last, said = outcome(sample, folder)
    return None if status == 0 and last and not said else f"'{sample}': status {status}, {last!r}, {said!r}"


def samples_of_every_help(room):
    """All of them, in one folder."""
    folder, every = home(room.fresh()), samples()
    few = [name for name, lines in every.items() if len(lines) < 2]
    if few or len(every) < 14:
        return f"the help of {few} has no two samples; {len(every)} commands"
    return next(filter(None, (wrong(sample, folder) for lines in every.values() for sample in lines)), None)


HELPS = (samples_of_every_help,)
