"""Completions of bash, tried in bash: what is offered at each place is what the helps say that there is."""
import os
import re
import select
import shlex
import subprocess
import time

from lib.files import put
from lib.programs import SECONDS, told
from lines.helps import commands, helped, section

SHELLS = ["bash", "zsh", "fish"]

# The option that comes before a command.
EXPLAIN = "--explain"


def completions(folder):
    """The file with the completions of bash, in a folder."""
    path = os.path.join(folder, "gamesman")
    put(path, told("completions", "bash").encode())
    return path


def offered(path, lines):
    """What bash is offered for the last word of each of these lines of words, by the function that the file names to it."""
    script = [f"source {shlex.quote(path)}", "it=$(complete -p gamesman) && it=${it##*-F } && it=${it%% *}"]
    for words in lines:
        quoted = " ".join(map(shlex.quote, words))
        script.append(f"COMP_WORDS=({quoted}) COMP_CWORD={len(words) - 1} COMPREPLY=()")
        script.append(f'$it gamesman {shlex.quote(words[-1])} {shlex.quote(words[-2])}; echo "${{COMPREPLY[*]}}"')
    ran = subprocess.run(["bash", "--norc", "-c", "\n".join(script)], capture_output=True, text=True, timeout=SECONDS, check=False)
    return [sorted(line.split()) for line in ran.stdout.splitlines()], ran.stderr


def options(text):
    """The options that a help names, but for itself."""
    return [f"--{name}" for name in re.findall(r"(?m)^ +(?:-\w, )?--([\w-]+)", text) if name not in ("help", "version")]


def cases():
    """Lines of words with what has to be offered for the last one."""
    names, games = commands(), told("list", "--all").split()
    yield ["gamesman", ""], [*names, EXPLAIN]
    for start in ("q", "c", "com", "list", "no", "--", "--e"):
        yield ["gamesman", start], [name for name in [*names, EXPLAIN] if name.startswith(start)]
    yield ["gamesman", EXPLAIN, ""], names
    yield ["gamesman", EXPLAIN, "que"], ["query"]
    yield ["gamesman", EXPLAIN, "query", "tactix-3"], ["tactix-3", "tactix-3-misere"]
    for name in names:
        text = helped(name)
        places, flags = section(text, "Arguments"), options(text)
        takes_game = "<GAME>" in places or "[GAME]" in places
        values = (games if takes_game else []) + (SHELLS if "<SHELL>" in places else [])
        yield ["gamesman", name, ""], flags + values
        for start in ("--", "--re", "--f", "tactix-3", "h", "ba", "no"):
            yield ["gamesman", name, start], [it for it in flags + values if it.startswith(start)]
        if takes_game:
            yield ["gamesman", name, "dao", "--"], flags
    yield ["gamesman", "chess", ""], []
    yield ["gamesman", "analyze", "tactix-3"], ["tactix-3", "tactix-3-misere"]
    yield ["gamesman", "solve", "dao", "tables", "--workers", ""], []
    yield ["gamesman", "query", "dao", "--folder", "d"], []
    yield ["gamesman", "find", "dao", "--value", ""], ["win", "tie", "draw", "lose"]


def completions_of_bash(room):
    every = list(cases())
    found, fault = offered(completions(room.fresh()), [words for words, _ in every])
    if fault or len(found) != len(every) or len(every) < 100:
        return f"{len(found)} answers to {len(every)} lines: {fault}"
    wrong = [f"{' '.join(words)!r}: {said}" for (words, wanted), said in zip(every, found) if said != sorted(wanted)]
    return wrong[0] if wrong else None


# What is typed at a terminal, with a tab after the beginning of a command, a game, an option and a shell, and the words that then are there.
TYPED = (
    (b"gamesman que\ttactix-3-m\t--fo\t\n", b"<query><tactix-3-misere><--folder>"),
    (b"gamesman completions fi\t\n", b"<completions><fish>"),
    (b"gamesman solve mutor\ttab\t --wor\t9\n", b"<solve><mutorere><tables/><--workers><9>"),
)


def read_up_to(terminal, text):
    """What a terminal writes, up to this text, or to its end, or for so long as a line may take."""
    found, end = b"", time.monotonic() + SECONDS
    while text not in found and time.monotonic() < end:
        if select.select([terminal], [], [], 1)[0]:
            try:
                found += os.read(terminal, 4096)
            except OSError:
                break
    return found


def wrong_at(terminal):
    """What a shell at a terminal completes otherwise than it must, if anything; it is told to end at last."""
    read_up_to(terminal, b"ready ")
    os.write(terminal, b"source ./gamesman; gamesman() { printf '<%s>' \"$@\"; echo; }\n")
    read_up_to(terminal, b"\nready ")
    for typed, wanted in TYPED:
        os.write(terminal, typed)
        found = read_up_to(terminal, b"\nready ")
        if wanted + b"\r\n" not in found:
            return f"{typed!r}: {found!r}"
    os.write(terminal, b"exit\n")
    return None


def tabs_at_a_terminal(room):
    """A shell with the completions, in which `gamesman` prints its words."""
    folder, (terminal, inner) = room.fresh(), os.openpty()
    completions(folder)
    os.mkdir(os.path.join(folder, "tables"))
    env = {"PATH": "/usr/bin:/bin", "TERM": "dumb", "PS1": "ready ", "INPUTRC": "/dev/null", "HOME": folder}
    how = {"stdin": inner, "stdout": inner, "stderr": inner, "cwd": folder, "env": env, "start_new_session": True}
    shell = subprocess.Popen(["bash", "--norc", "--noprofile", "-i"], **how)
    os.close(inner)
    try:
        return wrong_at(terminal) or (None if shell.wait(SECONDS) == 0 else "the shell failed")
    finally:
        shell.kill()
        shell.wait()
        os.close(terminal)


COMPLETED = (completions_of_bash, tabs_at_a_terminal)
